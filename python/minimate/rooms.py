"""Rooms that the library's calls write texts into."""

import ctypes
import mmap
from typing import Any

from .refusals import NoMemory

# Bytes that most replies have room in.
ROOM = 4096
# A greater room takes memory only where it is written.
PLAIN_ROOM = 1 << 20


def lent(size: int) -> Any:
    """A room of so many bytes, which are 0."""
    if size <= PLAIN_ROOM:
        return ctypes.create_string_buffer(size)
    try:
        return (ctypes.c_char * size).from_buffer(mmap.mmap(-1, size))
    except OSError as why:
        raise NoMemory from why
