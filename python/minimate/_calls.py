"""The shared library: where it is found, and its eight calls, each from texts to a reply. include/minimate.h says what a caller owes."""

import ctypes
import ctypes.util
import operator
import os
import threading
from typing import Any, Dict, List, Optional, Union

from .living import Living, lives
from .rooms import ROOM, lent

NAME = "libminimate.so"
TOO_SMALL = ctypes.c_size_t(-1).value
# What a number of a call can be. Outside stands nothing that a call would take.
MOST_NUMBER = 2**32 - 1
# How much more room a reply gets that had too little.
FURTHER = 8

TEXT: List[Any] = [ctypes.c_char_p, ctypes.c_size_t]
SEARCH: List[Any] = [*TEXT, ctypes.c_bool, ctypes.c_uint32, ctypes.c_uint32]
PARAMETERS: Dict[str, List[Any]] = {
    "solve": SEARCH,
    "keys": SEARCH,
    "tree": SEARCH,
    "check": [*TEXT, ctypes.c_bool, *TEXT],
    "verify": [*TEXT, ctypes.c_bool, *TEXT],
    "moves": TEXT,
    "after": [*TEXT, *TEXT],
    "fault": TEXT,
}


class Calls:
    """The calls of the library at a path."""

    def __init__(self, path: str) -> None:
        self.path = path
        # While a call runs, other threads of Python run too.
        self.library = ctypes.CDLL(path)
        for word, parameters in PARAMETERS.items():
            call = getattr(self.library, f"minimate_{word}", None)
            if call is None:
                raise OSError(f"{path} is no libminimate: it has no minimate_{word}")
            call.argtypes, call.restype = [*parameters, ctypes.c_char_p, ctypes.c_size_t], ctypes.c_size_t

    def living(self, slots: int) -> Optional[Living]:
        """A solver that lives, where the library has such."""
        return Living(self.library, slots) if lives(self.library) else None

    def ask(self, word: str, *values: Union[bytes, bool, int], room: int = ROOM) -> bytes:
        """The reply of a call. A text crosses as where it stands and its length."""
        given: List[Any] = []
        for value in values:
            given += [value, len(value)] if isinstance(value, bytes) else [value]
        call = getattr(self.library, f"minimate_{word}")
        while True:
            block = lent(room)
            count: int = call(*given, block, room)
            if count != TOO_SMALL:
                return ctypes.string_at(block, count)
            room *= FURTHER


def number(value: int) -> int:
    """The number as a call takes it. One that doesn't fit becomes one that is refused as well."""
    return min(max(operator.index(value), 0), MOST_NUMBER)


def find_library() -> str:
    """The path of the library, or its name where the system knows it."""
    named = os.environ.get("MINIMATE_LIBRARY")
    if named:
        return os.path.join(named, NAME) if os.path.isdir(named) else named
    here = os.path.dirname(os.path.abspath(__file__))
    of_clone = os.path.join(os.path.dirname(os.path.dirname(here)), "out")
    # A release has the package in share/minimate/python/minimate.
    of_release = os.path.join(os.path.abspath(os.path.join(here, *4 * [os.pardir])), "lib")
    for folder in (here, of_clone, of_release):
        if os.path.isfile(os.path.join(folder, NAME)):
            return os.path.join(folder, NAME)
    of_system = ctypes.util.find_library("minimate")
    if of_system is None:
        raise OSError(f"found no {NAME}: build it by tools/build_c --shared, or name it by MINIMATE_LIBRARY")
    return of_system


_loading = threading.Lock()
_loaded: Optional[Calls] = None


def calls() -> Calls:
    """The library's calls. It is looked for and loaded once, when the first one is wanted."""
    global _loaded
    with _loading:
        if _loaded is None:
            _loaded = Calls(find_library())
        return _loaded


def library_path() -> str:
    """The path of the library that is used, or its name where the system knows it. OSError says that there is none."""
    return calls().path
