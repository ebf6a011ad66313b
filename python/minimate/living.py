"""A solver of the library that lives: question after question over one table, and stopped from another thread."""

import ctypes
from typing import Any, Tuple

from .rooms import ROOM, lent

# What the calls answer, as include/minimate.h has it.
FORCED, NONE_WITHIN, REFUSED, LIMIT, STOPPED = range(5)
SLOTS, NO_MEMORY, TOO_SMALL = 6, 7, 9
MOST_PLIES = 63
WHY = {LIMIT: b"refused: Limit\n", SLOTS: b"refused: Slots\n", NO_MEMORY: b"refused: NoMemory\n", STOPPED: b"stopped\n"}


class Handle(ctypes.Structure):
    """What a program holds of a solver, or of what stops it."""

    _fields_ = [("full", ctypes.c_bool), ("held", ctypes.c_void_p), ("spare", ctypes.c_void_p)]


class First(ctypes.Structure):
    """A move in plain numbers."""

    _fields_ = [(name, ctypes.c_uint8) for name in ("from_file", "from_rank", "to_file", "to_rank", "promotion")]


class Found(ctypes.Structure):
    """An answer in plain numbers."""

    _fields_ = [("plies", ctypes.c_uint32), ("first", First)]


class Place(ctypes.Structure):
    """How far a search is."""

    _fields_ = [(name, ctypes.c_uint32) for name in ("none_within", "tried", "moves")]


QUESTION = [ctypes.POINTER(Handle), ctypes.c_char_p, ctypes.c_size_t, ctypes.c_bool, ctypes.c_uint32]
TEXT = [*QUESTION, ctypes.c_char_p, ctypes.c_size_t, ctypes.POINTER(ctypes.c_size_t)]
PARAMETERS = {
    "solver_open": ([ctypes.POINTER(Handle), ctypes.POINTER(Handle), ctypes.c_uint32], ctypes.c_uint32),
    "solver_solve": ([*QUESTION, ctypes.POINTER(Found)], ctypes.c_uint32),
    "solver_keys": (TEXT, ctypes.c_uint32),
    "solver_tree": (TEXT, ctypes.c_uint32),
    "solver_close": ([ctypes.POINTER(Handle)], None),
    "stop_set": ([ctypes.POINTER(Handle), ctypes.c_bool], ctypes.c_uint32),
    "stop_place": ([ctypes.POINTER(Handle), ctypes.POINTER(Place)], ctypes.c_uint32),
    "stop_close": ([ctypes.POINTER(Handle)], None),
}


class Living:
    """A solver over so many slots. It is in one search at a time; `stop` and `told` are for another thread."""

    def __init__(self, library: Any, slots: int) -> None:
        self.library, self.slots = library, slots
        self.solver, self.stopper = Handle(), Handle()
        for word, (parameters, result) in PARAMETERS.items():
            call = getattr(library, f"minimate_{word}")
            call.argtypes, call.restype = parameters, result
        self.opened: int = library.minimate_solver_open(self.solver, self.stopper, slots)
        # How far the last search was, until the next one tells.
        self.last = (0, 0, 0)

    def __del__(self) -> None:
        self.library.minimate_stop_close(self.stopper)
        self.library.minimate_solver_close(self.solver)

    def solve(self, text: bytes, stale: bool, limit: int) -> bytes:
        """What `minimate solve` writes, or that the search was stopped."""
        if self.opened:
            # The program refuses a limit first.
            return WHY[self.opened if 1 <= limit <= MOST_PLIES else LIMIT]
        found = Found()
        result: int = self.library.minimate_solver_solve(self.solver, text, len(text), stale, limit, found)
        if result == FORCED:
            move = found.first
            squares = bytes([97 + move.from_file, 49 + move.from_rank, 97 + move.to_file, 49 + move.to_rank])
            letter = bytes([move.promotion]) if move.promotion else b""
            return b"%s %d %s%s\n" % (b"goal" if stale else b"mate", found.plies, squares, letter)
        return b"none within %d\n" % limit if result == NONE_WITHIN else WHY[result]

    def keys(self, text: bytes, stale: bool, limit: int) -> bytes:
        """What `minimate keys` writes, or that the search was stopped."""
        return self._written("keys", text, stale, limit)

    def tree(self, text: bytes, stale: bool, limit: int) -> bytes:
        """What `minimate tree` writes, or that the search was stopped."""
        return self._written("tree", text, stale, limit)

    def _written(self, word: str, text: bytes, stale: bool, limit: int) -> bytes:
        """A text of the library's. Where it had too little room, the table knows what was searched when it is asked for anew."""
        if self.opened:
            return WHY[self.opened if 1 <= limit <= MOST_PLIES else LIMIT]
        call, length, result = getattr(self.library, f"minimate_solver_{word}"), ctypes.c_size_t(ROOM), TOO_SMALL
        while result == TOO_SMALL:
            size = length.value
            room = lent(size)
            result = call(self.solver, text, len(text), stale, limit, room, size, length)
        return ctypes.string_at(room, length.value) if result in (FORCED, NONE_WITHIN) else WHY[result]

    def begin(self) -> None:
        """Nobody has asked the search that is to come to stop, and it has told nothing."""
        self.stop(False)
        self.last = self.place()

    def stop(self, is_set: bool) -> None:
        """Ends the search that is under way, and each that is begun until it is told not to."""
        self.library.minimate_stop_set(self.stopper, is_set)

    def place(self) -> Tuple[int, int, int]:
        """The plies within which nothing is forced, and how many moves of the round are tried, of how many."""
        place = Place()
        self.library.minimate_stop_place(self.stopper, place)
        return place.none_within, place.tried, place.moves

    def told(self) -> Tuple[int, int, int]:
        """The place of the search under way, as far as it has told any."""
        place = self.place()
        return (0, 0, 0) if place == self.last else place


def lives(library: Any) -> bool:
    """Whether the library has such solvers."""
    return hasattr(library, "minimate_solver_tree")
