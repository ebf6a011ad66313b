"""Forced mates in Los Alamos chess and Gardner minichess.

>>> from minimate import Position, Solver
>>> Solver().solve(Position("k5/6/2K3/6/6/1R4 w"), limit=3)
Answer(kind='mate', plies=3, first='c4c5')

Answers come from the proved calls of libminimate.so; this package hands texts to them and reads the replies, and is tested, not proved.
The library is the file that MINIMATE_LIBRARY names, else the one beside this package, else the clone's (`tools/build_c --shared`), else
the system's.

A search runs in a thread of its own, so that Ctrl-C ends it at once.
"""

from ._calls import library_path
from .answers import Answer, Key
from .certificates import verify
from .moves import Move
from .positions import BLACK, WHITE, Game, Position
from .refusals import NoMemory, Refused
from .searching import Interrupted
from .solver import Solver
from .trees import Tree, read_tree, tree_text

__version__ = "0.1.0"

# A traceback names them as whoever catches them does.
for _exception in (Interrupted, NoMemory, Refused):
    _exception.__module__ = __name__

__all__ = [
    "Answer",
    "BLACK",
    "Game",
    "Interrupted",
    "Key",
    "Move",
    "NoMemory",
    "Position",
    "Refused",
    "Solver",
    "Tree",
    "WHITE",
    "library_path",
    "read_tree",
    "tree_text",
    "verify",
]
