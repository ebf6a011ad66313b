"""Winning trees, as nested tuples and as text."""

import re
from typing import Any, Dict, Iterator, List, Tuple, Union

from . import _calls
from .moves import Move
from .refusals import answered

# The attacker's move, and then "#" for mate, "=" for stalemate, or each reply of the defender with the tree that meets it.
Tree = Tuple[Move, Union[str, Tuple[Tuple[Move, "Tree"], ...]]]

TOKEN = re.compile(r"[a-f][1-6][a-f][1-6][qrbn]?|.", re.A | re.S)
ENDS = ("#", "=")
# Any sound position: whether a text is a tree's has nothing to do with it.
ANY = b"k5/6/2K3/6/6/1R4 w"


def tree_text(tree: Tree) -> str:
    """The tree as `minimate tree` writes it, without a line feed."""
    parts: List[str] = []
    left: List[Any] = [tree]
    while left:
        item = left.pop()
        if isinstance(item, str):
            parts.append(item)
            continue
        move, end = item
        if isinstance(end, str):
            parts += [move, end]
            continue
        left.append("}")
        for i, (reply, below) in reversed(list(enumerate(end))):
            left += [below, f"{',' if i else ''}{reply}:"]
        left.append(f"{move}{{")
    return "".join(parts)


def read_tree(text: str) -> Tree:
    """The tree of a text, as `minimate tree` writes it. Another text is `Refused`, as `minimate check` refuses it.

    Whether it wins at a position is asked of `Solver.check`.
    """
    answered(_calls.calls().ask("check", ANY, False, text.encode()))
    return known_tree(text)


class Moves(Dict[str, Move]):
    """Each move once, however often a tree has it."""

    def __missing__(self, text: str) -> Move:
        self[text] = Move(text)
        return self[text]


def known_tree(text: str) -> Tree:
    """The tree of a text that is known to be one's."""
    return next_tree((found[0] for found in TOKEN.finditer(text)), Moves())


def next_tree(tokens: Iterator[str], moves: Moves) -> Tree:
    """The tree that comes next. No more than 32 of them are nested."""
    move, end = moves[next(tokens)], next(tokens)
    if end in ENDS:
        return move, end
    replies = []
    while end != "}":
        reply = moves[next(tokens)]
        next(tokens)
        replies.append((reply, next_tree(tokens, moves)))
        end = next(tokens)
    return move, tuple(replies)
