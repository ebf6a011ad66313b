"""What a search answers."""

from typing import NamedTuple, Optional

from .moves import Move

NONE_WITHIN = "none within "


class Answer(NamedTuple):
    """What `Solver.solve` found; its text is the line that `minimate solve` writes.

    `kind` is ``mate``, or for the goal ``stale`` ``goal``, with the fewest plies that force it and the least first move that keeps them;
    or ``none``, with the limit within which nothing is forced, and no move.
    """

    kind: str
    plies: int
    first: Optional[Move]

    @property
    def is_forced(self) -> bool:
        """Whether the goal is forced within the limit."""
        return self.first is not None

    def __str__(self) -> str:
        return f"{self.kind} {self.plies} {self.first}" if self.is_forced else f"{NONE_WITHIN}{self.plies}"


class Key(NamedTuple):
    """A first move that forces the goal, and the fewest plies that it takes; its text is the line that `minimate keys` writes."""

    move: Move
    plies: int

    def __str__(self) -> str:
        return f"{self.move} {self.plies}"


def read_answer(text: str) -> Answer:
    """The answer of a line that the library wrote."""
    kind, plies, last = text.split()
    return Answer("none", int(last), None) if kind == "none" else Answer(kind, int(plies), Move(last))


def read_key(line: str) -> Key:
    """The key of a line that the library wrote."""
    move, plies = line.split()
    return Key(Move(move), int(plies))
