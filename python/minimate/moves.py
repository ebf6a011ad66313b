"""Moves by their texts."""

import re
from typing import Optional

from .refusals import named

FORM = re.compile(r"[a-f][1-6][a-f][1-6][qrbn]?", re.A)


class Move(str):
    """A move, which is its text: the square it goes from, the one it goes to, and for a pawn on the last rank what it becomes, as ``c4c5q``.

    It equals that text. Another text is `Refused`; whether a position has the move is asked of `Position.moves`.
    """

    __slots__ = ()

    def __new__(cls, text: str) -> "Move":
        if not isinstance(text, str) or not FORM.fullmatch(text):
            raise named("Move")
        return super().__new__(cls, text)

    @classmethod
    def from_uci(cls, text: str) -> "Move":
        """The move of this text, by the name that python-chess has for it."""
        return cls(text)

    def uci(self) -> str:
        """The text, by the name that python-chess has for it."""
        return str(self)

    @property
    def from_square(self) -> str:
        """The square that it goes from, as ``c4``."""
        return self[:2]

    @property
    def to_square(self) -> str:
        """The square that it goes to, as ``c5``."""
        return self[2:4]

    @property
    def promotion(self) -> Optional[str]:
        """What the pawn becomes: ``q``, ``r``, ``b`` or ``n``."""
        return self[4:] or None
