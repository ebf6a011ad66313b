"""Positions of both games."""

import enum
import re
from typing import Dict, List, Optional, Tuple, Union

from . import _calls, drawing
from .moves import Move
from .refusals import Refused, answered

# Sides, as python-chess has them.
WHITE, BLACK = True, False
# FEN's six fields, parted by one blank each: the board, the side to move, and four that change no mate in these games.
SIX_FIELDS = re.compile(r"([^ ]*/[^ ]* [^ ]+)(?: [^ ]+){4}")


class Game(enum.Enum):
    """One of the two games."""

    LOS_ALAMOS = "Los Alamos chess"
    GARDNER = "Gardner minichess"

    @property
    def size(self) -> int:
        """How many files and ranks the board has."""
        return 6 if self is Game.LOS_ALAMOS else 5

    @property
    def start(self) -> "Position":
        """The position that a game begins with."""
        return Position("rnqknr/pppppp/6/6/PPPPPP/RNQKNR w" if self is Game.LOS_ALAMOS else "rnbqk/ppppp/5/PPPPP/RNBQK w")


class Position:
    """A position: the board and the side to move.

    It is made of its text in Forsyth-Edwards Notation, as ``k5/6/2K3/6/6/1R4 w``; of a text of six fields it takes the first two, since
    the others change no mate. Another text that the program refuses is `Refused`. A
    position doesn't change: `after` gives another one, where a board of python-chess has `push`. Positions are equal that have one text,
    and may be members of sets. Its text as `str` is the board as `minimate show` draws it; a notebook draws it as a picture.
    """

    __slots__ = ("_text",)
    _text: str

    def __init__(self, text: str) -> None:
        if not isinstance(text, str):
            raise TypeError(f"a position is made of a text: here is {type(text).__name__}")
        six = SIX_FIELDS.fullmatch(text)
        self._text = six[1] if six else text
        answered(_calls.calls().ask("fault", self._text.encode()))

    @classmethod
    def _known(cls, text: str) -> "Position":
        """The position of a text that the library wrote."""
        made = cls.__new__(cls)
        made._text = text
        return made

    @property
    def text(self) -> str:
        """Its one text."""
        return self._text

    def fen(self) -> str:
        """Its one text, by the name that python-chess has for it."""
        return self._text

    @property
    def game(self) -> Game:
        """The game that is played on its board."""
        return Game.LOS_ALAMOS if self._text.count("/") == 5 else Game.GARDNER

    @property
    def turn(self) -> bool:
        """The side to move: `WHITE` or `BLACK`."""
        return self._text.endswith("w")

    @property
    def mover(self) -> str:
        """The side to move: ``White`` or ``Black``."""
        return "White" if self.turn else "Black"

    def piece_map(self) -> Dict[str, str]:
        """Each unit's letter by its square, as ``{"a6": "k", "c4": "K", "b1": "R"}``; capitals are White's."""
        rows = drawing.rows_of(self._text)
        squares = ((f"{'abcdef'[i]}{rank}", letter) for rank, row in zip(range(len(rows), 0, -1), rows) for i, letter in enumerate(row))
        return {square: letter for square, letter in squares if letter != drawing.EMPTY}

    def piece_at(self, square: str) -> Optional[str]:
        """The letter of the unit on a square, as ``c4``, or None."""
        return self.piece_map().get(square)

    def moves(self) -> List[Move]:
        """The lawful moves, in order: by the square they go from, the one they go to, and what a pawn becomes."""
        return [Move(line) for line in answered(_calls.calls().ask("moves", self._text.encode())).splitlines()]

    @property
    def legal_moves(self) -> Tuple[Move, ...]:
        """The lawful moves, by the name that python-chess has for them."""
        return tuple(self.moves())

    def after(self, *moves: Union[Move, str]) -> "Position":
        """The position after these moves, one after the other. A move that isn't lawful is `Refused`."""
        text = self._text
        for move in moves:
            text = answered(_calls.calls().ask("after", text.encode(), move.encode())).rstrip("\n")
        return Position._known(text)

    def is_check(self) -> bool:
        """Whether the king of the side to move is attacked: with the other side to move the position is then refused for that."""
        other = self._text[:-1] + ("b" if self.turn else "w")
        try:
            answered(_calls.calls().ask("fault", other.encode()))
        except Refused as why:
            return why.name == "OtherInCheck"
        return False

    def is_checkmate(self) -> bool:
        """Whether the side to move is mated."""
        return not self.moves() and self.is_check()

    def is_stalemate(self) -> bool:
        """Whether the side to move is stalemated."""
        return not self.moves() and not self.is_check()

    def __eq__(self, other: object) -> bool:
        if not isinstance(other, Position):
            return NotImplemented
        return self._text == other._text

    def __hash__(self) -> int:
        return hash((Position, self._text))

    def __reduce__(self) -> Tuple[type, Tuple[str]]:
        return Position, (self._text,)

    def __repr__(self) -> str:
        return f"Position({self._text!r})"

    def __str__(self) -> str:
        return drawing.board_text(self._text)

    def _repr_svg_(self) -> str:
        return drawing.board_svg(self._text)
