"""Boards as people see them, of texts that are known to be positions."""

import re
from typing import List

EMPTY = "."
FILES = "abcdef"
# The last character has them drawn as text, where a system would draw a pawn in its own colours.
FIGURES = {letter: f"{figure}\ufe0e" for letter, figure in zip("kqrbnp", "\u265a\u265b\u265c\u265d\u265e\u265f")}
NAMES = dict(zip("kqrbnp", ("king", "queen", "rook", "bishop", "knight", "pawn")))
SQUARE, EDGE = 45, 20
LIGHT, DARK = "#f0d9b5", "#b58863"


def rows_of(fen: str) -> List[str]:
    """The ranks, the last one first, with a dot for each empty square."""
    return [re.sub(r"\d", lambda run: EMPTY * int(run[0]), row) for row in fen.split(" ")[0].split("/")]


def mover_of(fen: str) -> str:
    return "White to move" if fen.endswith("w") else "Black to move"


def board_text(fen: str) -> str:
    """The board as `minimate show` draws it, without a line feed at its end."""
    rows = rows_of(fen)
    lines = [f" {rank}  {' '.join(row)}" for rank, row in zip(range(len(rows), 0, -1), rows)]
    return "\n".join([*lines, f"    {' '.join(FILES[: len(rows)])}      {mover_of(fen)}"])


def board_svg(fen: str) -> str:
    """The board as a picture that stands alone, with its files and ranks."""
    rows = rows_of(fen)
    board = len(rows) * SQUARE
    size = f'width="{board + EDGE}" height="{board + EDGE}" viewBox="0 0 {board + EDGE} {board + EDGE}"'
    parts = [f'<svg xmlns="http://www.w3.org/2000/svg" {size} role="img" aria-label="{mover_of(fen)}: {fen}">']
    parts.append(f'<rect width="{board + EDGE}" height="{board + EDGE}" fill="#fff"/>')
    for i, row in enumerate(rows):
        parts.append(label(str(len(rows) - i), EDGE / 2, i * SQUARE + SQUARE / 2 + 5))
        for j, letter in enumerate(row):
            parts += square_svg(EDGE + j * SQUARE, i * SQUARE, (len(rows) - 1 - i + j) % 2 == 1, letter)
    parts += [label(FILES[j], EDGE + j * SQUARE + SQUARE / 2, board + 15) for j in range(len(rows))]
    return "".join([*parts, "</svg>"])


def label(text: str, x: float, y: float) -> str:
    """The name of a file or a rank."""
    return f'<text x="{x:g}" y="{y:g}" font-family="sans-serif" font-size="13" text-anchor="middle" fill="#000">{text}</text>'


def square_svg(x: int, y: int, is_light: bool, letter: str) -> List[str]:
    """A square, and the unit on it: Black's figures are filled black, White's white."""
    parts = [f'<rect x="{x}" y="{y}" width="{SQUARE}" height="{SQUARE}" fill="{LIGHT if is_light else DARK}"/>']
    if letter != EMPTY:
        colour, name = ("White", NAMES[letter.lower()]) if letter.isupper() else ("Black", NAMES[letter])
        look = f'font-size="36" text-anchor="middle" stroke="#000" stroke-width="1" fill="{"#fff" if letter.isupper() else "#000"}"'
        place = f'x="{x + SQUARE / 2:g}" y="{y + 35}"'
        parts.append(f"<text {place} {look}><title>{colour} {name}</title>{FIGURES[letter.lower()]}</text>")
    return parts
