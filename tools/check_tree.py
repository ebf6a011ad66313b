#!/usr/bin/env python3
"""A second checker of winning trees, made from docs/ alone, in Python's standard library.

    tools/check_tree.py [--goal mate|stale] FEN < tree

It reads a position from its word and a tree from the standard input, and prints what `minimate check` prints: `yes N` with
the tree's height in plies, `no`, or `refused: ` and the name of the fault. Status 0 is an answer, 1 a refusal, 2 words that
are no command. It shares nothing with the program but the documents: tests/answers/test_checkers.py compares the two.
"""

import argparse
import os
import re
import sys
from typing import NamedTuple

# The most bytes of an input, its last line feed counted, and the braces that are too many.
MOST_BYTES = 1 << 20
TOO_DEEP = 32

GAME_KINDS = {5: "KQRBNP", 6: "KQRNP"}
MOST_UNITS = {5: 10, 6: 12}
PROMOTIONS = {5: "qrbn", 6: "qrn"}

STRAIGHT = [(1, 0), (-1, 0), (0, 1), (0, -1)]
SLANTED = [(1, 1), (1, -1), (-1, 1), (-1, -1)]
LEAPS = [(1, 2), (2, 1), (2, -1), (1, -2), (-1, -2), (-2, -1), (-2, 1), (-1, 2)]
STEPS = {"K": STRAIGHT + SLANTED, "Q": STRAIGHT + SLANTED, "R": STRAIGHT, "B": SLANTED, "N": LEAPS}
RIDERS = "QRB"


class Refused(Exception):
    """A fault, as it is printed after `refused: `."""


# Positions


class Position(NamedTuple):
    """A board by (file, rank), both from 0, with letters as in FEN; `side` is w or b, the side to move."""

    width: int
    side: str
    units: dict


def position_of(width, side, units):
    """A position with these units by square, which may break any rule of positions."""
    return Position(width, side, dict(units))


def fen_text(position):
    """The position's one text."""
    files = range(position.width)
    rows = ["".join(position.units.get((file, rank), "1") for file in files) for rank in reversed(files)]
    return re.sub("1+", lambda run: str(len(run[0])), "/".join(rows)) + " " + position.side


def read_position(text):
    """The sound position whose text the bytes are. Each fault is looked for only if no earlier one holds."""
    if text.count(b" ") != 1:
        raise Refused("Fields")
    board, side = text.split(b" ")
    rows = board.split(b"/")
    width = len(rows)
    if width not in GAME_KINDS or any(row_width(row) != width for row in rows):
        raise Refused("Shape")
    letters = GAME_KINDS[width] + GAME_KINDS[width].lower() + "0123456789"
    if any(byte not in letters.encode() for row in rows for byte in row):
        raise Refused("Letter")
    if any(re.search(rb"0|[0-9][0-9]", row) for row in rows):
        raise Refused("Run")
    if side not in (b"w", b"b"):
        raise Refused("Side")
    position = Position(width, side.decode(), units_of(rows))
    refuse_units(position)
    if is_attacked(position.units, width, king_square(position.units, other(position.side)), position.side):
        raise Refused("OtherInCheck")
    return position


def row_width(row):
    return sum(byte - ord("0") if ord("0") <= byte <= ord("9") else 1 for byte in row)


def units_of(rows):
    """The units by square. The first row is the last rank."""
    units = {}
    for rank, row in enumerate(reversed(rows)):
        file = 0
        for letter in row.decode():
            if letter.isdigit():
                file += int(letter)
            else:
                units[file, rank] = letter
                file += 1
    return units


def refuse_units(position):
    letters = list(position.units.values())
    if letters.count("K") != 1 or letters.count("k") != 1:
        raise Refused("Kings")
    whites = sum(letter.isupper() for letter in letters)
    if max(whites, len(letters) - whites) > MOST_UNITS[position.width]:
        raise Refused("Units")
    ends = (0, position.width - 1)
    if any(letter in "Pp" and square[1] in ends for square, letter in position.units.items()):
        raise Refused("PawnRank")


# Moves


def other(side):
    return "b" if side == "w" else "w"


def side_of(letter):
    return "w" if letter.isupper() else "b"


def ahead(side):
    return 1 if side == "w" else -1


def is_on_board(square, width):
    return 0 <= square[0] < width and 0 <= square[1] < width


def king_square(units, side):
    king = "K" if side == "w" else "k"
    return next(square for square, letter in units.items() if letter == king)


def ride(units, width, start, step):
    """The squares of a line from the start: the empty ones, and the first unit's."""
    square = (start[0] + step[0], start[1] + step[1])
    while is_on_board(square, width):
        yield square
        if square in units:
            return
        square = (square[0] + step[0], square[1] + step[1])


def is_attacked(units, width, target, side):
    """Whether a unit of the side would reach the target if an enemy stood there."""
    case = str.upper if side == "w" else str.lower
    for kind in "KN":
        for dx, dy in STEPS[kind]:
            if units.get((target[0] + dx, target[1] + dy)) == case(kind):
                return True
    for dx in (-1, 1):
        if units.get((target[0] + dx, target[1] - ahead(side))) == case("P"):
            return True
    for steps, riders in ((STRAIGHT, "QR"), (SLANTED, "QB")):
        for step in steps:
            for square in ride(units, width, target, step):
                if units.get(square) in (case(riders[0]), case(riders[1])):
                    return True
    return False


def pawn_targets(units, start, side):
    rank = start[1] + ahead(side)
    if (start[0], rank) not in units:
        yield (start[0], rank)
    for file in (start[0] - 1, start[0] + 1):
        if (file, rank) in units and side_of(units[file, rank]) != side:
            yield (file, rank)


def targets(position, start, letter):
    """Where the unit may go, whatever becomes of its king: to empty squares, and to enemies that are no king."""
    units, width = position.units, position.width
    kind = letter.upper()
    if kind == "P":
        reached = pawn_targets(units, start, position.side)
    elif kind in RIDERS:
        reached = (square for step in STEPS[kind] for square in ride(units, width, start, step))
    else:
        reached = ((start[0] + dx, start[1] + dy) for dx, dy in STEPS[kind])
    for square in reached:
        there = units.get(square)
        if is_on_board(square, width) and (there is None or side_of(there) != position.side) and there not in ("K", "k"):
            yield square


def after(position, move):
    """The position after the move (from, to, promotion letter or nothing)."""
    start, end, promotion = move
    units = dict(position.units)
    letter = units.pop(start)
    if promotion:
        letter = promotion.upper() if position.side == "w" else promotion
    units[end] = letter
    return Position(position.width, other(position.side), units)


def lawful(position):
    """The lawful moves, ordered by from-square, to-square (both along the ranks from a1) and promotion."""
    last_rank = position.width - 1 if position.side == "w" else 0
    moves = []
    for start in sorted(position.units, key=square_order):
        letter = position.units[start]
        if side_of(letter) != position.side:
            continue
        for end in sorted(targets(position, start, letter), key=square_order):
            promotes = letter in "Pp" and end[1] == last_rank
            if leaves_king_safe(position, start, end):
                moves += [(start, end, kind) for kind in (PROMOTIONS[position.width] if promotes else [""])]
    return moves


def square_order(square):
    return square[1], square[0]


def leaves_king_safe(position, start, end):
    """What a pawn becomes doesn't matter to its own king."""
    units = after(position, (start, end, "")).units
    return not is_attacked(units, position.width, king_square(units, position.side), other(position.side))


def in_check(position):
    return is_attacked(position.units, position.width, king_square(position.units, position.side), other(position.side))


def square_text(square):
    return "abcdef"[square[0]] + "123456"[square[1]]


def move_text(move):
    return square_text(move[0]) + square_text(move[1]) + move[2]


# Trees


class Tree(NamedTuple):
    """The attacker's move as text, and how the line ends (`#` or `=`) or a list of (reply, tree)."""

    move: str
    end: str
    replies: list


# What may come next. Each state names the bytes that it takes with the state that follows; `scan` counts the braces
# that are open. A move of the attacker has the states m0 to m5, a reply r0 to r5, a whole tree is `done`.
FILES, RANKS, KINDS = b"abcdef", b"123456", b"qrbn"
NEXT = {
    "m0": [(FILES, "m1")],
    "m1": [(RANKS, "m2")],
    "m2": [(FILES, "m3")],
    "m3": [(RANKS, "m4")],
    "m4": [(KINDS, "m5"), (b"#=", "done"), (b"{", "r0")],
    "m5": [(b"#=", "done"), (b"{", "r0")],
    "r0": [(FILES, "r1")],
    "r1": [(RANKS, "r2")],
    "r2": [(FILES, "r3")],
    "r3": [(RANKS, "r4")],
    "r4": [(KINDS, "r5"), (b":", "m0")],
    "r5": [(b":", "m0")],
    "done": [(b",", "r0"), (b"}", "done")],
}


def scan(text):
    """How many bytes begin some tree's text, the most braces open at once within them, and whether they are a whole text."""
    state, open_braces, most = "m0", 0, 0
    for offset, byte in enumerate(text):
        state_after = next((state_after for taken, state_after in NEXT[state] if byte in taken), None)
        if state_after is None or (state == "done" and open_braces == 0):
            return offset, most, False
        open_braces += (byte == ord("{")) - (byte == ord("}"))
        most = max(most, open_braces)
        state = state_after
    return len(text), most, state == "done" and open_braces == 0


def read_tree(text):
    """The tree whose text the bytes are."""
    farthest, most, whole = scan(text)
    if most >= TOO_DEEP:
        raise Refused("Deep")
    if not whole:
        raise Refused(f"Grammar at offset {farthest}")
    tree, _ = tree_at(text.decode(), 0)
    return tree


def move_at(text, start):
    end = start + 5 if text[start + 4] in "qrbn" else start + 4
    return text[start:end], end


def tree_at(text, start):
    """The tree that begins here, and where it ends. The text is known to be a whole tree's."""
    move, at = move_at(text, start)
    if text[at] != "{":
        return Tree(move, text[at], []), at + 1
    replies = []
    while text[at] != "}":
        reply, colon = move_at(text, at + 1)
        tree, at = tree_at(text, colon + 1)
        replies.append((reply, tree))
    return Tree(move, "", replies), at + 1


def height(position, tree, goal):
    """The plies within which the tree wins for the side to move, or None where it doesn't."""
    move = next((m for m in lawful(position) if move_text(m) == tree.move), None)
    if move is None:
        return None
    defended = after(position, move)
    replies = lawful(defended)
    if tree.end:
        won = not replies and (in_check(defended) if tree.end == "#" else goal == "stale" and not in_check(defended))
        return 1 if won else None
    if not replies or [move_text(m) for m in replies] != [reply for reply, _ in tree.replies]:
        return None
    heights = []
    for m, (_, below) in zip(replies, tree.replies):
        heights.append(height(after(defended, m), below, goal))
        if heights[-1] is None:
            return None
    return 2 + max(heights)


# The answer


def answer(fen, source, goal="mate"):
    """What is printed, and the status. `source` gives the input's bytes; a refused position leaves it unasked."""
    try:
        position = read_position(fen)
        text = source()
        if len(text) > MOST_BYTES:
            raise Refused("TooLong")
        plies = height(position, read_tree(text.removesuffix(b"\n")), goal)
    except Refused as fault:
        return f"refused: {fault}", 1
    return ("no" if plies is None else f"yes {plies}"), 0


def main():
    parser = argparse.ArgumentParser(description="Reads a winning tree on standard input and prints whether it wins.")
    parser.add_argument("--goal", choices=["mate", "stale"], default="mate", help="the attacker's goal (default %(default)s)")
    parser.add_argument("fen", metavar="FEN", help="the position, as one word")
    words = parser.parse_args()
    line, status = answer(os.fsencode(words.fen), sys.stdin.buffer.read, words.goal)
    print(line)
    return status


if __name__ == "__main__":
    sys.exit(main())
