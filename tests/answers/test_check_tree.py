"""Tries tools/check_tree.py, the second checker of trees, on cases worked out by hand, and its moves on counts by Fairy-Stockfish."""

import os
import re

import pytest

import check_tree
from command_lines import START, THIRD
from programs import TOP

FOURTH, CORNER = "1k4/5R/6/6/6/2R2K w", "k4/2P2/1K3/5/5 w"
POSITIONS = {"THIRD": THIRD, "FOURTH": FOURTH, "CORNER": CORNER}
# A position or its name, the goal, the answer and the trees that get it; in these a semicolon is a line feed, and an underscore a blank.
TREES = """
THIRD | mate | yes 3 | c4c5{a6a5:b1a1#} c4c5{a6a5:b1a1#};
THIRD | mate | refused: Grammar at offset 16 | c4c5{a6a5:b1a1#};; c4c5{a6a5:b1a1#,}
THIRD | stale | yes 3 | c4c5{a6a5:b1a1#}
THIRD | mate | refused: Grammar at offset 5 | c4c5{} c4c5## c4c5qq c4c5#, c4c5#}
THIRD | mate | no | c4c5# c4c5q{a6a5:b1a1#} c4c5{a6a5:b1b2#} c4c5{a6a5:b1a1#,a6a5:b1a1#} b1b5= b1b5# b1b5{a6a5:b5a5#} b1a1#
THIRD | stale | yes 1 | b1b5=
THIRD | stale | no | b1b5# c4c5= c4c5{a6a5:b1a1=}
CORNER | mate | yes 1 | c4c5q# c4c5r#
CORNER | mate | no | c4c5b# c4c5# f6f5#
FOURTH | mate | yes 3 | c1e1{b6a6:e1e6#,b6c6:e1e6#}
FOURTH | mate | no | c1e1{b6a6:e1e6#} c1e1{b6c6:e1e6#,b6a6:e1e6#}
FOURTH | mate | yes 5 | c1e1{b6a6:e1d1{a6b6:d1d6#},b6c6:e1e6#}
5r/6/6/1k4/6/K5 b | mate | yes 1 | f6f1#
k4R/6/1K4/6/6/6 b | mate | no | a6a5#
k5/2Q3/6/6/6/5K b | stale | no | a6a5=
THIRD | mate | refused: Grammar at offset 0 | EMPTY ; g1a1#
THIRD | mate | refused: Grammar at offset 4 | c4c5 c4c5k
THIRD | mate | refused: Grammar at offset 1 | a7
THIRD | mate | refused: Grammar at offset 9 | c4c5{a6a5#}
THIRD | mate | refused: Grammar at offset 17 | c4c5{a6a5q:b1a1#}_
"""
# Positions that are refused, whatever the tree is.
REFUSED = {
    "Fields": ["k5/6/6/6/6/5K", "", "k5/6/6/6/6/5K  w"],
    "Shape": ["k5/6/6/6/5K w", "k5/7/6/6/6/5K x"],
    "Letter": ["k5/6/6/6/6/B4K w"],
    "Run": ["k5/6/33/6/6/5K w", "k05/6/6/6/6/5K w", "k5/6/6/6/6/4K0N w"],
    "Side": ["k5/6/6/6/6/5K x", "k5/6/6/6/6/5K "],
    "Kings": ["6/6/6/6/6/5K w", "kk4/6/6/6/6/5K w"],
    "Units": ["k4/QQQQQ/QQQQQ/5/4K w"],
    "PawnRank": ["k5/6/6/6/6/P4K w"],
    "OtherInCheck": ["k4R/6/1K4/6/6/6 w"],
}
NEST = "c4c5{a6a5:"
LONG_TREES = [
    (NEST * 31 + "b1a1#" + "}" * 31, "no"),
    (NEST * 32 + "b1a1#" + "}" * 32, "refused: Deep"),
    (NEST * 32, "refused: Deep"),
    (NEST * 31 + "c4c5{", "refused: Deep"),
    (NEST * 31 + "c4c5", "refused: Grammar at offset 314"),
    (NEST * 31 + "c4c5}" + NEST * 9, "refused: Grammar at offset 314"),
    ("a" * check_tree.MOST_BYTES, "refused: Grammar at offset 1"),
    ("a" * check_tree.MOST_BYTES + "\n", "refused: TooLong"),
]
MOVES = [
    (START, "b1a3 b1c3 e1d3 e1f3 a2a3 b2b3 c2c3 d2d3 e2e3 f2f3"),
    ("rnbqk/ppppp/5/PPPPP/RNBQK w", "b1a3 b1c3 a2a3 b2b3 c2c3 d2d3 e2e3"),
    (CORNER, "b3a2 b3b2 b3c2 b3a3 b3c3 c4c5q c4c5r c4c5b c4c5n"),
    ("k5/2P3/6/6/6/5K w", "f1e1 f1e2 f1f2 c5c6q c5c6r c5c6n"),
    ("k5/2Q3/6/6/6/5K b", ""),
]
COUNTS_DEPTH = 3


def trees():
    for line in TREES.strip("\n").split("\n"):
        fen, goal, wanted, texts = (it.strip(" ") for it in line.split("|"))
        for text in texts.split(" "):
            yield POSITIONS.get(fen, fen), text.replace("EMPTY", "").replace(";", "\n").replace("_", " "), goal, wanted
    yield from ((fen, tree, "mate", f"refused: {fault}") for fault, fens in REFUSED.items() for fen in fens for tree in ("", "c4c5"))
    yield from ((THIRD, tree, "mate", wanted) for tree, wanted in LONG_TREES)


def leaves(position, depth):
    """Returns the number of lines of play of this depth. The moves of the last ply are counted and not made."""
    moves = check_tree.lawful(position)
    return len(moves) if depth == 1 else sum(leaves(check_tree.after(position, move), depth - 1) for move in moves)


def counts():
    """Returns the positions with the counts of another engine, out of the table of the acceptance tests."""
    with open(os.path.join(TOP, "crates/acceptance/src/leaves.rt"), encoding="ascii") as table:
        found = re.findall(r'\(\s*"([^"]+)",\s*\[([0-9, ]+)\],?\s*\)', table.read())
    return [(fen, [int(it) for it in numbers.split(",")]) for fen, numbers in found]


@pytest.mark.parametrize("fen, tree, goal, wanted", trees(), ids=lambda it: it[:40])
def test_the_answer_and_the_status(count, fen, tree, goal, wanted):
    line, status = check_tree.answer(fen.encode(), tree.encode, goal)
    assert (line, status) == (wanted, int(wanted.startswith("refused")))
    count(2)


def test_a_refused_position_leaves_the_input_unread(count):
    assert check_tree.answer(b"k5", lambda: 1 / 0) == ("refused: Fields", 1)
    count()


@pytest.mark.parametrize("fen, moves", MOVES)
def test_moves(count, fen, moves):
    assert " ".join(map(check_tree.move_text, check_tree.lawful(check_tree.read_position(fen.encode())))) == moves
    count()


@pytest.mark.parametrize("part", range(4))
def test_counts_of_lines(count, part):
    table = counts()
    assert len(table) == 62
    for fen, wanted in table[part::4]:
        position = check_tree.read_position(fen.encode())
        assert [leaves(position, depth) for depth in range(1, COUNTS_DEPTH + 1)] == wanted[:COUNTS_DEPTH], fen
        assert check_tree.fen_text(position) == fen
        count(COUNTS_DEPTH)
