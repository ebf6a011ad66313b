"""Compares how the program reads positions, trees and command lines with a second reading, made from docs/ alone (second_reading.py).

READERS_COUNT (20,000) command lines, each with an input, are changed from lines about the positions of bench/mates. A change is drawn by lot from
READERS_SEED and the number of the try, so each number is the same try again. Of a longer search only the shape is compared, and of `solution`,
`certify` and `batch` whether there is an answer. Standard error has a text with status 1, 2 or 3, and if a side without a move is searched."""

import collections
import functools
import os
import random

import pytest

from changed_texts import LETTERS, TREE_BITS, changed_run, changed_text, changed_units, changed_words, whole_line
from programs import bench_lines, run, started
from second_reading import COMMANDS, second_answer

SEED, COUNT, PARTS = os.environ.get("READERS_SEED", "1"), int(os.environ.get("READERS_COUNT", "20000")), 8
LINES = [line for line in bench_lines() if line.plies is not None]
SHORT_LINES = [line for line in LINES if line.plies <= 5]


@functools.lru_cache(maxsize=None)
def tree_of(program, line):
    """Returns the tree that the program writes, from which texts are changed."""
    return run([program, "tree", "--limit", str(line.plies), "--goal", line.goal, line.fen]).output.decode("ascii", "replace")


def made(program, number, again):
    """Returns the words after the program's name, and the input."""
    chance = random.Random(f"{SEED} {number} {again}")
    kind = ("text", "units", "tree", "words")[number % 4]
    line = chance.choice(SHORT_LINES if kind == "tree" else LINES)
    if kind == "tree":
        text = tree_of(program, line)
        for _ in range(chance.choice([1, 1, 1, 2, 4])):
            text = changed_text(chance, text, TREE_BITS)
        return ["check", "--goal", chance.choice([line.goal, "mate", "stale"]), line.fen], text
    fen = line.fen
    if kind == "text":
        for _ in range(chance.choice([1, 1, 1, 2, 3, 4])):
            fen = changed_run(chance, fen) if chance.random() < 0.4 else changed_text(chance, fen, LETTERS)
    elif kind == "units":
        fen = changed_units(chance, fen)
    words = whole_line(chance, chance.choice(sorted(COMMANDS)), fen)
    return (changed_words(chance, words) if kind == "words" else words), chance.choice(["c4c5#", "", "a1a2{b1b2:c4c5#}\n"])


def tried(program, number):
    """Makes and runs the first try of the number that isn't too long a search. Returns the expected answer, and the difference if there is one."""
    for again in range(100):
        words, text = made(program, number, again)
        raw = [word.encode("utf-8", "surrogateescape") for word in words]
        wanted = None if any(b"\0" in word for word in raw) else second_answer(raw, text.encode())
        if wanted is not None:
            ran = run(started(program, *raw), text.encode())
            return wanted, None if wanted.fits(ran) else (number, words, text[:300], ran, wanted)
    return None, (number, "no try that ends")


@pytest.mark.parametrize("part", range(PARTS))
def test_words_positions_and_trees_are_read_alike(program, pages, count, part):
    found = [tried(program, number) for number in range(part * COUNT // PARTS + 1, (part + 1) * COUNT // PARTS + 1)]
    assert [difference for _, difference in found if difference] == []
    statuses = collections.Counter(wanted.status for wanted, _ in found)
    assert all(statuses[status] > len(found) // 20 for status in (0, 1, 2)), statuses
    count(len(found))
