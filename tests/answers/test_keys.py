"""Compares `minimate keys` with a count of the keys made apart from it, over the problems of the bench.

Each line of bench/mates is searched within its own limit, or within KEYS_LIMIT plies (3) if that is less. Up to SEARCHED plies a plain search
counts the keys; beyond, `minimate solve` is asked after each first move and reply: a move is a key if each reply is answered, and takes two
plies more than the longest of them."""

import concurrent.futures
import os
import re

import pytest

import check_tree
from plain_search import Search
from programs import bench_lines, run

LIMIT, SEARCHED, LATE, PARTS = int(os.environ.get("KEYS_LIMIT", "3")), 5, 600, 4
TABLE = ["--workers", "1", "--slots", "1048573"]


def plies_of(words, fen):
    """Returns the plies of the answer of `solve`, or None."""
    ran = run([*words, fen], timeout=LATE)
    found = re.fullmatch(rb"(?:(?:mate|goal) (\d+) \w+|none within \d+)\n", ran.output)
    assert ran.status == 0 and found, (words, fen, ran)
    return int(found[1]) if found[1] else None


def plies_after(words, position, goal):
    """Returns the plies that a first move takes which leads here, or None if a reply escapes."""
    replies = check_tree.lawful(position)
    if not replies:
        return 1 if goal == "stale" or check_tree.in_check(position) else None
    longest = 0
    for reply in replies:
        plies = plies_of(words, check_tree.fen_text(check_tree.after(position, reply)))
        if plies is None:
            return None
        longest = max(longest, plies)
    return longest + 2


def solved_keys(program, position, goal, limit):
    words = [program, "solve", "--goal", goal, "--limit", str(limit - 2), *TABLE]
    for move in check_tree.lawful(position):
        plies = plies_after(words, check_tree.after(position, move), goal)
        if plies:
            yield check_tree.move_text(move), plies


def keys_of(program, line):
    """Returns the program's output for a line of the bench, and the expected one."""
    limit, position = min(line.limit, LIMIT), check_tree.read_position(line.fen.encode())
    keys = Search(line.goal).keys(position, limit) if limit <= SEARCHED else solved_keys(program, position, line.goal, limit)
    wanted = "".join(f"{move} {plies}\n" for move, plies in keys) or f"none within {limit}\n"
    return run([program, "keys", "--goal", line.goal, "--limit", str(limit), *TABLE, line.fen], timeout=LATE).output.decode(), wanted


@pytest.mark.parametrize("part", range(PARTS))
def test_keys(program, pages, count, part):
    lines = list(bench_lines())[part::PARTS]
    with concurrent.futures.ThreadPoolExecutor(1 if LIMIT <= SEARCHED else 4) as pool:
        found = list(pool.map(lambda line: keys_of(program, line), lines))
    assert [(line, *pair) for line, pair in zip(lines, found) if pair[0] != pair[1]] == []
    count(len(lines))
