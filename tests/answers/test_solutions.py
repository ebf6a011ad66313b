"""Compares `minimate solution` with a solution that is worked out apart from it, whole, in the short form, as JSON and after each first move.

SOLUTION_PLIES (3) is the number of plies to which problems of the bench are compared; they are searched within five plies."""

import json
import os

import pytest

import check_tree
from command_lines import THIRD
from programs import bench_lines, run, started
from solutions import Solver, WholeWriter, Writer, as_data

MOST, LIMIT, LATE = int(os.environ.get("SOLUTION_PLIES", "3")), 5, 600
CORNER = "k4/2P2/1K3/5/5 w"
PROBLEMS = [("mate", THIRD), ("stale", THIRD), ("mate", "1k4/5R/6/6/6/2R2K w"), ("mate", CORNER), ("mate", "2qK1/3B1/1k1NQ/3b1/r1Q2 w")]
PROBLEMS = list(dict.fromkeys(PROBLEMS + [(line.goal, line.fen) for line in bench_lines() if line.plies and line.plies <= MOST]))
# Problems of three to five moves whose whole solutions are compared, with the plies that they are searched for.
LONGER = """
5 mate 2k3/6/6/2K3/6/5Q w
5 mate 1k4/6/6/1K4/6/5Q w
5 mate 2k2/5/5/2K2/4Q w
5 mate K4N/1R1N2/N5/5k/6/3N2 w
5 mate r3k/3bp/1bPpP/R2KQ/4B w
5 mate 1k3/5/1p2b/r4/4K b
5 mate 2Nk1/pR3/5/2P1P/2K2 w
5 mate 5k/3K2/6/6/1q4/r5 b
5 mate 3k1/pr1pp/2Q1P/PbP2/R1BK1 w
5 mate 2k3/6/1n1p1K/2q3/1R4/6 b
5 mate 4N1/6/6/1Q4/2P3/K2N1k w
5 stale 1n1K1/kN3/5/3N1/4q b
5 stale r3k/3bp/1bPpP/R2KQ/4B w
5 stale 3k1/pr1pp/2Q1P/PbP2/R1BK1 w
5 stale 2k3/6/1n1p1K/2q3/1R4/6 b
7 mate 1K1k1/qR3/5/5/5 w
7 mate 3qk/r3p/NPppP/P1QK1/R4 w
7 mate 5/pr1qk/NpBp1/1PQK1/5 b
7 mate 2b2/4k/PRP2/5/Q3K w
9 mate 5/1k3/5/2K2/4R w
9 mate 6/2k3/6/6/4K1/5Q w
"""
# Problems of which each first move is compared.
FIRSTS = [("mate", THIRD, 3), ("stale", THIRD, 3), ("mate", CORNER, 5), ("mate", "2k3/6/6/2K3/6/5Q w", 5), ("mate", "2k2/5/5/2K2/4Q w", 5)]
FIRSTS.append(("mate", "k5/6/6/6/6/K5 w", 3))


def told(program, goal, fen, limit, *options):
    words = started(program, "solution", "--goal", goal, "--limit", str(limit), *options, fen)
    return run(words, timeout=LATE).output.decode(errors="replace")


def whole_text(goal, fen, limit):
    position = check_tree.read_position(fen.encode())
    found = Solver(goal).whole(position, limit)
    return found and WholeWriter(goal, limit).text(position, found)


def object_of(goal, fen, limit, found):
    """Returns a solution in the short form as the object that the program writes, or the object without one."""
    short = bool(found) and (found["plies"] + 1) // 2 < (limit + 1) // 2
    none = {"plies": None, "keys": [], "set_play": None, "tries": None}
    return {"position": fen, "goal": goal, "short": short, **(as_data(found) if found else none)}


@pytest.mark.parametrize("goal, fen", PROBLEMS)
def test_a_whole_solution_and_its_short_form(program, pages, count, goal, fen):
    assert told(program, goal, fen, LIMIT, "--set", "--tries") == whole_text(goal, fen, LIMIT)
    position = check_tree.read_position(fen.encode())
    found = Solver(goal).solution(position, LIMIT)
    assert told(program, goal, fen, LIMIT, "--set", "--tries", "--short") == Writer(goal, LIMIT).text(position, found)
    assert json.loads(told(program, goal, fen, LIMIT, "--set", "--tries", "--json") or "null") == object_of(goal, fen, LIMIT, found)
    count(3)


@pytest.mark.parametrize("problem", LONGER.strip().split("\n"))
def test_a_longer_solution(program, count, problem):
    limit, goal, fen = problem.split(" ", 2)
    assert told(program, goal, fen, limit, "--set", "--tries") == whole_text(goal, fen, int(limit))
    count()


@pytest.mark.parametrize("goal, fen, limit", FIRSTS)
def test_each_first_move(program, pages, count, goal, fen, limit):
    position, solver = check_tree.read_position(fen.encode()), Solver(goal)
    for move in check_tree.lawful(position):
        first = solver.first(position, move, limit)
        wanted = WholeWriter(goal, limit).first(position, first) if first else f"none within {limit}\n"
        assert told(program, goal, fen, limit, "--first", check_tree.move_text(move)) == wanted
        count()
