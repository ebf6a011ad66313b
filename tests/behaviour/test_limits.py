"""Runs the programs at their limits: little stack and memory, many threads, wide positions, deep trees, slow input, and a reader that left."""

import contextlib
import os
import resource
import signal
import subprocess
import time

import pytest

import check_tree
import diagrams
from command_lines import (
    CAPTIONED, DEEP, DEEP_WORDS, FIRST, LITTLE_MEMORY, LITTLE_STACK, NO_STACK, START, TALL, TALLEST, THIRD, TREE, WIDE,
)
from programs import bench_lines, run, started


def with_stack(size):
    """Limits the stack of a run and of each of its threads."""
    return {"preexec_fn": lambda: resource.setrlimit(resource.RLIMIT_STACK, (size, resource.getrlimit(resource.RLIMIT_STACK)[1]))}


def with_little_memory():
    return {"preexec_fn": lambda: resource.setrlimit(resource.RLIMIT_AS, (LITTLE_MEMORY, LITTLE_MEMORY))}


@pytest.mark.parametrize("fen, command", [(fen, command) for fen, commands in DEEP for command in commands])
def test_the_deepest_searches_answer_within_a_little_stack_as_within_any(program, fen, command):
    words = started(program, command, *DEEP_WORDS, fen)
    plain = run(words)
    assert (plain.status, plain.error) == (0, b"")
    for workers in ("1", "4"):
        assert run([*words, "--workers", workers], **with_stack(LITTLE_STACK)) == plain
    checker = {"tree": "check", "certify": "verify"}.get(command)
    if checker and plain.output != b"none within 63\n":
        ran = run(started(program, checker, fen), plain.output, **with_stack(LITTLE_STACK))
        wanted = b"yes " if checker == "check" else plain.output.partition(b"\n")[0] + b"\n"
        assert (ran.status, ran.output[: len(wanted)]) == (0, wanted)


@pytest.mark.parametrize("size, status, output", [(LITTLE_STACK, 0, b"yes 63\n"), (NO_STACK, -signal.SIGSEGV, b"")])
def test_the_deepest_tree_is_checked_within_a_little_stack(program, size, status, output):
    assert run([program, "check", TALL], TALLEST, **with_stack(size))[:2] == (status, output)


ANSWERED = {"solve": b"mate 1 f1f6\n", "tree": b"f1f6#\n", "keys": b"f1f6 1\n", "batch": b"mate 1 f1f6\n"}
ANSWERED |= {"solution": b"mate in 1\n1.Rf6#!\n", "certify": b"mate 1 f1f6\nj\n\n"}


@pytest.mark.parametrize("command, answer", ANSWERED.items())
def test_the_table_of_a_command_has_the_slots_that_were_asked_for(program, command, answer):
    fen = [] if command == "batch" else [FIRST]
    for slots, wanted in (("1048576", (3, b"refused: NoMemory\n")), ("1000", (0, answer))):
        words = [command, "--limit", "1", "--workers", "1", "--slots", slots, *fen]
        assert run(started(program, *words), FIRST.encode(), **with_little_memory())[:2] == wanted
    words = [command, "--limit", "1", "--slots", "1048576", *fen]
    assert run(started(program, *words), FIRST.encode())[:2] == (0, answer)


def test_a_root_of_70_moves_is_answered_by_the_rules(program):
    root = check_tree.read_position(WIDE.encode())
    moves = check_tree.lawful(root)
    mates = [check_tree.move_text(it) for it in moves if is_mated(check_tree.after(root, it))]
    assert (len(moves), len(mates)) == (70, 27)
    assert run([program, "moves", WIDE]).output.decode() == "".join(check_tree.move_text(it) + "\n" for it in moves)
    texts = {"solve": f"mate 1 {mates[0]}\n", "tree": f"{mates[0]}#\n", "keys": "".join(f"{it} 1\n" for it in mates)}
    for command, wanted in texts.items():
        for workers in ("1", "16"):
            assert run([program, command, "--limit", "1", "--workers", workers, WIDE])[:2] == (0, wanted.encode())


def is_mated(position):
    return check_tree.in_check(position) and not check_tree.lawful(position)


@pytest.mark.parametrize("replies", [61, 500])
def test_a_tree_with_many_replies_is_read_to_its_end(program, replies):
    text = b"c4c5{" + b",".join(b"a3a4:a1a2#" for _ in range(replies)) + b"}"
    assert run([program, "check", THIRD], text)[:2] == (0, b"no\n")


def test_a_tree_that_comes_in_pieces_is_read_to_its_end(program):
    pipes = {"stdin": subprocess.PIPE, "stdout": subprocess.PIPE}
    with subprocess.Popen([program, "check", THIRD], bufsize=0, **pipes) as process:
        with contextlib.suppress(BrokenPipeError):  # a program that has ended sooner fails below
            for piece in (TREE[:4], TREE[4:9], TREE[9:]):
                process.stdin.write(piece)
                time.sleep(0.05)
        process.stdin.close()
        assert (process.stdout.read(), process.wait()) == (b"yes 3\n", 0)


def test_an_output_whose_reader_has_left_is_a_failed_write(program):
    reading, writing = os.pipe()
    os.close(reading)
    ran = subprocess.run([program, "moves", FIRST], stdout=writing, stderr=subprocess.PIPE, check=False)
    os.close(writing)
    assert (ran.returncode, ran.stderr) == (4, b"error: the output could not be written to its end\n")


@pytest.mark.parametrize("workers", [1, 8])
def test_a_search_has_as_many_threads_as_were_asked_for_beside_the_first(program, workers):
    with subprocess.Popen([program, "solve", "--limit", "41", "--workers", str(workers), START], stdout=subprocess.DEVNULL) as process:
        most, end = 0, time.monotonic() + 10
        while most < workers + 1 and time.monotonic() < end:
            most = max(most, len(os.listdir(f"/proc/{process.pid}/task")))
        process.kill()
    assert most == workers + 1


@pytest.mark.parametrize("words", [["--svg"], ["--svg", "--black"]], ids=str)
def test_pictures_of_the_bench_are_those_of_a_second_drawing(program, words, count):
    fens = sorted({line.fen for line in bench_lines()})
    for fen in fens:
        wanted = diagrams.svg(check_tree.read_position(fen.encode()), len(words) > 1)
        assert run(started(program, "show", *words, fen))[:2] == (0, wanted.encode()), fen
    count(len(fens))


@pytest.mark.parametrize("goal, fen, caption", CAPTIONED)
def test_the_diagram_of_a_problem_has_its_stipulation_and_its_keys(program, goal, fen, caption):
    wanted = diagrams.svg(check_tree.read_position(fen.encode()), caption=caption)
    ran = run(started(program, "solution", "--svg", "--mate", "2", "--goal", goal, fen))
    assert (ran.status, ran.output) == (0, wanted.encode())
