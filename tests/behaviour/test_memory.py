"""Refuses each request for memory in turn, of every call and every kind of command line that allocates, and each thread.

A run is made over and over, each time with the next request refused, until one makes no more. Each run must answer what the first one does,
with none refused, or report lack of memory: `refused: NoMemory` with status 3, or `no memory` of the program that makes one call. Arguments
may also be refused as no command (status 2), as `clap` may do if memory is refused inside it. No run may leave more blocks of memory than the
first one. Calls that take no memory make no request. Threads that can't be started change no answer, and each search starts as many
threads as it should.
"""

import itertools
import os

import pytest

from programs import run, started
from refused_memory import SECONDS, Sweep

NO_MEMORY = (3, b"refused: NoMemory\n")
NO_COMMAND = (2, b"")
CALL_WITHOUT_MEMORY = (0, b"no memory\n")

# The calls of the crate `one_call`, and what each prints if nothing is refused.
CALLS = {
    "table": b"made\n",
    "job_board": b"made\n",
    "solve": b"solved\n",
    "solve_over": b"solved\n",
    "build_tree": b"built\n",
    "tree_text": b"written\n",
    "read_tree": b"read\n",
}
# The second word of each row makes the calls of the first one, and others that take no memory. Both print the last word.
QUIET = [
    ("nothing", "chess", b"done\n"),
    ("table_alone", "table", b"made\n"),
    ("job_board_alone", "job_board", b"made\n"),
    ("entries_alone", "decide", b"decided\n"),
    ("parse", "check", b"read\n"),
]
FIRST, THIRD = "k5/6/1K4/6/6/5R w", "k5/6/2K3/6/6/1R4 w"
TREE = b"c4c5{a6a5:b1a1#}\n"
CERTIFICATE = b"mate 3 c4c5\np.\naaaaaaaa-aaaaaa\n\n"
# Command lines, their input, status and output, worked out by hand.
LINES = [
    (["solve", "--limit", "1", FIRST], b"", 0, b"mate 1 f1f6\n"),
    (["solve", "--limit", "3", THIRD], b"", 0, b"mate 3 c4c5\n"),
    (["solve", "--limit", "3", "--workers", "1", "--slots", "1", THIRD], b"", 0, b"mate 3 c4c5\n"),
    (["solve", "--limit", "2", "--workers", "4", THIRD], b"", 0, b"none within 2\n"),
    (["solve", "--goal", "stale", "--limit", "1", THIRD], b"", 0, b"goal 1 b1b5\n"),
    (["tree", "--limit", "3", THIRD], b"", 0, TREE),
    (["tree", "--goal", "stale", "--limit", "3", THIRD], b"", 0, b"b1b5=\n"),
    (["tree", "--limit", "2", THIRD], b"", 0, b"none within 2\n"),
    (["check", THIRD], TREE, 0, b"yes 3\n"),
    (["check", "--goal", "stale", THIRD], b"b1b5=", 0, b"yes 1\n"),
    (["check", THIRD], b"c4c5#", 0, b"no\n"),
    (["check", THIRD], b"c4c5{}", 1, b"refused: Grammar at offset 5\n"),
    (["verify", THIRD], CERTIFICATE, 0, b"mate 3 c4c5\n"),
    (["certify", "--limit", "1", FIRST], b"", 0, b"mate 1 f1f6\nj\n\n"),
    (["solution", "--limit", "1", "k4/2P2/1K3/5/5 w"], b"", 0, b"mate in 1, cooked by 1 key\n1.c5=Q#!\n1.c5=R#!\n"),
    (["moves", "k5/2P3/6/6/6/5K w"], b"", 0, b"f1e1\nf1e2\nf1f2\nc5c6q\nc5c6r\nc5c6n\n"),
    (["moves", "k5/6/6/6/6/5K"], b"", 1, b"refused: Fields\n"),
    (["solve", "--limit", "64", THIRD], b"", 1, b"refused: Limit\n"),
    (["solve", THIRD], b"", 2, b""),
    (["check", "--goal", "x", THIRD], b"", 2, b""),
    (["--help"], b"", 2, b""),
    (["moves", b"\xff"], b"", 2, b""),
]

# Lines whose threads are refused, from the first, the second or the fourth on, with what an independent program answers: rounds of nine
# plies, in which threads help.
NINTH = "5/3k1/2R2/1KP1P/5 w"
THREADED = [
    (["solve", "--limit", "9", "--workers", "4", "--slots", "4096", NINTH], b"", b"mate 9 b2b3\n"),
    (["tree", "--limit", "9", "--workers", "4", "--slots", "4096", NINTH], b"", None),
    (["keys", "--limit", "3", "--workers", "4", THIRD], b"", None),
    (["batch", "--limit", "3", "--workers", "4"], b"k5/6/2K3/6/6/1R4 w\nk5/6/1K4/6/6/5R w\n" * 10, b"mate 3 c4c5\nmate 1 f1f6\n" * 10),
]


# A mate in eleven plies, as another program has it, whose threads are counted. Over a small table each thread that prepares its tree takes more
# than 20 milliseconds of a processor, and one that ends at once less than a tenth of one.
ELEVENTH, WORKERS, LEAST_WORK = "3k1/1K1R1/1p3/2q1R/1b2n b", 4, 1_000_000


@pytest.mark.parametrize("name, output", CALLS.items())
def test_a_call_answers_or_reports_lack_of_memory(one_call, refusing, tmp_path, count, name, output):
    first, counts, wrong = Sweep(refusing, tmp_path, [one_call, name]).outcomes([CALL_WITHOUT_MEMORY])
    assert first.result == (0, output) and wrong == []
    count(counts.total())


def cut_short(output):
    """What a certificate becomes if memory runs out: the lines that there was memory for, and then the refusal. So does a solution whose keys
    have a line each, but not after its last key."""
    lines = output.splitlines(keepends=True)
    return [(NO_MEMORY[0], b"".join(lines[:number]) + NO_MEMORY[1]) for number in range(1, len(lines) + 1)]


@pytest.mark.parametrize("words, text, status, output", LINES, ids=itertools.count())
def test_a_command_line_answers_or_reports_lack_of_memory(program, refusing, pages, tmp_path, count, words, text, status, output):
    cut = {"certify": cut_short(output), "solution": cut_short(output)[:-1]}.get(words[0], [])
    first, counts, wrong = Sweep(refusing, tmp_path, started(program, *words), text).outcomes([NO_MEMORY, NO_COMMAND, *cut])
    assert first.result == (status, output) and wrong == []
    count(counts.total())


@pytest.mark.parametrize("plain, more, output", QUIET)
def test_calls_that_take_no_memory_make_no_request(one_call, refusing, tmp_path, plain, more, output):
    one, two = (Sweep(refusing, tmp_path, [one_call, word]).run(0) for word in (plain, more))
    assert one.has_reported and two.has_reported and one.result == two.result == (0, output)
    assert one.requests == two.requests


@pytest.mark.parametrize("words, text, answer", THREADED, ids=lambda it: it[0] if isinstance(it, list) else "")
def test_threads_that_cannot_be_started_change_no_answer(program, refusing, tmp_path, words, text, answer):
    line = Sweep(refusing, tmp_path, started(program, *words), text)
    first, others = line.run(0), [line.run(0, threads) for threads in (1, 2, 4)]
    assert first.result[0] == 0 and (answer is None or first.result[1] == answer)
    assert all(it.was_refused and it.result == first.result for it in others)


def threads_of(library, log, words, text=b""):
    """Returns how many nanoseconds of processor time each thread took that a run started, in the order of their starts."""
    log.write_text("")
    run(words, text, SECONDS, env={**os.environ, "THREADS_LOG": str(log), "LD_PRELOAD": library})
    return [int(line) for line in log.read_text().split()]


def test_a_search_starts_its_threads_in_each_round_and_each_thread_of_a_tree_has_work(program, refusing, tmp_path):
    def threads(command, limit):
        words = [program, command, "--limit", str(limit), "--workers", str(WORKERS), "--slots", "64", ELEVENTH]
        return threads_of(refusing, tmp_path / "threads", words)

    solve, tree, keys = threads("solve", 11), threads("tree", 11), threads("keys", 5)
    assert (len(solve), len(tree), len(keys)) == (6 * WORKERS, 7 * WORKERS, WORKERS)
    assert min(tree[-WORKERS:]) >= LEAST_WORK


@pytest.mark.parametrize("lines, threads", [(1, 0), (2, 1), (40, WORKERS)])
def test_a_batch_starts_a_thread_for_each_line_of_one_read_but_the_first(program, refusing, tmp_path, lines, threads):
    words = started(program, "batch", "--limit", "3", "--workers", str(WORKERS))
    assert len(threads_of(refusing, tmp_path / "threads", words, f"{THIRD}\n".encode() * lines)) == threads
