"""Runs searches with a progress line: what it says, when it is drawn, and that the output stays the same."""

import os
import re
import subprocess
import time

import pytest

from command_lines import ADVICE, ADVISED_AFTER, SHORT_LIMIT, SIGN, SLOW, SLOW_ANSWER, SLOW_NONE, SLOW_WORDS, START, THIRD
from programs import run, started

SEARCHES = ["solve", "tree", "keys", "solution", "batch"]


def wrong_lines(program, command, error):
    """The progress lines that name another round than the one after the last, or of `keys` one beyond the limit, or a move that isn't the
    one of its number."""
    moves = run([program, "moves", SLOW]).output.split()
    wrong = []
    for _, _, none, round_of, number, count, move, winner in SIGN.findall(error):
        rounds = SLOW_NONE if command == "keys" else [int(none or -1) + 2]
        is_listed = winner in moves if winner else 0 < int(number) <= int(count) == len(moves) and moves[int(number) - 1] == move
        if int(round_of) not in rounds or not is_listed:
            wrong.append((none, round_of, number, count, move, winner))
    return wrong


@pytest.mark.parametrize("command", SEARCHES)
def test_a_progress_line_is_drawn_each_second_and_the_output_stays(program, command):
    words, text = [command, *SLOW_WORDS], SLOW.encode()
    if command != "batch":
        words, text = [*words, SLOW], b""
    plain, shown = (run(started(program, *words, *more), text) for more in ([], ["--progress"]))
    assert (shown.status, shown.output, plain.error) == (0, plain.output, b"")
    if command in ("solve", "solution", "batch"):
        assert shown.output == SLOW_ANSWER
    line = b"line 1, " if command == "batch" else b""
    held = b"" if command == "keys" else rb"none within \d+, "
    assert re.search(rb"\r\x1b\[\?7l1 s, " + line + held + rb"round \d+: (move \d+ of \d+, \w+|\w+ wins)\x1b\[K", shown.error)
    assert wrong_lines(program, command, shown.error) == []
    # Some line names a later move than the first: the search reports the first moves that it has decided.
    assert max(int(sign[4] or 1) for sign in SIGN.findall(shown.error)) > 1
    rounds = [b"\rnone within %d\x1b[K\n" % plies for plies in SLOW_NONE if command not in ("keys", "batch")]
    assert re.findall(rb"\r(?:line \d+, )?none within \d+\x1b\[K\n", shown.error) == rounds
    assert shown.error.endswith(b"\r\x1b[K")


def test_certify_shows_how_many_lines_are_written(program):
    words = started(program, "certify", "--progress", "--slots", "1048573", "--limit", "15", START)
    error = run(words, timeout=300).error
    assert re.search(rb"\r\d+ lines, \d+ s\x1b\[K", error) and error.endswith(b"\r\x1b[K")


@pytest.mark.parametrize("words, is_advised", [([], True), (["--slots", "100000"], False)], ids=["64 slots", "100,000 slots"])
def test_a_long_search_over_few_slots_is_advised_to_take_more(program, words, is_advised):
    """The search would take far longer than the test, and is ended."""
    command = [program, "solve", "--progress", "--limit", "41", *words, SLOW]
    process = subprocess.Popen(command, stdin=subprocess.DEVNULL, stdout=subprocess.DEVNULL, stderr=subprocess.PIPE)
    time.sleep(ADVISED_AFTER + 4)
    is_running = process.poll() is None
    process.kill()
    error = process.communicate()[1]
    lines = [(int(seconds), bool(advice)) for seconds, advice in ADVICE.findall(error)]
    assert is_running and len(lines) > 5 and lines[-1][0] > ADVISED_AFTER
    assert [it for it in lines if it[1] != (is_advised and it[0] >= ADVISED_AFTER)] == []
    assert wrong_lines(program, "solve", error) == [] and len(SIGN.findall(error)) == len(lines)


@pytest.mark.parametrize("command", [*SEARCHES, "certify"])
def test_a_search_that_ends_within_a_second_draws_nothing_and_takes_no_longer(program, command):
    """The best of three runs counts, since other tests run at the same time."""
    words = [command, "--progress", "--limit", SHORT_LIMIT, *([] if command == "batch" else [THIRD])]
    runs = []
    for _ in range(3):
        began = time.monotonic()
        ran = run(started(program, *words), THIRD.encode())
        runs.append((time.monotonic() - began, ran.error))
    assert b"" in [error for _, error in runs] and min(took for took, _ in runs) < 0.9


@pytest.mark.parametrize("device", ["full", "closed"])
def test_output_and_status_stay_if_standard_error_takes_nothing(program, device):
    how = {"stderr": open("/dev/full", "wb")} if device == "full" else {"preexec_fn": lambda: os.close(2)}
    words = [program, "solve", "--progress", *SLOW_WORDS, SLOW]
    ran = subprocess.run(words, stdout=subprocess.PIPE, check=False, **how)
    assert (ran.returncode, ran.stdout) == (0, SLOW_ANSWER)
