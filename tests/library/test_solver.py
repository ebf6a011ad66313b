"""A solver of the C library: against the program, stopped from another thread, in eight threads, with memory refused, and under valgrind."""

import collections
import re

import pytest

from conftest import need
from library_calls import KNOWN, LONG, NO_MEMORY, SLOTS, THIRD, TREE, VALGRIND, bench_calls, program_reply
from programs import Ran, run
from refused_memory import Sweep

# What a solver answers by, and the reply of each to a position that is mate in three plies.
REPLIES = {"solve": b"mate 3 c4c5\n", "keys": b"c4c5 3\n", "tree": TREE}
# The milliseconds within which a stop has to end a search.
MOST_STOP = 100


@pytest.mark.parametrize("word", REPLIES)
def test_a_solver_answers_as_the_program_prints(program, caller, count, word):
    """One solver is asked about all positions of a goal and a limit. It reports a refused position without a reason."""
    groups, number = collections.defaultdict(list), 0
    for asked in [it for it, _ in KNOWN if it.slots == SLOTS] + list(bench_calls()):
        if asked.word == word:
            groups[asked.stale, asked.limit].append(asked)
    for (stale, limit), lines in groups.items():
        replies = [program_reply(program, it) for it in lines]
        wanted = b"".join(b"refused\n" if it.startswith(b"refused: ") and it != b"refused: Limit\n" else it for it in replies)
        for slots in ("1", str(SLOTS)) if limit <= 3 else (str(SLOTS),):
            words = [caller, "solver", word, slots, str(int(stale)), str(limit), *(it.fen for it in lines)]
            assert run(words, timeout=300) == Ran(0, wanted, b""), f"{slots} slots, {limit} plies"
            number += len(lines)
    assert number > 100
    count(number)


@pytest.mark.timed
@pytest.mark.parametrize("word", REPLIES)
def test_a_stop_ends_a_search_of_minutes_and_the_solver_answers_the_next_call(caller, word):
    ran = run([caller, "stop", word, "1048573", "3", LONG, THIRD])
    pattern = rb"stopped after ([\d.]+) ms, none within (\d+), (\d+) of (\d+) moves\n" + re.escape(REPLIES[word])
    found = re.fullmatch(pattern, ran.output)
    assert ran.status == 0 and found, ran
    assert float(found[1]) < MOST_STOP
    # A search for keys doesn't report plies.
    assert (int(found[2]) > 0) == (word != "keys") and int(found[2]) <= 63
    assert int(found[3]) <= int(found[4])


def test_eight_threads_have_a_solver_each(caller):
    assert run([caller, "threads", str(SLOTS), "3", THIRD]) == Ran(0, b"8 of 8 found it\n", b"")


@pytest.mark.parametrize("word, reply", REPLIES.items())
def test_a_solver_replies_or_reports_lack_of_memory_and_replies_again(caller, refusing, tmp_path, count, word, reply):
    others = [NO_MEMORY, (0, NO_MEMORY[1] + reply), (0, reply + NO_MEMORY[1])]
    first, counts, wrong = Sweep(refusing, tmp_path, [caller, "solver", word, "64", "0", "3", THIRD, THIRD]).outcomes(others)
    assert first.result == (0, 2 * reply) and counts[NO_MEMORY] > 0 and wrong == []
    count(counts.total())


@pytest.mark.parametrize("word, reply", REPLIES.items())
def test_a_solver_makes_no_fault_under_valgrind(caller, word, reply):
    need("valgrind")
    words = [*VALGRIND, "--leak-check=full", caller, "solver", word, "64", "0", "3", THIRD, THIRD]
    assert run(words, timeout=300) == Ran(0, 2 * reply, b"")
