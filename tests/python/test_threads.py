"""Ctrl-C in the middle of searches of the package for Python, and searches in several threads."""

import re
import signal
import subprocess
import sys
import threading
import time

import pytest

from library_calls import LONG, THIRD
from programs import bench_lines
from python_package import settings

# Seconds that an interrupt may take; how often each is tried; and seconds after which a process counts as hung.
MOST_WAIT, TRIES, MOST_SECONDS = 0.1, 2, 20
THREADS = 8
SEARCHING = """
import time
import minimate
solver, heard = minimate.Solver(), []
def progress(*told):
    heard.append(told)
print("ready", flush=True)
try:
    print(solver.{call}({fen!r}, 63, progress={progress}))
except KeyboardInterrupt as why:
    print("interrupted", time.monotonic(), why.none_within, (heard or [[0]])[-1][0], flush=True)
# The same solver's next answer is right.
print(solver.{call}({other!r}, 3), flush=True)
"""
# The next answer of each call.
NEXT = {
    "solve": "mate 3 c4c5",
    "keys": "[Key(move='c4c5', plies=3)]",
    "tree": "('c4c5', (('a6a5', ('b1a1', '#')),))",
    "tree_text": "c4c5{a6a5:b1a1#}",
}


def interrupt(library, words, stream):
    """Sends SIGINT a second after the first line on that stream. Returns both streams, the status, and the times of the signal and of the end."""
    how = {"stdout": subprocess.PIPE, "stderr": subprocess.PIPE, "env": settings(library)}
    # A process in the background may have been started with interrupts ignored.
    how["preexec_fn"] = lambda: signal.signal(signal.SIGINT, signal.SIG_DFL)
    with subprocess.Popen([sys.executable, *words], **how) as process:
        first = getattr(process, stream).readline()
        time.sleep(1)
        sent = time.monotonic()
        process.send_signal(signal.SIGINT)
        try:
            output, error = process.communicate(timeout=MOST_SECONDS)
        except subprocess.TimeoutExpired:
            process.kill()
            output, error = process.communicate()
    ended = time.monotonic()
    output, error = (first + output, error) if stream == "stdout" else (output, first + error)
    return output.decode(), error.decode(), process.returncode, sent, ended


@pytest.mark.timed
@pytest.mark.parametrize("number", range(TRIES))
@pytest.mark.parametrize("progress", ["None", "progress"])
@pytest.mark.parametrize("call", NEXT)
def test_ctrl_c_ends_a_search_and_the_next_answer_is_right(shared_library, count, call, progress, number):
    code, waits = SEARCHING.format(call=call, fen=LONG, progress=progress, other=THIRD), []
    # A busy machine may hold a process up for longer than that, so it has three turns.
    while len(waits) < 3 and not (waits and waits[-1] < MOST_WAIT):
        output, error, status, sent, _ = interrupt(shared_library, ["-c", code], "stdout")
        found = re.fullmatch(r"ready\ninterrupted ([\d.]+) (\d+) (\d+)\n" + re.escape(NEXT[call]) + "\n", output)
        assert found and status == 0, (output, error)
        # One clock serves all processes.
        waits.append(float(found[1]) - sent)
    assert 0 < waits[-1] < MOST_WAIT, waits
    if progress == "None" or call == "keys":
        # For keys no plies are reported, and it may take longer than a second until a first move is searched.
        assert found[2] == "0"
    else:
        assert found[2] == found[3] != "0"
    count(3)


@pytest.mark.timed
def test_ctrl_c_ends_python_m_minimate(shared_library):
    words = ["-m", "minimate", "solve", "--limit", "63", "--progress", LONG]
    output, error, status, sent, ended = interrupt(shared_library, words, "stderr")
    assert status == -signal.SIGINT and output == "" and "interrupted: none within" in error
    assert ended - sent < 5 * MOST_WAIT


def test_eight_threads_with_a_solver_each_have_the_answers_of_the_bench(package, count):
    """Each thread begins at another line."""
    lines = [line for line in bench_lines() if line.limit <= 5]
    wrong, done = [], []

    def work(number):
        solver = package.Solver(slots=(64, 16381)[number % 2])
        for line in lines[number:] + lines[:number]:
            answer = solver.solve(line.fen, line.limit, line.goal)
            if (answer.plies if answer.is_forced else None, answer.first) != (line.plies, line.move):
                wrong.append((number, line, answer))
        done.append(number)

    threads = [threading.Thread(target=work, args=[i]) for i in range(THREADS)]
    for thread in threads:
        thread.start()
    for thread in threads:
        thread.join()
    assert wrong == [] and sorted(done) == list(range(THREADS)) and len(lines) > 25
    count(THREADS * len(lines))
