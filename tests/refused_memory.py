"""Runs in which requests for memory are refused, one after the other, by a library that is preloaded (behaviour/refuse_memory.c)."""

import collections
import os
from typing import NamedTuple

from programs import run

MOST_RUNS = 10000
SECONDS = 20
MOST_WRONG = 5
# How many runs without a refusal say how many blocks may be left.
FREE_RUNS = 20


class Outcome(NamedTuple):
    """A run's status and output, whether it reported on its memory, how many requests it made, whether one was refused, and how many blocks of
    memory were never released. A run that was stopped reports nothing."""

    result: tuple
    has_reported: bool
    requests: int
    was_refused: bool
    left: int


class Sweep:
    """Runs of one program with one list of words."""

    def __init__(self, library, room, words, text=b""):
        self.library, self.log, self.words, self.text = library, room / "log", words, text

    def run(self, number, threads=None):
        """The run whose request of this number is refused, none if it is 0, and whose threads are refused from this number on."""
        self.log.write_text("-1 0 0")
        settings = {**os.environ, "FAIL_AT": str(number), "FAIL_LOG": str(self.log), "LD_PRELOAD": self.library}
        if threads is not None:
            settings["THREADS_FROM"] = str(threads)
        ran = run(self.words, self.text, SECONDS, env=settings)
        requests, refused, left = map(int, self.log.read_text().split())
        return Outcome((ran.status, ran.output), requests >= 0, requests, refused == 1, left)

    def most_left(self):
        """The most blocks that runs without a refusal leave: some are left if a thread hasn't quite ended when the program does."""
        return max(self.run(0).left for _ in range(FREE_RUNS))

    def outcomes(self, others):
        """Returns the first outcome, how often each other outcome came, and what is wrong."""
        first, counts, wrong = self.run(0), collections.Counter(), []
        assert first.has_reported, "the library that refuses was not loaded"
        most_left = self.most_left()
        for number in range(1, MOST_RUNS + 1):
            outcome = self.run(number)
            if outcome.has_reported and not outcome.was_refused:
                return first, counts, wrong
            counts[outcome.result] += 1
            if outcome.result not in (first.result, *others):
                wrong.append(f"request {number} refused: {outcome.result}")
            if outcome.left > most_left:
                wrong.append(f"request {number} refused: {outcome.left} blocks left, {most_left} without a refusal")
            if len(wrong) >= MOST_WRONG:
                return first, counts, [*wrong, "and no further request was tried"]
        return first, counts, [*wrong, f"still a request after {MOST_RUNS} runs"]
