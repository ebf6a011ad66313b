"""A checker of the program and a second checker, asked about the same texts."""

import os

from programs import run, started

SECONDS = 60
OTHER_GOAL = {"mate": "stale", "stale": "mate"}


def goal_words(goal):
    """Mate is the default."""
    return [] if goal == "mate" else ["--goal", goal]


class Asked:
    """Collects the differences, and how many comparisons were made. `second` takes a position, a text and a goal."""

    def __init__(self, program, command, second):
        self.program, self.command, self.second, self.differ, self.made = program, command, second, [], 0

    def note(self, is_well, *what):
        self.made += 1
        self.differ += [] if is_well else [tuple(str(it)[:300] for it in what)]

    def ask(self, what, fen, goal, text):
        """Compares output and status. Returns the second checker's line, and the program's standard error."""
        ran = run(started(self.program, self.command, *goal_words(goal), fen), text, SECONDS)
        line, status = self.second(os.fsencode(fen), lambda: text, goal)
        self.note((ran.output, ran.status) == ((line + "\n").encode(), status), what, fen, goal, ran, line, text)
        return line, ran.error.decode(errors="replace")
