"""The answers of tasks, in a file by which an interrupted run goes on: a line for each, with tabs between its fields."""

import contextlib
import errno
import fcntl
import os
import re
from typing import NamedTuple

from spread.parallel import Fault

HEAD = "command\tgoal\tlimit\tposition\tanswer\thost\tseconds\n"
FIELDS = 7
# The first word of an answer, by the goal.
WORDS = {"mate": "mate", "stale": "goal"}


class Key(NamedTuple):
    """The question of a task."""

    command: str
    goal: str
    limit: str
    fen: str


class Known(NamedTuple):
    """A position's goal is forced in so many plies and no fewer; or it isn't forced within so many."""

    is_forced: bool
    plies: int


def read_answer(text, goal, limit, moves):
    """Returns what an answer of `solve` within the limit says of a position with these moves, or None if it is no such answer."""
    if text == f"none within {limit}\n":
        return Known(False, limit)
    found = re.fullmatch(r"(mate|goal) (\d+) (\w+)\n", text)
    if not found or found[1] != WORDS[goal] or found[3] not in moves:
        return None
    plies = int(found[2])
    return Known(True, plies) if plies % 2 and plies <= limit else None


class Joblog:
    """The answers so far, and the file, if one is named."""

    def __init__(self, path, resumes):
        self.answers, self.solved, self.kept, self.file = {}, {}, 0, None
        if path:
            try:
                self.open(path, resumes)
            except OSError as fault:
                raise Fault(f"{path}: {fault.strerror}") from None

    def open(self, path, resumes):
        if os.path.exists(path) and not os.path.isfile(path):
            raise Fault(f"{path} is no file")
        self.file = open(path, "a+b", buffering=0)
        # Some file systems of clusters have no locks.
        with contextlib.suppress(OSError):
            try:
                fcntl.flock(self.file, fcntl.LOCK_EX | fcntl.LOCK_NB)
            except BlockingIOError:
                raise Fault(f"another run writes its answers to {path}: wait for its end, or name another file") from None
        if os.path.getsize(path) and not resumes:
            raise Fault(f"{path} has answers already: write --resume to go on after them, or name another file")
        self.file.seek(0)
        self.take(path, self.file.read())

    def take(self, path, raw):
        """Takes the answers of the file, and cuts away a last line that isn't whole."""
        whole = raw[: raw.rfind(b"\n") + 1]
        if whole != raw:
            self.file.truncate(len(whole))
        lines = whole.decode(errors="replace").split("\n")[:-1]
        if not lines:
            self.write(HEAD)
        elif lines[0] + "\n" != HEAD:
            raise Fault(f"{path} isn't a joblog of tools/spread")
        for fields in (line.split("\t") for line in lines[1:]):
            if len(fields) == FIELDS:
                self.keep(Key(*fields[:4]), fields[4] + "\n")
        self.kept = len(self.answers)

    def keep(self, key, answer):
        self.answers[key] = answer
        if key.command in ("solve", "certify"):
            self.solved.setdefault((key.command, key.goal, key.fen), {})[key.limit] = answer

    def of(self, commands, goal, fen):
        """Returns the answers of these commands at a position, as (limit, answer)."""
        found = [it for command in commands for it in self.solved.get((command, goal, fen), {}).items()]
        return [(int(limit), answer) for limit, answer in found if re.fullmatch(r"[1-9][0-9]?", limit)]

    def add(self, key, answer, ended):
        """Adds the answer of a task that ended so."""
        self.keep(key, answer)
        try:
            self.write("\t".join([*key, answer.removesuffix("\n"), ended.host, f"{ended.seconds:.3f}"]) + "\n")
        except OSError as fault:
            raise Fault(f"the joblog can't be written: {fault.strerror}") from None

    def write(self, line):
        raw = line.encode()
        if self.file and self.file.write(raw) != len(raw):
            raise OSError(errno.ENOSPC, os.strerror(errno.ENOSPC))
