"""Runs shell lines by GNU parallel, on this machine or over ssh, and returns how each ended."""

import contextlib
import functools
import json
import os
import re
import select
import shutil
import signal
import subprocess
import sys
import tempfile
from typing import NamedTuple, Optional

# Seconds that a line of parallel's is waited for before the dropped tasks are looked through again.
MOMENT = 0.1
# The ssh that parallel runs unless PARALLEL_SSH or the file of hosts names another: it asks nobody for a password, and notices a machine
# that is gone.
SSH = "ssh -o BatchMode=yes -o ConnectTimeout=10 -o ServerAliveInterval=10 -o ServerAliveCountMax=3"
LOCAL, HERE = ":", "this machine"
# The folder of processes, by which the tasks that parallel runs are found.
PROC = "/proc"
NO_CHILDREN = "spread: this system lists no children of a process in /proc: a running task that is of no more use isn't ended, and runs on"


class Fault(Exception):
    """What keeps tasks from running, as a sentence."""


class Machines(NamedTuple):
    """Where tasks run, how many at a time on each machine, and how often one is tried."""

    hosts: Optional[str]
    jobs: Optional[int]
    retries: int


class Ended(NamedTuple):
    """How a task ended: its status, the signal that ended it or 0, both streams, where it ran, and its seconds."""

    status: int
    signal: int
    output: str
    error: str
    host: str
    seconds: float

    def is_done(self):
        return self.status == 0 and self.signal == 0

    def why(self):
        """Returns why a task isn't done, as the end of a sentence."""
        lines = (self.error.strip() or self.output.strip()).splitlines()
        how = f"signal {self.signal}" if self.signal else f"status {self.status}"
        return f"ended on {self.where()} with {how}{f': {lines[-1]}' if lines else ''}"

    def where(self):
        return HERE if self.host == LOCAL else self.host


@functools.lru_cache(maxsize=None)
def find_parallel():
    """Returns GNU parallel's path. Another program has the same name."""
    path, install = shutil.which("parallel"), "install GNU parallel (Debian: apt-get install parallel)"
    if path is None:
        raise Fault(f"found no parallel on the path: {install}")
    ran = subprocess.run([path, "--version"], stdin=subprocess.DEVNULL, capture_output=True, check=False)
    if not ran.stdout.startswith(b"GNU parallel"):
        raise Fault(f"{path} isn't GNU parallel: {install}")
    return path


class Run:
    """One run of GNU parallel over these lines. Iterating yields the line's number, from 0, and how it ended."""

    def __init__(self, lines, machines):
        self.lines, self.machines = lines, machines
        self.waits, self.dropped = set(range(len(lines))), set()
        self.process, self.room, self.errors = None, None, None
        self.ends_tasks = os.path.exists(f"{PROC}/thread-self/children")

    def __enter__(self):
        path = find_parallel()
        with contextlib.ExitStack() as opened:
            self.room = opened.enter_context(tempfile.TemporaryDirectory(prefix="spread."))
            self.errors = opened.enter_context(open(os.path.join(self.room, "errors"), "w+b"))
            opened.callback(self.end)
            self.start(path)
            self.opened = opened.pop_all()
        return self

    def __exit__(self, *_):
        self.opened.close()

    def start(self, path):
        tasks = os.path.join(self.room, "tasks")
        with open(tasks, "w", encoding="utf-8") as file:
            file.writelines(line + "\n" for line in self.lines)
        settings = {"PARALLEL_SSH": SSH, **os.environ, "PARALLEL_SHELL": "/bin/sh", "PARALLEL_HOME": self.room, "SPREAD_DROPPED": self.room}
        how = {"stdin": subprocess.DEVNULL, "stdout": subprocess.PIPE, "stderr": self.errors}
        # In a session of its own it isn't reached by an interrupt that is meant for this program.
        self.process = subprocess.Popen([path, *self.words(tasks)], env=settings, start_new_session=True, **how)

    def words(self, tasks):
        """Each line is a task. A line whose number is a file in the folder when the task would begin is left out."""
        words = ["--plain", "--will-cite", "--results", "-.json", "--retries", str(self.machines.retries)]
        words += ["-j", str(self.machines.jobs)] if self.machines.jobs else []
        words += ["--sshloginfile", self.machines.hosts] if self.machines.hosts else []
        return [*words, '{= uq(); -e "$ENV{SPREAD_DROPPED}/" . seq() and skip(); =}', "::::", tasks]

    def end(self):
        """Ends parallel by the signal at which it ends all that it started; in its first moments it ignores it."""
        while self.process and self.process.poll() is None:
            self.process.stdout.close()
            self.process.terminate()
            with contextlib.suppress(subprocess.TimeoutExpired):
                self.process.wait(1)

    def __iter__(self):
        for line in self.output():
            if line is not None:
                number, ended = self.read(line)
                if number in self.waits:
                    self.waits.discard(number)
                    yield number, ended
            self.end_dropped()
            if not self.waits:
                return
        self.errors.seek(0)
        lines = [line.strip() for line in self.errors.read().decode(errors="replace").splitlines() if line.strip()]
        raise Fault(f"parallel ended with {len(self.waits)} tasks undone{f': {lines[-1]}' if lines else ''}")

    def output(self):
        """Yields the lines that parallel writes, as they come, and None after each moment without one."""
        stream, left = self.process.stdout.fileno(), b""
        while True:
            if not select.select([stream], [], [], MOMENT)[0]:
                yield None
                continue
            piece = os.read(stream, 1 << 16)
            if not piece:
                return
            *whole, left = (left + piece).split(b"\n")
            yield from whole

    def read(self, line):
        """Reads the record that parallel writes of a task."""
        try:
            told = json.loads(line.decode(errors="replace"))
            number, host = int(told["Seq"]) - 1, told["Host"]
            return number, Ended(told["Exitval"], told["Signal"], told["Stdout"], told["Stderr"], host, float(told["JobRuntime"]))
        except (ValueError, KeyError, TypeError):
            raise Fault(f"parallel wrote no record of a task: {line[:200]!r}; 20221122 writes them") from None

    def drop(self, number):
        """Drops a line whose answer isn't wanted any more: its task isn't begun, or is ended."""
        if number in self.waits:
            if not self.ends_tasks and not self.dropped:
                print(NO_CHILDREN, file=sys.stderr, flush=True)
            self.waits.discard(number)
            self.dropped.add(str(number + 1))
            with open(os.path.join(self.room, str(number + 1)), "wb"):
                pass

    def end_dropped(self):
        """Ends the groups of processes of the dropped lines. A task that parallel tries once more is ended once more."""
        for child in children_of(self.process.pid) if self.dropped else []:
            if number_of(child) in self.dropped:
                with contextlib.suppress(ProcessLookupError):
                    os.killpg(child, signal.SIGTERM)


def children_of(process):
    """Returns the children of a process, if the system lists them."""
    with contextlib.suppress(OSError), open(f"{PROC}/{process}/task/{process}/children", encoding="ascii") as file:
        return [int(child) for child in file.read().split()]
    return []


def number_of(child):
    """Returns the number of the line that a child of parallel's runs, from its environment."""
    found = None
    with contextlib.suppress(OSError), open(f"{PROC}/{child}/environ", "rb") as file:
        found = re.search(rb"(?:\A|\0)PARALLEL_SEQ=(\d+)\0", file.read())
    return found and found[1].decode()
