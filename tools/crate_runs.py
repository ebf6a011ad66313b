"""Proves crates side by side, each by a run of `rt ci NAME` of its own, if the toolchain keeps what it proves and the machine has room."""

import contextlib
import os
import subprocess
import tempfile
import time

import kit

# So many crates are proved at once, if there are more processors and so many bytes are free. A run whose chain is shorter by a fifth gets
# this priority.
AT_ONCE, ENOUGH, PUT_BACK = 3, 8 << 30, 10


def processors():
    return len(os.sched_getaffinity(0))


def free_memory():
    """Returns how many bytes are free, or 0 if the system doesn't tell."""
    with contextlib.suppress(OSError), open("/proc/meminfo", encoding="ascii") as file:
        return sum(1024 * int(line.split()[1]) for line in file if line.startswith("MemAvailable:"))
    return 0


def keeps(toolchain):
    """Whether the toolchain keeps what it proves, by its help."""
    ran = subprocess.run([toolchain.rt, "--help"], stdin=subprocess.DEVNULL, stdout=subprocess.PIPE, stderr=subprocess.STDOUT, check=False)
    return b"What a run passed is kept" in ran.stdout


class CrateRuns:
    """The runs of the crates in a folder that `kit.lay_out` made."""

    def __init__(self, toolchain, top, names, folder):
        self.toolchain, self.names, self.folder = toolchain, names, folder
        lines = kit.read_crates(top)
        self.below = {it: {use for use in lines[it].partition(":")[2].split() if use in lines} for it in names}
        self.weights = {it: sum(len(text.splitlines()) for text in kit.texts_of(top, it)) for it in names}
        self.done, self.running = [], {}

    def lines(self):
        """Yields the lines of each run after its end, and None each tenth of a second. The whole build takes as long as the longest chain
        of crates, measured in lines: so the next crate of that chain is begun first. One run proves the rest in three cases: if a crate
        is proved a second time, since the toolchain then keeps nothing; if a crate is kept, since most are then; and if the rest is a
        chain."""
        if processors() <= AT_ONCE or free_memory() <= ENOUGH or not keeps(self.toolchain):
            return
        lengths = self.chains()
        with contextlib.ExitStack() as runs:
            while self.running or not self.is_chain():
                for name in self.next_apart(lengths):
                    self.begin(name, runs, lengths)
                if not self.running:
                    return
                time.sleep(0.1)
                yield None
                for name in [it for it, (process, _) in self.running.items() if process.poll() is not None]:
                    lines = self.end(name)
                    if lines is None:
                        return
                    yield from lines

    def begin(self, name, runs, lengths):
        file = runs.enter_context(tempfile.TemporaryFile("w+", encoding="utf-8", errors="replace"))
        process = runs.enter_context(kit.started(self.toolchain.rt, ["ci", name], self.folder, stdout=file))
        if any(lengths[name] < 0.8 * lengths[it] for it in self.running):
            with contextlib.suppress(OSError):
                os.setpriority(os.PRIO_PGRP, process.pid, PUT_BACK)
        self.running[name] = (process, file)

    def end(self, name):
        """Returns the lines of a run that ended, or None if one run should prove the rest."""
        process, file = self.running.pop(name)
        file.seek(0)
        lines = file.read().splitlines()
        if any(f"rt: {it} proved" in lines for it in self.done) or any(it.startswith(f"rt: {name} is kept: ") for it in lines):
            return None
        kit.judge(self.toolchain, ["ci", name], process.returncode, lines)
        self.done.append(name)
        return lines

    def chains(self):
        """Returns, for each crate, the lines of the longest chain of crates that begins with it and in which each crate uses the one
        before."""
        found = {}
        for name in reversed(self.names):
            found[name] = self.weights[name] + max((found[it] for it in self.names if name in self.below[it]), default=0)
        return found

    def is_chain(self):
        """Whether each crate that isn't proved yet uses the one before it."""
        left = [it for it in self.names if it not in self.done]
        return all(below in self.below[name] for below, name in zip(left, left[1:]))

    def next_apart(self, lengths):
        """Returns the crates that can be begun now, beside those that run: that on the longest chain first."""
        used = set().union(*self.below.values())
        able = [it for it in self.names if it in used and it not in {*self.running, *self.done} and self.below[it] <= set(self.done)]
        return sorted(able, key=lambda it: -lengths[it])[: AT_ONCE - len(self.running)]
