"""Proves and builds crates by the commands of the toolchain, `rt`, in a temporary folder.

A command of `rt` works on the whole repository that it is started in, and two commands in one repository wait for each other. So a crate
and the crates below it are copied into a temporary folder outside the clone, and `rt` proves them there. The toolchain keeps the crates
that `rt ci` has proved beside itself, for any folder: a later run proves only the crates that changed or weren't reached.
"""

import contextlib
import fcntl
import os
import re
import select
import shutil
import signal
import subprocess
import sys
import tempfile
from pathlib import Path

# The programs by the names of their crates. The first has all commands that no other has.
PROGRAMS = ("minimate", "batch", "verify", "compose")
# The folders of a crate that are proved; and what `rt ci` runs a program with, and expects of it.
PARTS, RUN_WITH = ("src", "specs", "proofs"), ("args", "stdin", "data", "stdout", "status")
FUNCTION = re.compile(r"^\s*(?:pub(?:\([^)]*\))? )?(?:unsafe )?(?:extern \"C\" )?(?:const )?fn \w+", re.M)
# The logic that all crates were proved by, as `rt version` prints it.
LOGIC = "dac8208d650f15bf"
# The signals that end a build. A command that is interrupted by them is killed after so many seconds.
SIGNALS, ENDS_WITHIN = (signal.SIGHUP, signal.SIGINT, signal.SIGTERM), 20


class NotProved(Exception):
    """The reason why nothing was built."""


# The crates


def read_crates(top):
    """Returns the lines of crates.txt, without their comments, by the names of the crates."""
    lines = [line.partition("#")[0].strip() for line in Path(top, "crates.txt").read_text(encoding="utf-8").splitlines()]
    return {re.match(r"\w+", line)[0]: line for line in lines if ":" in line}


def with_below(lines, names, found=()):
    """Returns the crates found so far, these crates and all crates below them, each after the crates that it uses."""
    found = list(found)
    for name in names:
        if name not in found:
            uses = [it for it in lines[name].partition(":")[2].split() if it in lines]
            found = [*with_below(lines, uses, found), name]
    return found


def sources_of(top, name, parts=PARTS):
    """Yields the files and folders of a crate that are proved. A folder's time shows that a file was removed from it."""
    for path in (Path(top, "crates", name, part) for part in parts):
        yield from [path] * path.exists()
        yield from path.rglob("*")


def texts_of(top, name, parts=PARTS):
    """Yields the texts of a crate's files."""
    for path in sources_of(top, name, parts):
        if path.is_file():
            yield path.read_text(encoding="utf-8", errors="replace")


def count_functions(top, name):
    """Counts the functions in a crate's sources. The toolchain also counts derived functions."""
    return sum(len(FUNCTION.findall(text)) for text in texts_of(top, name, ("src",)))


def lay_out(top, names, folder, lines=None):
    """Makes a repository of these crates and the crates below them, without crates of tests and without mutants. Lines given here replace
    lines of crates.txt. Returns the crates, each after the crates that it uses."""
    lines = {**read_crates(top), **(lines or {})}
    found = with_below(lines, names)
    # `rt` takes the folder that has a .git for the top of the repository.
    os.makedirs(os.path.join(folder, ".git"))
    shutil.copyfile(os.path.join(top, "HANDLES"), os.path.join(folder, "HANDLES"))
    Path(folder, "crates.txt").write_text("".join(f"{lines[name]}\n" for name in found), encoding="utf-8")
    for place in [os.path.join("crates", name, part) for name in found for part in PARTS + RUN_WITH]:
        source, copy = os.path.join(top, place), os.path.join(folder, place)
        if os.path.isdir(source):
            shutil.copytree(source, copy, copy_function=shutil.copyfile)
        elif os.path.isfile(source):
            os.makedirs(os.path.dirname(copy), exist_ok=True)
            shutil.copyfile(source, copy)
    return found


# Signals, and what they must not leave


def end_on_signals(status=None):
    """Lets INT, TERM and HUP end this process by SystemExit, so that the processes that it started end and its folders are removed. An
    ignored HUP, as under `nohup`, stays ignored. Further signals don't disturb that end. The status is 128 and the signal's number unless
    another is given."""

    def end_once(number, _):
        for it in heard:
            signal.signal(it, signal.SIG_IGN)
        sys.exit(status or 128 + number)

    heard = [it for it in SIGNALS if it != signal.SIGHUP or signal.getsignal(it) != signal.SIG_IGN]
    for it in heard:
        signal.signal(it, end_once)


@contextlib.contextmanager
def held():
    """Puts signals off until the block ends. Yields a function by which a process that is started in the block gets them again."""
    before = signal.pthread_sigmask(signal.SIG_BLOCK, SIGNALS)
    try:
        yield lambda: signal.pthread_sigmask(signal.SIG_SETMASK, before)
    finally:
        signal.pthread_sigmask(signal.SIG_SETMASK, before)


@contextlib.contextmanager
def temporary_folder():
    """Makes a folder that is removed at the end of the block."""
    room = ""
    try:
        with held():
            room = tempfile.mkdtemp(prefix="minimate-")
        yield room
    finally:
        with held():
            shutil.rmtree(room, ignore_errors=True)


@contextlib.contextmanager
def alone(top, say):
    """Lets one build at a time into the block. The system frees the lock when this process ends."""
    with open(os.path.join(top, "out", "build.lock"), "w", encoding="ascii") as lock:
        try:
            fcntl.flock(lock, fcntl.LOCK_EX | fcntl.LOCK_NB)
        except BlockingIOError:
            say("another build is under way here: waiting for it ..")
            fcntl.flock(lock, fcntl.LOCK_EX)
        yield


# The toolchain


class Kit:
    """The toolchain: on the path, or where it is commonly installed."""

    def __init__(self):
        found = [path for path in (shutil.which("rt"), "/opt/rattle/bin/rt") if path and os.access(path, os.X_OK)]
        if not found:
            raise NotProved("found no rt on the path, nor in /opt/rattle/bin: install the toolchain")
        self.rt = found[0]
        self.version = self.answer("version")
        if "logic" not in self.version.split():
            raise NotProved(f"`{self.rt} version` prints no logic, but `{self.version}`: install a newer toolchain, of logic {LOGIC}")

    def answer(self, word):
        """Returns the line that `rt` prints for this word."""
        try:
            ran = subprocess.run([self.rt, word], stdin=subprocess.DEVNULL, stdout=subprocess.PIPE, stderr=subprocess.STDOUT, check=False)
        except OSError as error:
            raise NotProved(f"{self.rt} can't be run: {error.strerror}: install the toolchain anew") from error
        lines = ran.stdout.decode(errors="replace").splitlines()
        if ran.returncode or not lines:
            raise NotProved(f"`{self.rt} {word}` ended with status {ran.returncode}: install a newer toolchain, of logic {LOGIC}")
        return lines[0].strip()

    def file(self, place):
        """Returns the path of a file of the toolchain, whose folder has the page that `rt doc` prints."""
        page = self.answer("doc")
        found = [str(folder / place) for folder in Path(page).parents if (folder / place).is_file()]
        if not found:
            raise NotProved(f"found no {place} in the toolchain's folder, that of {page}: install the toolchain anew")
        return found[0]


@contextlib.contextmanager
def started(rt, words, folder, **how):
    """Starts a command of `rt` in a folder, as a group of processes. If it still runs at the end of the block, the group is ended. It is
    no session of its own: Linux shares processors out to sessions, so that a lower priority of the launcher would not count for the
    proofs."""
    process = None
    how = {"stdin": subprocess.DEVNULL, "stdout": subprocess.PIPE, "stderr": subprocess.STDOUT, **how}
    try:
        with held() as heard:
            process = subprocess.Popen([rt, *words], cwd=folder, preexec_fn=lambda: (os.setpgid(0, 0), heard()), **how)
        yield process
    finally:
        with held():
            if process and process.poll() is None:
                end(process)
            if process and process.stdout:
                process.stdout.close()


def end(process):
    """Interrupts a command and all that it has started, waits for it, and kills what hasn't ended by then."""
    with contextlib.suppress(ProcessLookupError):
        os.killpg(process.pid, signal.SIGINT)
    with contextlib.suppress(subprocess.TimeoutExpired):
        process.communicate(timeout=ENDS_WITHIN)
    with contextlib.suppress(ProcessLookupError):
        os.killpg(process.pid, signal.SIGKILL)
    process.communicate()


def lines_of(process, every):
    """Yields the lines that a process writes, and None after each so many seconds without one."""
    left, piece = b"", b" "
    while piece:
        if not select.select([process.stdout], [], [], every)[0]:
            yield None
            continue
        piece = os.read(process.stdout.fileno(), 1 << 16)
        *whole, left = (left + piece).split(b"\n")
        yield from (it.decode(errors="replace") for it in whole)
    if left:
        yield left.decode(errors="replace")


def run(kit, words, folder, hear, every=1):
    """Runs a command of `rt` to its end. `hear` is called with each line, and with None after each so many seconds without one. Raises
    NotProved if the command fails."""
    lines = []
    with started(kit.rt, words, folder) as process:
        for line in lines_of(process, every):
            lines += [] if line is None else [line]
            hear(line)
        status = process.wait()
    judge(kit, words, status, lines)


def judge(kit, words, status, lines):
    """Raises NotProved, with the first fault that the command printed, unless it ended with status 0."""
    if status < 0:
        why = ", most likely for memory" if status == -signal.SIGKILL else ""
        raise NotProved(f"`rt {' '.join(words)}` was ended by signal {-status}{why}")
    if status:
        logic = "" if LOGIC in kit.version.split()[-1:] else f" (this toolchain is `{kit.version}`, and all was proved by logic {LOGIC})"
        raise NotProved(f"{fault_of(lines)}{logic}")


# The line before the lines of a crate, or of its tests; and the line after them if all of it is proved, now or by an earlier run.
HEAD = re.compile(r"== (.+)$")
PROVED = re.compile(r"rt: (.+?)(?:(?: are)? proved$| is kept: )")
# The lines that say what a proof lacks, and what else keeps a command from its end.
FUNCTION_WRONG = r"fn \S+: (?:not proved|no proof|could not tell)"
WRONG = re.compile(rf"(?:note: )?\S+\.(?:rt|antt):\d+:\d+: (?!warning|note)|{FUNCTION_WRONG}|(?:\w+: )?error\b")
REFUSED = re.compile(r"rt: .*\b(?:not|no|cannot|refused|failed|killed|free|wants?)\b")


def fault_of(lines):
    """Returns the first line that says what is wrong, with the crate that it is about; or the last line."""
    proved, name = {PROVED.match(line)[1] for line in lines if PROVED.match(line)}, ""
    for line in lines:
        if HEAD.match(line) or PROVED.match(line):
            name = HEAD.match(line)[1] if HEAD.match(line) else ""
        elif name not in proved and WRONG.match(line):
            crate, _, tests = name.partition(":")
            whose = f"the tests of {crate} aren't proved: " if tests else f"{crate} isn't proved: " if crate else ""
            return f"{whose}{line.strip()}"
    written = [line.strip() for line in lines if line.strip()]
    return next((it for it in written if REFUSED.match(it)), written[-1] if written else "the toolchain printed nothing")
