"""Clones of what the launcher needs, with a program that stands in for `rt`, so that nothing is proved."""

import contextlib
import os
import shutil
import signal
import subprocess
import sys
import tempfile
import time
from pathlib import Path

import kit
from programs import TOP, run

# Stands in for `rt`: it prints what `rt` prints and leaves the programs that `rt` leaves. Into RT_RUNS it writes when the proof of a
# crate begins and ends, and its process; into RT_RUNS.tree the files that it finds. RT_FAILS names a crate that isn't proved, RT_KILLED
# one at which it is killed, and RT_HELD one whose proof waits for the file RT_RUNS.go; RT_KEPT says that all was proved before; with
# RT_FULL the disk is full; with RT_LEAVES_NOTHING there is no program at the end. `lib` and `must-fail` print RT_SAYS, or take a minute,
# beside a process that ignores an interrupt. In a folder without crates.txt it stands in for the gate, which waits until the file
# RT_AFTER is written.
RT = """#!/bin/sh
case $1 in
    version) echo "${RT_VERSION:-rattle-kit-0 logic LOGIC}" && exit ;;
    try)
        echo "try $PWD $*" >> "$RT_RUNS"
        sleep "${RT_TRIAL_SLEEP:-0}"
        [ -z "$RT_TRIAL_FAILS" ] || exit 6
        echo "mate 1 f1f6"
        exit
        ;;
    lib | must-fail)
        [ -z "$RT_SAYS" ] || { echo "$RT_SAYS"; exit 1; }
        sleep 60 > /dev/null 2>&1 &
        printf '%s\\n' "process $$" "process $!" "begin $1" >> "$RT_RUNS"
        wait
        exit 1
        ;;
    --help) [ -z "$RT_KEEPS" ] || echo "    What a run passed is kept"; exit 2 ;;
    ci) ;;
    *) exit 2 ;;
esac
if [ ! -f crates.txt ]; then
    while [ -n "$RT_AFTER" ] && [ ! -s "$RT_AFTER" ]; do sleep 0.1; done
    [ -z "$RT_FAILS" ] || { echo "0 passed, 1 failed"; exit 1; }
    echo "12 passed, 0 failed"
    exit
fi
if [ -n "$2" ]; then echo "apart $2" >> "$RT_RUNS"; else echo "ci $PWD" >> "$RT_RUNS"; fi
echo "process $$" >> "$RT_RUNS"
find . | sort > "$RT_RUNS.tree"
cp crates.txt "$RT_RUNS.crates"
[ -z "$RT_FULL" ] || { echo "rt: 2 GB of the disk are free, and a run wants 3"; exit 2; }
for crate in ${2:-$(sed 's/[: ].*//' crates.txt)}; do
    [ -z "$RT_FORGETS" ] || [ "$2" != wintree ] || echo "rt: board proved"
    echo "begin $crate" >> "$RT_RUNS"
    sleep "${RT_SLEEP:-0}"
    while { [ "$RT_HELD" = "$crate" ] || [ "$RT_HELD" = "apart $2" ]; } && [ ! -e "$RT_RUNS.go" ]; do sleep 0.1; done
    [ "$RT_KILLED" != "$crate" ] || kill -9 $$
    echo "== $crate"
    echo "./proofs/Lib.antt:1:1: note: large solution"
    if [ "$RT_FAILS" = "$crate" ]; then
        printf '%s\\n' "fn $crate::reply: not proved" "rt: $crate is not proved" "3 passed, 1 failed"
        exit 1
    fi
    [ "$crate" != moves ] || printf '%s\\n' "== moves: its tests" "fn moves::tests::f: proved" "rt: moves: its tests are proved" "== moves"
    printf '%s\\n' "fn $crate::reply: proved" "logic=proved functions=2 sum=0" "rt: $crate ${RT_KEPT:-proved}"
    echo "end $crate" >> "$RT_RUNS"
done
[ -z "$2" ] || exit 0
for program in minimate batch verify compose; do
    [ -z "$RT_LEAVES_NOTHING" ] && [ -d crates/$program ] || continue
    mkdir crates/$program/out
    cat > crates/$program/out/$program << 'END'
PROGRAM
END
    chmod +x crates/$program/out/$program
done
echo "5 passed, 0 failed"
"""
# Stands in for a program: it prints its name and its words, and copies the input of `check` and `batch`.
PROGRAM = """#!/bin/sh
case "$*" in
    *bad*) echo "error: bad" >&2; exit 2 ;;
    "moves -- --help") ;;
    *--help*worse*) printf '%s\\n' "how to" "error: worse" >&2; exit 2 ;;
    *--help*) echo "how to" >&2; exit 2 ;;
esac
case "$1 $3" in
    "after wrong") echo "refused: Move"; exit 1 ;;
    after*) echo "$2, $3"; exit ;;
esac
echo "name $0"
[ -z "$TELLS_TUNABLES" ] || echo "tunables $GLIBC_TUNABLES"
for word; do echo "word $word"; done
[ "$1" != check ] || cat
[ "$1" != batch ] || [ ! -p /dev/stdin ] || cat
[ "$1" != fail ] || exit 3"""
CRATES = """# a comment: with a colon
board: arrayvec
moves may_wait=1: board arrayvec # another
wintree: board
minimate may_wait=7 tests_may=Threads+Wait: moves wintree board clap
batch: moves board
verify may_wait=1: wintree board
compose: moves board clap
apart: board
"""
# The number of functions in each crate.
FUNCTIONS = {"board": 2, "moves": 2, "wintree": 2, "minimate": 2, "batch": 4, "verify": 3, "compose": 5, "apart": 1}
# With `wc` and `dd` the launcher could read the input, which it must not.
TOOLS = """sh env awk wc dd basename cat chmod cmp cp dirname find iconv kill ln ls mkdir mktemp mv printf readlink rm rmdir sleep sort
touch tail sed date echo""".split()
FILES = """minimate tools/install tools/build_program tools/kit.py tools/crate_runs.py tools/show_tree tools/check_tree.py tools/diagrams.py
share/man/man1/minimate.1 share/bash/minimate share/zsh/_minimate share/fish/minimate.fish""".split()


# A clone's name with a blank, and one that isn't UTF-8.
NAMES = ["clone with spaces", os.fsdecode(b"clone-\xff\xfe")]


def write(path, text, mode=0o644):
    """Writes a file, and the folders that it lies in."""
    path.parent.mkdir(parents=True, exist_ok=True)
    path.write_text(text, encoding="utf-8")
    path.chmod(mode)


def make_tools(folder, without=()):
    """Makes a folder of the few tools that the launcher may use, with the stand-in for `rt`."""
    folder.mkdir()
    for tool in sorted({*TOOLS, "python3"} - set(without)):
        found = os.path.realpath(sys.executable) if tool == "python3" else shutil.which(tool)
        if found:
            (folder / tool).symlink_to(found)
    if "rt" not in without:
        write(folder / "rt", RT.replace("LOGIC", kit.LOGIC).replace("PROGRAM\n", f"{PROGRAM}\n"), 0o755)
    return folder


def files_below(folder):
    """Returns the files below a folder, by their places in it."""
    return sorted(str(it.relative_to(folder)) for it in Path(folder).rglob("*") if not it.is_dir())


def is_alive(process):
    """Whether there is a process of this number that hasn't ended."""
    try:
        return Path(f"/proc/{process}/stat").read_bytes().rpartition(b")")[2].split()[0] != b"Z"
    except OSError:
        return False


def wait_for(holds, seconds=30):
    """Waits until this holds. Returns whether it did in time."""
    until = time.monotonic() + seconds
    while not holds() and time.monotonic() < until:
        time.sleep(0.05)
    return holds()


class Clone:
    """A folder with the launcher, a source for each crate, and an environment of its own. Its `room` has the temporary folders of its
    builds."""

    def __init__(self, room, name="clone"):
        self.room, self.top, self.runs, self.temporary = room, room / name, room / "runs", room / "temporary"
        self.temporary.mkdir()
        self.processes = []
        self.tools = make_tools(room / "tools")
        self.copy(*FILES)
        for crate, count in FUNCTIONS.items():
            functions = "".join(f"{'pub ' * (i % 2)}fn f{i}() {{}}\n" for i in range(count))
            self.write(f"crates/{crate}/src/{'main' if crate in kit.PROGRAMS else 'lib'}.rt", functions)
        for file in ("minimate/args", "minimate/stdout", "board/must-fail/wrong.edit", "board/more-must-fail/wrong.edit"):
            self.write(f"crates/{file}", "x\n")
        self.write("HANDLES", "Handles allowed: none.\n")
        self.write("crates.txt", CRATES)

    def copy(self, *files):
        for file in files:
            (self.top / file).parent.mkdir(parents=True, exist_ok=True)
            shutil.copy(os.path.join(TOP, file), self.top / file)

    def write(self, place, text):
        write(self.top / place, text)

    def edit(self, place):
        """Changes a source so that the toolchain would see it."""
        with open(self.top / place, "a", encoding="utf-8") as file:
            file.write("\n")

    def environment(self, **more):
        """Returns the environment of a run. A value of None stands for a variable that isn't set."""
        found = {"PATH": self.tools, "RT_RUNS": self.runs, "HOME": self.room, "TMPDIR": self.temporary, **more}
        return {name: str(value) for name, value in found.items() if value is not None}

    def run(self, *words, text=b"", launcher="minimate", **more):
        return run([self.top / launcher, *words], text, env=self.environment(**more), cwd=self.room)

    def start(self, *words, launcher="minimate", **more):
        """Starts the launcher in a process group of its own, and doesn't wait for it."""
        how = {"stdin": subprocess.DEVNULL, "stdout": subprocess.PIPE, "stderr": subprocess.PIPE, "start_new_session": True}
        self.processes.append(subprocess.Popen([self.top / launcher, *words], env=self.environment(**more), cwd=self.room, **how))
        return self.processes[-1]

    def told(self, word=None):
        """Returns what the stand-in wrote of its runs, as lists of words; or the words after this word."""
        lines = [line.split() for line in self.runs.read_text(encoding="utf-8").splitlines()] if self.runs.exists() else []
        return lines if word is None else [line[1] for line in lines if line[0] == word]

    def left(self):
        """Returns the files in out/, and the copies that a build has left."""
        return files_below(self.top / "out"), os.listdir(self.temporary)

    def forget(self):
        self.runs.unlink(missing_ok=True)

    def let_go(self):
        """Lets a proof that is held end."""
        write(Path(f"{self.runs}.go"), "")

    def wait_until(self, *words):
        """Waits until the stand-in has written these words."""
        assert wait_for(lambda: list(words) in [line[: len(words)] for line in self.told()]), f"never: {words}"

    def has_ended(self, seconds=20):
        """Whether all processes of the stand-in are gone within this number of seconds."""
        processes = self.told("process")
        return processes != [] and wait_for(lambda: not any(is_alive(it) for it in processes), seconds)

    def end_processes(self):
        """Ends what was started and is left, so that nothing outlives a test that failed."""
        for process in [it for it in self.processes if it.poll() is None]:
            os.killpg(process.pid, signal.SIGKILL)
            process.communicate()
        for process in filter(is_alive, self.told("process")):
            os.kill(int(process), signal.SIGKILL)


@contextlib.contextmanager
def made(name="clone"):
    """Makes a clone in a folder that other users may enter too."""
    room = Path(tempfile.mkdtemp(prefix="launcher-"))
    room.chmod(0o755)
    clone = Clone(room, name)
    try:
        yield clone
    finally:
        clone.end_processes()
        shutil.rmtree(room)
