"""What tools and tests share: the programs, how one run ends, and the lines of the bench."""

import importlib.machinery
import importlib.util
import os
import re
import shutil
import subprocess
import sys
from typing import NamedTuple, Optional

sys.dont_write_bytecode = True

TOP = os.path.dirname(os.path.dirname(os.path.abspath(__file__)))
# The programs by the names of their crates, and the commands of each. The first has all other words too. The launcher has the same list.
FIRST = "minimate"
PROGRAMS = {
    FIRST: ["solve", "tree", "keys", "check", "moves", "after"],
    "batch": ["batch"],
    "verify": ["verify"],
    "compose": ["solution", "certify", "show"],
}
# The variable by which the C library is told what it reads at a program's start, and its name for large pages.
TUNABLES, LARGE_PAGES = "GLIBC_TUNABLES", "glibc.malloc.hugetlb"


class Ran(NamedTuple):
    """How a run ended. The status is None if the time was over, and negative after a signal."""

    status: Optional[int]
    output: bytes
    error: bytes


def run(words, text=b"", timeout=60, **how):
    """Runs a command with this text on its standard input."""
    try:
        ran = subprocess.run(words, input=text, capture_output=True, timeout=timeout, check=False, **how)
    except subprocess.TimeoutExpired as late:
        return Ran(None, late.stdout or b"", late.stderr or b"")
    return Ran(ran.returncode, ran.stdout, ran.stderr)


def stop(why):
    """Ends a tool with status 2, and prints the reason on standard error."""
    print(f"{os.path.basename(sys.argv[0])}: {why}", file=sys.stderr)
    sys.exit(2)


def need(name):
    """Returns the path of a command, without which a tool can't work."""
    return shutil.which(name) or stop(f"found no {name} on the path: install it")


def tool(name, folder="tools"):
    """Imports a script of this folder as a module: most have no ending, so that `import` doesn't find them."""
    loader = importlib.machinery.SourceFileLoader(name, os.path.join(TOP, folder, name))
    module = importlib.util.module_from_spec(importlib.util.spec_from_loader(name, loader))
    sys.modules[name] = module
    loader.exec_module(module)
    return module


def find(given=None, gate=False):
    """Returns the path of the program `minimate`: the given one, with `gate` the one that `rt ci` left, or the one that the launcher builds."""
    if given:
        return os.path.abspath(given) if os.path.isfile(given) and os.access(given, os.X_OK) else stop(f"no program at {given}")
    built = os.path.join(TOP, "crates", FIRST, "out", FIRST)
    if gate and all(os.access(program_of(built, name), os.X_OK) for name in PROGRAMS):
        return built
    if subprocess.run([os.path.join(TOP, "tools", "build_program"), "--all"], check=False).returncode:
        stop("the programs can't be built")
    return os.path.join(TOP, "out", FIRST)


def find_one_call():
    """Returns the path of the program of the crate `one_call`; `rt run` builds it if need be."""
    crate = os.path.join(TOP, "crates", "one_call")
    path = os.path.join(crate, "out", "one_call")
    if not os.access(path, os.X_OK):
        subprocess.run(["rt", "run"], cwd=crate, stdout=subprocess.DEVNULL, check=True)
    return path


def program_named(words):
    """Returns the name of the program that has this command; words that are no command are the first program's."""
    command = os.fsdecode(words[0]) if words else ""
    return next((name for name, commands in PROGRAMS.items() if command in commands), FIRST)


def program_of(program, name):
    """Returns the path of the program of this name, given the path of the first: beside it, or in its own crate's `out`."""
    folder, own = os.path.split(os.path.abspath(program))
    beside = os.path.join(folder, name)
    if not os.path.isfile(beside) and folder.endswith(os.path.join(os.sep, own, "out")):
        beside = os.path.join(os.path.dirname(os.path.dirname(folder)), name, "out", name)
    return program if name == FIRST else beside


def started(program, *words):
    """Returns the command that the launcher runs for these words, given the path of the first program."""
    return [program_of(program, program_named(words)), *words]


def launched(environment):
    """Returns the environment that the launcher gives to a search: the table in large pages, unless the user has set that already."""
    told = environment.get(TUNABLES, "")
    if f":{LARGE_PAGES}=" in f":{told}":
        return dict(environment)
    return {**environment, TUNABLES: f"{told}:{LARGE_PAGES}=1".lstrip(":")}


def plain(environment):
    """Returns the environment without the setting of large pages."""
    kept = [it for it in environment.get(TUNABLES, "").split(":") if it and not it.startswith(f"{LARGE_PAGES}=")]
    rest = {name: value for name, value in environment.items() if name != TUNABLES}
    return {**rest, TUNABLES: ":".join(kept)} if kept else rest


# The help


class Command(NamedTuple):
    """A command as the program's help has it: its options, and whether it searches or reads its standard input."""

    options: set
    searches: bool
    reads: bool


def commands(program):
    """Returns the commands by name, in the order of the help."""
    lines = help_of(program).split("\nCommands:\n")[1].split("\n\n")[0]
    return {name: command_of(program, name) for name in re.findall(r"^  (\w+) ", lines, re.M) if name != "help"}


def command_of(program, name):
    text = help_of(program, name)
    options = set(re.findall(r"^ {2,6}(?:-\w, )?--([\w-]+)", text, re.M)) - {"help"}
    about = next(line for line in text.split("\n") if line and not line.startswith("Example: "))
    return Command(options, "workers" in options, "read from the input" in about)


def help_of(program, *words):
    ran = run([program, *words, "--help"])
    assert ran.status == 2, f"no help of {' '.join(words)}"
    return ran.error.decode()


# The bench


class BenchLine(NamedTuple):
    """A line of the bench. Plies and move are None where nothing is forced within the limit."""

    number: int
    table: str
    limit: int
    goal: str
    fen: str
    plies: Optional[int]
    move: Optional[str]


def bench_lines(tables=("cases", "hard", "rook")):
    """Yields the lines of these tables, numbered through as bench/mates/run does. harder.tsv takes too long to be solved by tests."""
    rows = [(name, *row) for name in tables for row in rows_of(name)]
    for number, (name, limit, goal, fen, answer, *_) in enumerate(rows, 1):
        found = re.match(r"(?:mate|goal) (\d+) (\w+)$", answer)
        yield BenchLine(number, name, int(limit), goal, fen, int(found[1]) if found else None, found and found[2])


def rows_of(name):
    """Returns the rows of a table of the bench, which must not be empty."""
    with open(os.path.join(TOP, "bench", "mates", name + ".tsv"), encoding="ascii") as table:
        rows = [line.rstrip("\n").split("\t") for line in table if not line.startswith("#")]
    assert rows, f"{name}.tsv has no rows"
    return rows
