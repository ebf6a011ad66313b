"""The package `minimate` for Python: its own tests, its sources, its page; its answers, refusals and drawings against the program; and memory."""

import ast
import doctest
import glob
import importlib.util
import inspect
import os
import re
import shutil
import subprocess
import sys

import pytest

from conftest import need
from library_calls import APART, DEEP, KNOWN, THIRD, TREE, bench_calls, with_replies
from programs import TOP, Ran, run, started
from python_package import FOLDER, OUT_OF_MEMORY, PAGE, run_python, settings

PARTS = 8
# The oldest Python that the package is written for.
OLDEST = (3, 9)
FILES = sorted(os.path.basename(it) for it in glob.glob(os.path.join(FOLDER, "minimate", "*.py")))
# Bytes that a process may take beyond what it has: less than the table of 1048576 slots.
LITTLE = 24 << 20


def read(path):
    with open(path, encoding="utf-8") as file:
        return file.read()


# The package by itself


def test_the_package_uses_the_library_that_the_variable_names(package, shared_library):
    assert package.library_path() == shared_library


def test_the_packages_own_tests_pass(shared_library, count):
    ran = run_python(shared_library, "-m", "unittest", "discover", "-t", ".", "-s", "tests", timeout=300, cwd=FOLDER)
    found = re.search(rb"Ran (\d+) tests in .*\n\nOK\n\Z", ran.error)
    assert ran.status == 0 and found and int(found[1]) > 40, ran.error.decode(errors="replace")
    count(int(found[1]))


@pytest.mark.parametrize("name", FILES)
def test_a_source_is_written_for_the_oldest_python_and_uses_the_standard_library_only(name):
    tree = ast.parse(read(os.path.join(FOLDER, "minimate", name)), name, feature_version=OLDEST)
    used = {(node.module or "").split(".")[0] for node in ast.walk(tree) if isinstance(node, ast.ImportFrom) and node.level == 0}
    used |= {it.name.split(".")[0] for node in ast.walk(tree) if isinstance(node, ast.Import) for it in node.names}
    assert used - sys.stdlib_module_names <= {"minimate"}


def test_everything_that_the_package_offers_has_a_docstring(package, count):
    offered = {name: getattr(package, name) for name in package.__all__}
    for name, item in list(offered.items()):
        if inspect.isclass(item) and item.__module__.startswith("minimate"):
            offered.update({f"{name}.{word}": it for word, it in vars(item).items() if not word.startswith("_") and inspect.isfunction(it)})
    named = [name for name, item in offered.items() if inspect.isclass(item) or inspect.isroutine(item)]
    assert named and [name for name in named if not inspect.getdoc(offered[name])] == []
    count(len(offered))


def test_mypy_finds_no_fault():
    if importlib.util.find_spec("mypy") is None:
        need("mypy")
    words = [shutil.which("mypy")] if shutil.which("mypy") else [sys.executable, "-m", "mypy"]
    ran = run([*words, "--strict", "--cache-dir", os.devnull, "minimate"], timeout=300, cwd=FOLDER)
    assert ran.status == 0, ran.output.decode()


def test_the_examples_of_the_page_run(package, count):
    blocks = re.findall(r"^```pycon\n(.*?)^```$", read(PAGE), flags=re.M | re.S)
    examples = doctest.DocTestParser().get_doctest("\n".join(blocks), {}, PAGE, PAGE, 0)
    printed = []
    result = doctest.DocTestRunner().run(examples, out=printed.append)
    assert result.attempted > 5 and result.failed == 0, "".join(printed)
    count(result.attempted)


def test_the_version_is_the_programs(package, program):
    assert run([program, "--version"]).error.decode().split()[-1] == package.__version__


# Answers


def answer(package, asked):
    """Returns the package's answer to the call, written as the program prints it."""
    solver, goal = package.Solver(asked.slots), "stale" if asked.stale else "mate"
    position, none = package.Position(asked.fen), f"none within {asked.limit}"
    if asked.word == "solve":
        return str(solver.solve(position, asked.limit, goal))
    if asked.word == "keys":
        return "\n".join(map(str, solver.keys(position, asked.limit, goal))) or none
    if asked.word == "tree":
        tree = solver.tree(position, asked.limit, goal)
        return package.tree_text(tree) if tree else none
    if asked.word == "check":
        plies = solver.check(position, asked.tree.decode("latin-1"), goal)
        return f"yes {plies}" if plies else "no"
    if asked.word == "verify":
        return str(package.verify(position, asked.tree, goal))
    return "\n".join(position.moves()) if asked.word == "moves" else position.after(asked.tree.decode("latin-1")).text


def replied(package, asked):
    """Returns the answer or the refusal."""
    try:
        return f"{answer(package, asked)}\n".encode()
    except package.Refused as why:
        return f"{why.reply}\n".encode()


# A text of Python has no bytes that aren't UTF-8, and the package has no `fault`.
BY_HAND = [it for it in KNOWN + APART if it[0].word != "fault" and it[0].fen.isascii()]


@pytest.mark.parametrize("asked, wanted", BY_HAND, ids=str)
def test_an_answer_is_the_one_that_was_worked_out_by_hand(package, asked, wanted):
    assert replied(package, asked) == wanted


@pytest.mark.parametrize("part", range(PARTS))
def test_answers_about_the_bench_are_what_the_program_prints(program, package, count, part):
    """So are the drawings of its positions, and its trees as tuples are written as they were read."""
    made = []
    for asked, wanted in with_replies(program, list(bench_calls())[part::PARTS]):
        made.append((str(asked), replied(package, asked), wanted))
        if asked.word == "check":
            again = package.tree_text(package.read_tree(asked.tree.decode().strip()))
            made.append((f"{asked}: as tuples and back", f"{again}\n".encode(), asked.tree))
        if asked.word == "moves":
            drawn = run(started(program, "show", asked.fen)).output
            made.append((f"show {asked.fen}", f"{package.Position(asked.fen)}\n".encode(), drawn))
    assert made and [it for it in made if it[1] != it[2]] == []
    count(len(made))


# Command lines


def refused_lines():
    """Yields the arguments and the input of `python -m minimate` for the lines of tools/sentences.tsv, except those of a batch, of workers, and of
    a FEN of six fields, which the package cuts."""
    rows = re.findall(r"^([\w ]+)\t(`.+`)\t", read(os.path.join(TOP, "tools", "sentences.tsv")), flags=re.M)
    for name, quoted in rows:
        given = quoted.strip("`").encode().decode("unicode_escape").encode("latin-1")
        of_verify = re.fullmatch(rb"verify((?: --goal stale)?)`(, without its line feed)?: `(.*)", given, flags=re.S)
        if of_verify:
            yield ["verify", *of_verify[1].decode().split(), THIRD], of_verify[3] + (b"" if of_verify[2] else b"\n")
        elif name in ("Limit", "Slots") and given.startswith(b"--"):
            yield ["solve", *given.decode().split(), *(["--limit", "3"] if name == "Slots" else []), THIRD], b""
        elif name.startswith("Grammar"):
            yield ["check", THIRD], given
        elif name != "Workers" and not given.startswith(b"batch`") and (name != "Fields" or given.count(b" ") != 5):
            yield ["moves", given], b""


REFUSED = [
    *refused_lines(),
    (["check", THIRD], DEEP),
    (["check", THIRD], b" " * 1048577),
    (["check", THIRD], b"c4c5{\xff"),
    (["check", "k5/6/1K4/6/6/5R"], TREE),
    (["solve", "--limit", "3", "k5/6/1K4/6/6/5R \u00e9"], b""),
    (["moves", "k\u00e95/6/1K4/6/6/5R w"], b""),
    (["tree", "--limit", "0", "--slots", "0", THIRD], b""),
    (["keys", "--limit", "3", "--slots", "0", THIRD], b""),
]
# Arguments that are answered, and others that are no command.
ANSWERED = [
    (["solve", "--limit", "3", THIRD], b""),
    (["solve", "--limit=+3", "--goal=stale", THIRD], b""),
    (["keys", "--limit", "1", THIRD], b""),
    (["tree", "--limit", "3", "--slots", "64", THIRD], b""),
    (["check", THIRD], TREE),
    (["check", "--goal", "stale", "--", THIRD], b"b1b5="),
    (["moves", THIRD], b""),
    (["show", THIRD], b""),
    (["after", THIRD, "c4c5"], b""),
    (["after", THIRD], b""),
    (["moves", THIRD, "c4c5"], b""),
    (["moves", "k5/1R4/2K3/6/6/6 b"], b""),
    ([], b""),
    (["win"], b""),
    (["solve", THIRD], b""),
    (["moves", "--limit", "3", THIRD], b""),
    *((["solve", "--limit", limit, THIRD], b"") for limit in ("-1", "4294967296", "three")),
    (["moves", b"\xff"], b""),
]


@pytest.mark.parametrize("words, text", REFUSED + ANSWERED, ids=lambda it: str(it)[:60])
def test_python_m_minimate_prints_what_the_program_prints(program, shared_library, words, text):
    """The status is the program's too, and after a refusal the sentence."""
    ran, wanted = run_python(shared_library, "-m", "minimate", *words, text=text), run(started(program, *words), text)
    assert (ran.status, ran.output) == (wanted.status, wanted.output)
    assert (wanted.status == 1) == ((words, text) in REFUSED)
    if wanted.status == 1:
        assert ran.error == wanted.error


def test_an_output_that_is_full_is_a_status(shared_library):
    with open("/dev/full", "wb") as full:
        words = [sys.executable, "-m", "minimate", "moves", THIRD]
        ran = subprocess.run(words, stdout=full, stderr=subprocess.PIPE, env=settings(shared_library), check=False, timeout=60)
    assert ran.returncode == 4


def test_a_library_that_is_missing_is_named():
    ran = run_python("/nowhere/libminimate.so", "-m", "minimate", "moves", THIRD)
    assert ran.status == 125 and b"/nowhere/libminimate.so" in ran.error


# Memory

WITH_LITTLE = """
import re, resource
import minimate
minimate.Solver(slots=64).solve({fen!r}, 3)
with open("/proc/self/status") as status:
    size = 1024 * int(re.search(r"VmSize:\\s+(\\d+)", status.read())[1])
resource.setrlimit(resource.RLIMIT_AS, (size + {little}, size + {little}))
for call in ("solve", "keys", "tree"):
    try:
        print(getattr(minimate.Solver(slots=1048576), call)({fen!r}, 3))
    except MemoryError as why:
        print(call, type(why).__name__, why)
print(minimate.Solver(slots=64).solve({fen!r}, 3))
"""
# A library that never has memory.
WITHOUT = """#include "minimate.h"
#include <string.h>
#define FEN const uint8_t *fen, size_t n
#define ROOM uint8_t *room, size_t length
#define SEARCH (FEN, bool stale, uint32_t limit, uint32_t slots, ROOM) { (void)stale, (void)limit, (void)slots; REFUSE }
#define TEXT const uint8_t *text, size_t m
#define REFUSE (void)fen, (void)n; if (length < 18) return SIZE_MAX; memcpy(room, "refused: NoMemory\\n", 18); return 18;
size_t minimate_solve SEARCH
size_t minimate_keys SEARCH
size_t minimate_tree SEARCH
size_t minimate_check(FEN, bool stale, TEXT, ROOM) { (void)stale, (void)text, (void)m; REFUSE }
size_t minimate_verify(FEN, bool stale, TEXT, ROOM) { (void)stale, (void)text, (void)m; REFUSE }
size_t minimate_moves(FEN, ROOM) { REFUSE }
size_t minimate_after(FEN, TEXT, ROOM) { (void)text, (void)m; REFUSE }
size_t minimate_fault(FEN, ROOM) { (void)fen, (void)n, (void)room, (void)length; return 0; }
"""


def test_too_little_memory_for_a_table_is_a_memory_error(shared_library):
    # One heap for all threads, so that what the process may take is known.
    one_heap = {**settings(shared_library), "MALLOC_ARENA_MAX": "1"}
    ran = run_python(shared_library, "-c", WITH_LITTLE.format(fen=THIRD, little=LITTLE), env=one_heap)
    wanted = "".join(f"{call} NoMemory {OUT_OF_MEMORY}\n" for call in ("solve", "keys", "tree")) + "mate 3 c4c5\n"
    assert (ran.status, ran.output.decode(), ran.error) == (0, wanted, b"")


@pytest.fixture(scope="module")
def without_memory(tmp_path_factory):
    need("cc")
    folder = tmp_path_factory.mktemp("without_memory")
    (folder / "stub.c").write_text(WITHOUT, encoding="ascii")
    words = ["cc", "-Wall", "-Wextra", "-Werror", "-shared", "-fPIC", "-I", os.path.join(TOP, "include"), "-o", "stub.so", "stub.c"]
    subprocess.run(words, cwd=folder, check=True)
    return str(folder / "stub.so")


@pytest.mark.parametrize("words", [["solve", "--limit", "3"], ["keys", "--limit", "3"], ["tree", "--limit", "3"], ["check"], ["moves"]], ids=str)
def test_a_command_without_memory_is_refused(without_memory, words):
    ran = run_python(without_memory, "-m", "minimate", *words, THIRD, text=TREE)
    assert ran == Ran(3, b"refused: NoMemory\n", f"error: {OUT_OF_MEMORY}\n".encode())
