"""How the launcher, tools/build_program and what else builds by `rt` build, with a program that stands in for `rt`; and .ci/run, with one
for each step."""

import itertools
import os
import pty
import re
import shutil
import signal
import subprocess
import time
from pathlib import Path

import pytest

import clones
import kit
from clones import CRATES, files_below, is_alive, write
from conftest import need
from programs import PROGRAMS, TOP, run

BEGINS = "minimate: building for the first time: 8 functions in 4 crates are proved first .."
IN_ORDER = ["board", "moves", "wintree", "minimate"]
# What a build lays out: what the program is built of, and what it is run with.
LAID_OUT = [".", "./.git", "./HANDLES", "./crates", *(f"./crates/{it}" for it in (
    "board", "board/src", "board/src/lib.rt", "minimate", "minimate/args", "minimate/src", "minimate/src/main.rt", "minimate/stdout",
    "moves", "moves/src", "moves/src/lib.rt", "wintree", "wintree/src", "wintree/src/lib.rt")), "./crates.txt"]
LINES = """board: arrayvec
moves may_wait=1: board arrayvec
wintree: board
minimate may_wait=7 tests_may=Threads+Wait: moves wintree board clap""".split("\n")
# What a build leaves in out/, beside the program.
LEFT = ["build.began", "build.lock", "build.log"]
MOVES = (0, b"name ./minimate\nword moves\n")
either_name = pytest.mark.parametrize("clone", clones.NAMES, indirect=True, ids=["spaces", "not UTF-8"])


def last_line(ran):
    return os.fsdecode(ran.error).splitlines()[-1]


def first_line(ran):
    return ran.error.decode().splitlines()[0]


def laid_out(clone, what):
    return Path(f"{clone.runs}.{what}").read_text(encoding="utf-8").splitlines()


def builds_nothing(clone, *words):
    """Whether a run builds nothing, and says nothing of it."""
    clone.forget()
    return (clone.run(*words).error, clone.told()) == (b"", [])


def built_again(clone, *words):
    """The crates that a run proves because a source has changed."""
    clone.forget()
    ran = clone.run(*words)
    assert (ran.status, b"a source has changed" in ran.error, len(clone.told("ci")), clone.told("try")) == (0, True, 1, [])
    return clone.told("begin")


# What is built


@either_name
def test_the_first_start_builds_in_a_copy_outside_the_clone(clone):
    ran = clone.run("moves", "a b", "")
    assert (ran.status, ran.output) == (0, b"name ./minimate\nword moves\nword a b\nword \n")
    assert first_line(ran) == BEGINS
    assert clone.told("begin") == IN_ORDER
    assert sorted(laid_out(clone, "tree")) == sorted(LAID_OUT)
    assert laid_out(clone, "crates") == LINES
    [folder] = clone.told("ci")
    assert folder.startswith(str(clone.temporary))
    assert clone.left() == ([*LEFT, "minimate"], [])
    heads = re.findall(r"^== (\w+)$", (clone.top / "out/build.log").read_text(encoding="utf-8"), re.M)
    assert list(dict.fromkeys(heads)) == IN_ORDER


@either_name
def test_a_second_start_builds_nothing_and_a_changed_source_counts(clone):
    clone.run("moves")
    assert builds_nothing(clone, "moves")
    clone.edit("crates/moves/src/lib.rt")
    assert built_again(clone, "moves") == IN_ORDER


@pytest.mark.parametrize("name, words, crates, count, tried", [
    ("batch", ["batch", "--limit", "1"], ["board", "moves", "batch"], 8, []),
    ("verify", ["verify", "a w"], ["board", "wintree", "verify"], 7, []),
    ("compose", ["solution", "--limit", "1", "a w"], ["board", "moves", "compose"], 9, ["compose"]),
])
def test_a_program_is_built_when_it_is_first_asked_for(clone, name, words, crates, count, tried):
    clone.run("moves")
    clone.forget()
    ran = clone.run(*words, RT_SLEEP="1")
    assert (ran.status, ran.output.decode()) == (0, "".join(f"{it}\n" for it in [f"name ./{name}", *(f"word {it}" for it in words)]))
    assert clone.told("begin") == crates
    assert first_line(ran) == f"minimate: building {name} for the first time: {count} functions in 3 crates are proved first .."
    assert [os.path.basename(it) for it in clone.told("try")] == tried
    assert builds_nothing(clone, *words)
    assert clone.left()[0] == sorted([*LEFT, "minimate", name])


def test_a_changed_source_counts_for_each_program(clone):
    clone.run("--all", launcher="tools/build_program")
    clone.edit("crates/apart/src/lib.rt")
    for name, commands in PROGRAMS.items():
        assert built_again(clone, commands[0])[-1] == name
        assert builds_nothing(clone, commands[0])


def test_all_programs_are_built_by_one_run_of_what_is_missing(clone):
    for gone, says, proved in (
        ([], "building for the first time: 20 functions in 7", "board moves wintree minimate batch verify compose"),
        (["compose"], "building compose for the first time: 9 functions in 3", "board moves compose"),
        (["compose", "verify"], "building verify and compose for the first time: 14 functions in 5", "board wintree verify moves compose"),
        ([], "", ""),
    ):
        for name in gone:
            (clone.top / "out" / name).unlink()
        clone.forget()
        ran = clone.run("--all", launcher="tools/build_program")
        says = f"minimate: {says} crates are proved first .." if says else ""
        assert (ran.status, says in ran.error.decode(), clone.told("begin")) == (0, True, proved.split())
        assert (len(clone.told("ci")), clone.told("try")) == (bool(proved), [])
        assert clone.left() == (sorted([*LEFT, *PROGRAMS]), [])


WRONG_WORDS = "--program other|--program|moves|--hepl|--all batch|--program batch solve|--all --program batch|--al".split("|")


@pytest.mark.parametrize("words", ["--help", *WRONG_WORDS])
def test_help_and_unknown_words_begin_no_build(clone, words):
    ran = clone.run(*words.split(), launcher="tools/build_program")
    if words == "--help":
        assert (ran.status, b"--program" in ran.output, b"--all" in ran.output) == (0, True, True)
    else:
        assert (ran.status, ran.output, b"usage: " in ran.error) == (2, b"", True)
    assert (clone.told(), (clone.top / "out").exists()) == ([], False)


@pytest.mark.parametrize("place", ["crates/board/specs/Lib.antt", "crates/board/proofs/Lib.antt", "crates.txt"])
def test_a_definition_a_proof_and_the_list_of_crates_are_watched_and_laid_out(clone, place):
    for part in ("specs", "proofs"):
        clone.write(f"crates/board/{part}/Lib.antt", "")
    clone.run("moves")
    os.utime(clone.top / place)
    assert built_again(clone, "moves") == IN_ORDER
    assert f"./{place}" in laid_out(clone, "tree")


def test_the_line_of_a_crate_and_a_file_that_is_gone_count(clone):
    clone.write("crates/board/src/more.rt", "fn more() {}\n")
    clone.run("moves")
    clone.write("crates.txt", CRATES.replace("wintree: board", "wintree: board arrayvec"))
    built_again(clone, "moves")
    assert "wintree: board arrayvec" in laid_out(clone, "crates")
    (clone.top / "crates/board/src/more.rt").unlink()
    assert built_again(clone, "moves")[0] == "board"


def test_an_edit_during_a_build_counts(clone):
    clone.run("moves")
    clone.edit("crates/board/src/lib.rt")
    clone.forget()
    process = clone.start("moves", RT_HELD="minimate")
    clone.wait_until("begin", "minimate")
    clone.edit("crates/moves/src/lib.rt")
    clone.let_go()
    process.communicate(timeout=30)
    assert "moves" in built_again(clone, "moves")


def test_the_old_program_is_not_run_while_a_changed_source_is_not_proved(clone):
    clone.run("moves")
    clone.edit("crates/moves/src/lib.rt")
    ran = clone.run("moves", RT_FAILS="moves")
    assert (ran.status, ran.output) == (125, b"")
    ran = clone.run("moves")
    assert (ran.status, ran.output) == MOVES


def test_a_second_launcher_waits_and_builds_nothing_again(clone):
    first = clone.start("moves", RT_SLEEP="1")
    clone.wait_until("begin", "board")
    second = clone.run("moves", RT_SLEEP="1")
    output = first.communicate(timeout=30)[0]
    assert (first.returncode, output) == (second.status, second.output) == MOVES
    assert b"another build is under way here" in second.error
    assert len(clone.told("ci")) == 1


# What is printed meanwhile


@pytest.mark.parametrize("kept", [None, "is kept: of an earlier run"])
def test_a_terminal_shows_how_many_functions_are_proved(clone, kept):
    ours, terminal = pty.openpty()
    how = {"stdin": subprocess.DEVNULL, "stdout": subprocess.DEVNULL, "stderr": terminal}
    with subprocess.Popen([clone.top / "minimate", "moves"], env=clone.environment(RT_HELD="moves", RT_KEPT=kept), **how) as process:
        os.close(terminal)
        said = b""
        while piece := read(ours):
            said += piece
            if b"2 of 8 functions proved" in said:
                clone.let_go()
        assert process.wait(timeout=30) == 0
    os.close(ours)
    assert re.findall(rb"minimate: (\d) of 8 functions proved", said) == [b"2", b"4", b"6", b"8"]


def read(terminal):
    """Reads from a terminal until the other end is closed."""
    try:
        return os.read(terminal, 4096)
    except OSError:
        return b""


def test_the_unproved_answer_is_marked_and_stays_off_the_output(clone):
    ran = clone.run("solve", "--limit", "1", "a w", RT_SLEEP="1")
    assert b"minimate: not proved yet: mate 1 f1f6\n" in ran.error
    assert ran.output == b"name ./minimate\nword solve\nword --limit\nword 1\nword a w\n"
    [tried] = [line for line in clone.told() if line[0] == "try"]
    assert tried[2:] == ["try", "--", "solve", "--limit", "1", "a", "w"]
    assert not tried[1].startswith((str(clone.top), *clone.told("ci")))


def test_a_build_says_that_there_is_no_unproved_answer(clone):
    assert clone.run("moves", RT_SLEEP="1", RT_TRIAL_FAILS="1").error.count(b"came to no answer") == 1


def test_a_build_waits_for_no_unproved_answer(clone):
    began = time.monotonic()
    ran = clone.run("moves", RT_TRIAL_SLEEP="50")
    assert (ran.status, b"not proved yet" in ran.error, b"no answer" in ran.error) == (0, False, False)
    assert time.monotonic() - began < 20


@pytest.mark.parametrize("command", ["check", "verify", "batch"])
def test_the_unproved_program_never_reads_the_input(clone, command):
    clone.run(command, "a w", text=b"x")
    assert (clone.told("try"), len(clone.told("ci"))) == ([], 1)


# Signals

ENDING = [signal.SIGINT, signal.SIGTERM, signal.SIGHUP]


@pytest.mark.parametrize("number", ENDING, ids=lambda it: it.name)
@pytest.mark.parametrize("to_all", [True, False], ids=["to all", "to the launcher"])
def test_a_signal_ends_the_build_and_then_the_launcher(clone, number, to_all):
    process = clone.start("moves", RT_HELD="moves", RT_TRIAL_SLEEP="50")
    clone.wait_until("begin", "moves")
    os.kill(-process.pid if to_all else process.pid, number)
    assert process.communicate(timeout=30)[0] == b""
    # By then all that it has started has ended.
    assert (process.returncode, clone.has_ended(0), clone.told("end")) == (-number, True, ["board"])
    assert clone.left() == (LEFT, [])
    clone.forget()
    clone.let_go()
    ran = clone.run("moves")
    assert (ran.status, first_line(ran)) == (0, BEGINS)


@pytest.mark.parametrize("shell", ["sh", "bash"])
def test_an_interrupt_at_the_keyboard_ends_a_loop_of_a_shell(clone, shell):
    need(shell)
    line = f"for turn in 1 2 3; do '{clone.top}/minimate' moves; echo \"turn $turn\" >> '{clone.room}/turns'; done"
    process = clone.start("-c", line, launcher=shutil.which(shell), RT_HELD="moves")
    clone.wait_until("begin", "moves")
    os.killpg(process.pid, signal.SIGINT)
    process.communicate(timeout=30)
    assert process.returncode == -signal.SIGINT
    assert (clone.has_ended(), (clone.room / "turns").exists(), len(clone.told("ci"))) == (True, False, 1)


def test_a_hangup_that_nohup_ignores_ends_no_build(clone):
    process = clone.start("-c", f"trap '' HUP; exec '{clone.top}/minimate' moves", launcher="/bin/sh", RT_HELD="moves")
    clone.wait_until("begin", "moves")
    os.killpg(process.pid, signal.SIGHUP)
    time.sleep(1)
    assert process.poll() is None
    clone.let_go()
    assert (process.communicate(timeout=30)[0], process.returncode) == MOVES[::-1]


def test_a_signal_ends_install_with_its_build(clone):
    process = clone.start(clone.room / "home/bin", launcher="tools/install", RT_HELD="moves")
    clone.wait_until("begin", "moves")
    process.terminate()
    process.communicate(timeout=30)
    assert (process.returncode, clone.has_ended(0), files_below(clone.room / "home")) == (1, True, [])


# The other builders: the files that each consists of, and the command of `rt` that it waits for.
BUILDERS = {
    "tools/build_c": (["tools/build_c"], "lib"),
    "web/build": (["web/build", "web/one_file.py", "tools/build_c"], "lib"),
    "tools/try_edits": (["tools/try_edits", "tools/list", "tools/definitions.py"], "must-fail"),
}


def begin(clone, builder, before=""):
    """Starts a builder in the clone, after these lines of a shell, and waits until its `rt` has begun."""
    files, begins = BUILDERS[builder]
    clone.copy("tools/programs.py", *files)
    for crate in ("minimate_c", "page"):
        clone.write(f"crates/{crate}/src/lib.rt", "fn main() {}\n")
    clone.write("crates.txt", f"{CRATES}minimate_c: board\npage: board\n")
    write(clone.tools / "wasm-opt", "#!/bin/sh\n", 0o755)
    process = clone.start("-c", f"{before} exec '{clone.top / builder}'", launcher="/bin/sh", PATH=f"{clone.tools}:{os.environ['PATH']}")
    clone.wait_until("begin", begins)
    return process


@pytest.mark.parametrize("builder, number", itertools.product(BUILDERS, ENDING), ids=lambda it: getattr(it, "name", it))
def test_a_signal_ends_the_other_builders_and_what_they_started(clone, builder, number):
    process = begin(clone, builder)
    process.send_signal(number)
    process.communicate(timeout=60)
    assert (process.returncode, clone.has_ended(), os.listdir(clone.temporary)) == (128 + number, True, [])


def test_a_hangup_that_nohup_ignores_ends_no_builder(clone):
    process = begin(clone, "tools/build_c", "trap '' HUP;")
    process.send_signal(signal.SIGHUP)
    time.sleep(1)
    assert (process.poll(), clone.has_ended(0)) == (None, False)
    process.terminate()
    process.communicate(timeout=60)


# Faults

FAULTS = {
    "a run that is killed": ({"RT_KILLED": "wintree"}, "`rt ci` was ended by signal 9, most likely for memory"),
    "a full disk": ({"RT_FULL": "1"}, "rt: 2 GB of the disk are free, and a run wants 3"),
    "no program at the end": ({"RT_LEAVES_NOTHING": "1"}, "`rt ci` has passed, and left no program at "),
    "a toolchain that is too old": ({"RT_VERSION": "rattle-kit-1"}, "install a newer toolchain, of logic "),
    "another logic": (
        {"RT_VERSION": "rattle-kit-9 logic 0", "RT_FAILS": "board"},
        f"this toolchain is `rattle-kit-9 logic 0`, and all was proved by logic {kit.LOGIC}",
    ),
}


@pytest.mark.parametrize("fault", FAULTS)
def test_a_fault_of_the_toolchain_is_said(clone, fault):
    settings, sentence = FAULTS[fault]
    ran = clone.run("moves", **settings)
    assert (ran.status, ran.output) == (125, b"")
    assert sentence in last_line(ran)
    assert clone.left()[1] == []


def test_a_crate_that_is_not_proved_leaves_no_program_and_the_next_call_goes_on(clone):
    ran = clone.run("moves", RT_FAILS="moves")
    assert (ran.status, ran.output) == (125, b"")
    assert last_line(ran) == f"minimate: moves isn't proved: fn moves::reply: not proved; see {clone.top}/out/build.log"
    assert clone.left() == (LEFT, [])
    assert clone.run("moves").status == 0


def test_a_file_that_cannot_grow_and_a_folder_that_cannot_be_written_are_said(clone):
    ran = run(["sh", "-c", 'ulimit -f 0 && exec "$0" moves', clone.top / "minimate"], env=clone.environment(), cwd=clone.room)
    assert (ran.status, ran.output, b"cannot build in" in ran.error, clone.left()[1]) == (125, b"", True, [])
    shutil.rmtree(clone.top / "out")
    clone.write("out", "a file")
    ran = clone.run("moves")
    assert (ran.status, ran.output, b"cannot build in" in ran.error) == (125, b"", True)


# tools/try_edits

SAYS = "rt: must-fail board/"
TRIED = [
    f"{SAYS}a.edit: refused, as it must be: note: src/lib.rt:1:1: the goal fails, at `n`",
    f"{SAYS}b.edit: NOT REFUSED: the crate is still proved with this edit",
    f"{SAYS}c.edit: BAD EDIT: it did not reach the prover; the first lines:",
    "src/lib.rt:1:1: error: mismatch",
    "rt: 1 of 3 refused",
]
PLACE = "crates/board/more-must-fail/"
REFUSED, NOT_TRIED = f"refused by a false fact: {PLACE}a.edit: mutant a", f"NOT TRIED: {PLACE}wrong.edit: "
PRINTED = [
    REFUSED,
    f"NOT REFUSED: {PLACE}b.edit: mutant b",
    "FAILED: board/b: the crate is still proved with this edit",
    f"BAD EDIT: {PLACE}c.edit: mutant c",
    "FAILED: board/c: it did not reach the prover; the first lines: src/lib.rt:1:1: error: mismatch",
    NOT_TRIED,
    "3 of 4 mutants were tried",
    "1 passed, 2 failed",
]


@pytest.mark.parametrize("names, says, status, printed", [
    ([], TRIED, 1, PRINTED),
    (["board/a"], TRIED[:1], 0, [REFUSED, "1 of 1 mutants were tried", "1 passed, 0 failed"]),
    (["board/a", "board/wrong"], TRIED[:1], 3, [REFUSED, NOT_TRIED, "1 of 2 mutants were tried", "1 passed, 0 failed"]),
], ids=["all", "one", "two"])
def test_try_edits_prints_a_line_for_each_mutant_and_keeps_nothing(clone, names, says, status, printed):
    clone.copy("tools/try_edits", "tools/list", "tools/definitions.py", "tools/programs.py")
    for name in "abc":
        clone.write(f"{PLACE}{name}.edit", f"# mutant {name}\n")
    before = files_below(clone.top)
    ran = clone.run(*names, launcher="tools/try_edits", RT_SAYS="\n".join(says))
    assert (ran.status, ran.output.decode().splitlines(), ran.error) == (status, printed, b"")
    assert files_below(clone.top) == before


# The gate

STEPS = '#!/bin/sh\necho "$@"\necho "3 passed, 1 failed"\nexit 1\n'
LIBRARY = {"builds": 'echo "build_c $*"', "fails": "echo no library\nexit 2", "waits": 'echo $$ > "$RT_AFTER"\nexec sleep 60'}


@pytest.mark.parametrize("fails, library, status, output", [
    ("", "builds", 1, b"12 passed, 0 failed\nbuild_c --shared\n-m pytest tests -q -n 4 -m not timed --may-skip .*\n3 passed, 1 failed\n"),
    ("1", "builds", 1, b"0 passed, 1 failed\n"),
    ("", "fails", 2, b"12 passed, 0 failed\nno library\n"),
    ("1", "waits", 1, b"0 passed, 1 failed\n"),
])
def test_the_gate_ends_with_what_fails_first(tmp_path, fails, library, status, output):
    tools, top = clones.make_tools(tmp_path / "tools"), tmp_path / "clone"
    (tools / "grep").symlink_to(shutil.which("grep"))
    for name, text in (("suite", STEPS), ("nproc", "#!/bin/sh\necho 4\n"), ("dpkg-query", "#!/bin/sh\necho install ok installed\n")):
        write(tools / name, text, 0o755)
    write(top / "tools/build_c", f"#!/bin/sh\n{LIBRARY[library]}\n", 0o755)
    gate = Path(TOP, ".ci/run").read_text(encoding="utf-8")
    write(top / ".ci/run", gate.replace("/usr/bin/python3", str(tools / "suite")), 0o755)
    process = tmp_path / "process"
    after = {"RT_AFTER": str(process)} if library == "waits" else {}
    ran = run([top / ".ci/run"], env={"PATH": str(tools), "RT_FAILS": fails, **after}, cwd="/")
    assert (ran.status, bool(re.fullmatch(output, ran.output))) == (status, True), ran
    assert library != "waits" or not is_alive(int(process.read_text(encoding="ascii")))


ONE_LINE = """//! A program that prints one line.
#![tactic(auto)]

use std::io;

fn main(rt: HostRuntime) -> io::Result<()> {
    println!(rt; "mate 1 f1f6")
}
"""


def test_the_real_toolchain_builds_a_program_and_its_gate_passes_in_that_clone(clone):
    rt = shutil.which("rt") or "/opt/rattle/bin/rt"
    if not os.access(rt, os.X_OK):
        pytest.skip("no rt on the path")
    shutil.rmtree(clone.top / "crates")
    (clone.top / ".git").mkdir()
    clone.write("crates.txt", "minimate:\n")
    clone.write("crates/minimate/stdout", "mate 1 f1f6\n")
    clone.write("crates/minimate/src/main.rt", ONE_LINE)
    environment = {**os.environ, "TMPDIR": str(clone.room)}
    ran = run([clone.top / "minimate", "moves"], timeout=600, env=environment, cwd=clone.room)
    assert (ran.status, ran.output) == (0, b"mate 1 f1f6\n"), ran.error
    # `rt ci` looks through out/ too, and refuses a repository there.
    for laid, is_refused in (([], False), (["out/copy/.git/x", "out/copy/crates/x", "out/copy/crates.txt"], True)):
        for place in laid:
            clone.write(place, "")
        ran = run([rt, "ci"], timeout=600, env=os.environ, cwd=clone.top)
        assert (ran.status != 0) == is_refused, ran.output[-300:]
