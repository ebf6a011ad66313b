"""tools/spread prints the bytes that the program prints, whatever happens to tasks and machines. All but refusals needs GNU parallel."""

import getpass
import os
import shutil
import signal
import subprocess
import sys
import time
from pathlib import Path

import pytest

import check_tree
import tree_parts
from clones import is_alive, wait_for
from conftest import need
from machines import Servers, StandIn, StandIns, free_port
from programs import TOP, bench_lines, run, started
from spread import batch, joblog, parallel

SPREAD = [sys.executable, os.path.join(TOP, "tools", "spread")]
# Few slots make each task short.
SLOTS = ["--slots", "64"]
HEAD = "command\tgoal\tlimit\tposition\tanswer\thost\tseconds\n"
# A mate in 5 plies, one by a goal of stalemate, none, a mate in 1, and no move at all.
FIVE, THIRD = "2qK1/3B1/1k1NQ/3b1/r1Q2 w", "k5/6/2K3/6/6/1R4 w"
PROBLEMS = [
    (5, "mate", FIVE),
    (3, "stale", "5/1k3/5/1K3/3R1 w"),
    (4, "mate", "k5/6/2K3/6/6/5N w"),
    (1, "stale", THIRD),
    (3, "mate", "k5/2Q3/1K4/6/6/6 b"),
]
# A mate in 5 plies with few moves and replies, and one in 3.
SMALL, SMALLER = "1Qn1k/K4/5/5/3N1 w", "1k4/5R/6/6/6/2R2K w"
# A mate in 5 plies by one move, and within 5 mate or stalemate by a lesser one.
BOTH = "r3k/3bp/1bPpP/R2KQ/4B w"
# The lines of the bench that are solved too, with the slots that spread takes: three, or all within SPREAD_BENCH_PLIES plies.
MOST_PLIES = int(os.environ.get("SPREAD_BENCH_PLIES", "0"))
BENCH = [it for it in bench_lines() if it.limit <= MOST_PLIES] or [it for it in bench_lines() if it.limit == 5][::10]


class Spread:
    """The program, a folder, and what was started."""

    def __init__(self, program, room):
        self.program, self.room, self.begun = program, room, []

    def stand_in(self, *how):
        return StandIn(self.program, self.room / f"stand-in {len(list(self.room.iterdir()))}", *how)

    def ours(self, command, limit, goal, fen):
        return run(started(self.program, command, "--limit", str(limit), "--goal", goal, *SLOTS, fen), timeout=300).output

    def words(self, *words, program=None):
        return [words[0], "--program", getattr(program, "path", program or self.program), *words[1:]]

    def run(self, *words, program=None, **how):
        return run([*SPREAD, *self.words(*words, program=program)], timeout=300, **how)

    def start(self, *words, program=None, env=None):
        """Starts a run that an interrupt ends, as one at a terminal."""
        how = {"stdin": subprocess.DEVNULL, "stdout": subprocess.PIPE, "stderr": subprocess.PIPE, "env": env}
        how["preexec_fn"] = lambda: signal.signal(signal.SIGINT, signal.SIG_DFL)
        self.begun.append(subprocess.Popen([*SPREAD, *self.words("solve", *SLOTS, *words, program=program)], **how))
        return self.begun[-1]

    def same(self, problem, *words, trees=(False,), **how):
        """Asserts that spread and the program print the same for a problem, and the same tree."""
        limit, goal, fen = problem
        for tree in trees:
            ran = self.run("solve", "--limit", str(limit), "--goal", goal, *SLOTS, fen, *words, *["--tree"] * tree, **how)
            assert (ran.status, ran.output) == (0, self.ours("tree" if tree else "solve", limit, goal, fen)), ran.error

    def fault(self, sentence, *words, **how):
        """Asserts that a run prints nothing but this sentence, with status 5."""
        ran = self.run("solve", *SLOTS, *words, **how)
        assert (ran.status, ran.output) == (5, b"")
        assert sentence in ran.error.decode(errors="replace")
        assert b"Traceback" not in ran.error

    def all_is_known(self, problem, *words, **how):
        """Asserts that a run answers as the program does, and calls it for no task."""
        program = self.stand_in()
        self.same(problem, *words, "--resume", program=program, **how)
        assert [it for it in program.calls() if (" solve" in it or " tree" in it) and problem[2] not in it] == []


@pytest.fixture
def refuser(program, tmp_path):
    """Runs of spread that need no GNU parallel."""
    return Spread(program, tmp_path)


@pytest.fixture
def spread(refuser):
    need("parallel")
    yield refuser
    for process in [it for it in refuser.begun if it.poll() is None]:
        process.terminate()
        process.communicate(timeout=60)


# Words


@pytest.mark.parametrize("words", [
    ["--limit", "1", "6/6/6/6/6/5K w"],
    ["--limit", "1", "k5/6/6/6/6/5K"],
    ["--limit", "3", "5r/6/6/1k4/6/5K b"],
    ["--limit", "64", THIRD],
    ["--limit", "0", THIRD],
    ["--limit=-0", THIRD],
    ["--limit", "-0", THIRD],
    ["--limit", "64", "k5 w"],
    ["--limit", "x", THIRD],
    ["--limit", "4294967296", THIRD],
    ["--mate", "0", THIRD],
    ["--mate", "33", THIRD],
    ["--mate=x", THIRD],
    ["--mate", "2", "k5 w"],
    ["--mate", "2", "--limit", "3", THIRD],
    ["--limit", "3", "--slots", "0", THIRD],
    ["--limit", "3", "--slots=1048577", THIRD],
    ["--limit", "3", "--workers", "17", THIRD],
    ["--limit", "64", "--workers", "0", "--slots", "0", THIRD],
    ["--limit", "3", "--goal", "draw", THIRD],
    ["--limit", "3", "--limit", "3", THIRD],
    ["--limit", "3", "--lim", "3", THIRD],
    ["--limit", "3", THIRD, THIRD],
    ["--limit", "3"],
    [THIRD],
    ["--limit", "3", b"k5/6/6/6/6/5K\xff w"],
    ["--limit", "3", ""],
], ids=repr)
def test_words_and_positions_are_refused_as_by_the_program(refuser, words):
    wanted, ran = run(started(refuser.program, "solve", *words)), refuser.run("solve", *words)
    assert (ran.status, ran.output) == (wanted.status, wanted.output)
    assert bool(ran.error) == bool(wanted.error)


def test_lines_is_refused_by_the_name_of_chunk(refuser):
    for words in (["--lines", "8"], ["--lines=8"]):
        ran = refuser.run("batch", "--limit", "1", *words, "positions")
        assert (ran.status, ran.output, b"write --chunk L" in ran.error) == (2, b"", True)


@pytest.mark.parametrize("words", [["--help"], ["solve", "--help"], ["batch", "--help"]], ids=repr)
def test_help_starts_nothing(words):
    ran = run([*SPREAD, *words], env={"PATH": ""})
    assert (ran.status, b"python3 tools/spread" in ran.output, ran.error) == (0, True, b"")


def test_a_missing_parallel_is_said_and_refusals_need_none(refuser):
    path, env = refuser.room / "path", {**os.environ, "PATH": str(refuser.room / "path")}
    path.mkdir()
    (path / "sh").symlink_to(shutil.which("sh"))
    refuser.fault("install GNU parallel", "--limit", "5", SMALL, env=env)
    (path / "parallel").write_text("#!/bin/sh\necho parallel from moreutils\n", encoding="ascii")
    (path / "parallel").chmod(0o755)
    refuser.fault("isn't GNU parallel", "--limit", "5", SMALL, env=env)
    ran = refuser.run("solve", "--limit", "5", "k5 w", env=env)
    assert (ran.status, ran.output) == (1, b"refused: Shape\n")


def without_last_reply(tree):
    depth = 0
    for place in range(len(tree) - 2, 0, -1):
        depth += {"}": 1, "{": -1}.get(tree[place], 0)
        if tree[place] == "," and depth == 0:
            return tree[:place] + "}"
    return "a1a2#"


@pytest.mark.parametrize("most", [-1, 100, 20, 5])
def test_a_long_tree_is_checked_in_parts(refuser, monkeypatch, most):
    tree, root = refuser.ours("tree", 5, "mate", FIVE).decode().removesuffix("\n"), check_tree.read_position(FIVE.encode())
    monkeypatch.setattr(check_tree, "MOST_BYTES", len(tree) + most if most < 0 else most)
    assert tree_parts.checked(refuser.program, "mate", root, tree) == 5
    for wrong in (tree.replace("#", "=", 1), without_last_reply(tree), tree[:4] + "#"):
        assert tree_parts.checked(refuser.program, "mate", root, wrong) is None, wrong


# Problems on this machine


@pytest.mark.parametrize("more", [[], ["--certify"]], ids=["", "certified"])
@pytest.mark.parametrize("problem", PROBLEMS, ids=lambda it: it[2])
def test_answers_and_trees_are_the_programs(spread, problem, more):
    spread.same(problem, "--jobs", "2", *more, trees=(False, True))


def test_a_limit_in_moves_is_one_in_plies(spread):
    ran = spread.run("solve", "--mate", "3", *SLOTS, SMALL)
    assert (ran.status, ran.output) == (0, spread.ours("solve", 5, "mate", SMALL))


@pytest.mark.parametrize("line", BENCH, ids=lambda it: f"line {it.number}")
@pytest.mark.parametrize("command, more", [("solve", []), ("tree", ["--tree"])], ids=["solve", "tree"])
def test_the_benchs_answers_and_trees_are_the_programs(spread, line, command, more):
    words = ["--limit", str(line.limit), "--goal", line.goal, line.fen]
    ran = run([*SPREAD, *spread.words("solve", *words, *more)], timeout=None)
    wanted = run(started(spread.program, command, *words, "--slots", "1048573"), timeout=None)
    assert (ran.status, ran.output) == (0, wanted.output), ran.error


def test_a_task_that_is_killed_is_tried_again(spread):
    program = spread.stand_in("the first task of each round is killed")
    spread.same((5, "mate", SMALL), program=program)
    assert program.killed() == ["killed--limit=1", "killed--limit=3"]
    program = spread.stand_in("the first task of each round is killed")
    spread.fault("ended on this machine", "--limit", "5", "--retries", "1", SMALL, program=program)


def test_only_certified_answers_count_where_certificates_are_wanted(spread):
    log = ["--joblog", spread.room / "log"]
    spread.same((5, "mate", SMALL), *log)
    for is_asked in (True, False):
        program = spread.stand_in()
        spread.same((5, "mate", SMALL), "--certify", *log, "--resume", program=program)
        assert any(" certify " in call for call in program.calls()) == is_asked


@pytest.mark.parametrize("goal", ["mate", "stale"])
def test_an_answer_that_its_certificate_does_not_prove_is_refused(spread, goal):
    liar = spread.stand_in("no mate is said without a proof")
    spread.fault("proves no answer", "--certify", "--limit", "5", "--goal", goal, SMALL, program=liar)


def of_no_use(spread):
    """Returns a position after a move to which another reply escapes, and after no other move."""
    root = check_tree.read_position(FIVE.encode())
    after = {move: check_tree.after(root, move) for move in check_tree.lawful(root)}
    replies = {move: [check_tree.fen_text(check_tree.after(then, it)) for it in check_tree.lawful(then)] for move, then in after.items()}
    for move, fens in replies.items():
        escaping = {fen for fen in fens if spread.ours("solve", 1, "mate", fen).startswith(b"none")}
        others = {fen for other, found in replies.items() if other != move for fen in found}
        for fen in fens:
            if fen not in others and escaping - {fen}:
                return fen
    raise AssertionError("there is no such position")


def test_a_task_of_no_more_use_is_ended(spread):
    program, began = spread.stand_in("one position waits", "", of_no_use(spread)), time.monotonic()
    spread.same((5, "mate", FIVE), "--jobs", "40", program=program)
    assert time.monotonic() - began < 200
    holder = program.holder()
    assert wait_for(lambda: not is_alive(holder), 10)


def test_a_system_that_lists_no_children_is_said(spread, monkeypatch, capsys):
    lines = ["sleep 2; echo a", "echo b", "echo c"]
    for place, wanted in (("/nowhere", f"{parallel.NO_CHILDREN}\n"), ("/proc", "")):
        monkeypatch.setattr(parallel, "PROC", place)
        with parallel.Run(lines, parallel.Machines(None, 3, 1)) as running:
            for number, ended in running:
                assert (number, ended.output) in ((1, "b\n"), (2, "c\n"))
                running.drop(0)
        assert capsys.readouterr().err == wanted


@pytest.mark.parametrize("name", ["plain", "a $HOME \"b\" @c {} 'd' `e` \\f"])
def test_a_dropped_task_is_not_begun_whatever_the_temporary_folders_name(spread, monkeypatch, name):
    folder = spread.room / name
    folder.mkdir()
    monkeypatch.setattr(parallel.tempfile, "tempdir", str(folder))
    found = []
    with parallel.Run(["sleep 1; echo a", f"touch '{spread.room}/begun'; echo b", "echo c"], parallel.Machines(None, 1, 1)) as running:
        running.drop(1)
        found = [(number, ended.output) for number, ended in running]
    assert (found, (spread.room / "begun").exists()) == ([(0, "a\n"), (2, "c\n")], False)


@pytest.mark.parametrize("number", [signal.SIGHUP, signal.SIGTERM, signal.SIGINT], ids=lambda it: it.name)
def test_a_signal_ends_what_runs(spread, number):
    program = spread.stand_in("the second round waits")
    process = spread.start("--limit", "5", "--jobs", "2", SMALL, program=program)
    holder = program.holder()
    process.send_signal(number)
    output, error = process.communicate(timeout=60)
    assert (process.returncode, output, b"interrupted" in error) == (130, b"", True)
    assert wait_for(lambda: not is_alive(holder), 10)


# Joblogs


def answered(log):
    """Returns the questions that a joblog has the answers of."""
    return [tuple(line.split("\t")[:4]) for line in log.read_text(encoding="utf-8").split("\n")[1:] if line]


def written(spread, name, command="solve", limit=0, fens=()):
    """Writes a joblog with the program's answers for mate at these positions, within so many plies."""
    log, answers = spread.room / name, [spread.ours(command, limit, "mate", fen).decode().strip() for fen in fens]
    rows = [f"{command}\tmate\t{limit}\t{fen}\t{answer}\telsewhere\t0\n" for fen, answer in zip(fens, answers)]
    log.write_text(HEAD + "".join(rows), encoding="utf-8")
    return log


def tasks_of(spread, fen):
    """Returns the positions of the last round's tasks within five plies."""
    return [line.split("\t")[3] for line in spread.run("solve", "--limit", "5", "--tasks", fen).output.decode().splitlines()]


def test_an_interrupted_run_goes_on_and_asks_nothing_twice(spread):
    program, log = spread.stand_in("the second round waits"), spread.room / "log"
    words = ["--limit", "5", "--joblog", log, "--jobs", "2", SMALL]
    process = spread.start(*words, program=program)
    holder = program.holder()
    # Another run can't write to the file meanwhile.
    spread.fault("another run writes its answers to", *words, "--resume", program=program)
    process.send_signal(signal.SIGINT)
    output, error = process.communicate(timeout=60)
    assert (process.returncode, output, b"--resume" in error) == (130, b"", True)
    assert wait_for(lambda: not is_alive(holder), 10)
    kept = answered(log)
    assert kept
    spread.fault("--resume", *words, program=program)
    with open(log, "ab") as file:
        file.write(b"solve\tmate\t3\tcut")
    before = len(program.calls())
    program.pass_on()
    spread.same((5, "mate", SMALL), "--joblog", log, "--resume", program=program)
    again = program.calls()[before:]
    assert [key for key in kept if any(f"solve --limit={key[2]} " in call and call.endswith(key[3]) for call in again)] == []
    assert len(answered(log)) == len(set(answered(log)))
    assert set(kept) <= set(answered(log))
    spread.all_is_known((5, "mate", SMALL), "--joblog", log)


def test_a_joblog_is_written_by_one_run_at_a_time(tmp_path):
    first = joblog.Joblog(tmp_path / "log", False)
    with pytest.raises(parallel.Fault, match="another run writes its answers"):
        joblog.Joblog(tmp_path / "log", True)
    first.file.close()
    assert joblog.Joblog(tmp_path / "log", True).answers == {}


def test_a_joblog_of_one_goal_serves_no_solve_for_the_other(spread):
    log = spread.room / "log"
    spread.same((5, "mate", BOTH), "--joblog", log)
    spread.same((5, "stale", BOTH), "--joblog", log, "--resume")
    assert {key[1] for key in answered(log)} == {"mate", "stale"}
    for goal in ("mate", "stale"):
        spread.all_is_known((5, goal, BOTH), "--joblog", log)


def test_an_answer_within_an_even_number_of_plies_serves_where_it_decides(spread):
    for limit in (4, 2):
        log = written(spread, f"within {limit}", "solve", limit, tasks_of(spread, SMALL))
        if limit == 4:
            spread.all_is_known((5, "mate", SMALL), "--joblog", log)
        else:
            spread.same((5, "mate", SMALL), "--joblog", log, "--resume")


def test_a_tree_serves_its_own_number_of_plies_alone(spread):
    log = written(spread, "trees", "tree", 2, tasks_of(spread, SMALL))
    spread.same((5, "mate", SMALL), "--joblog", log, "--resume", trees=[True])
    spread.all_is_known((5, "mate", SMALL), "--joblog", log, trees=[True])


# Answers the tasks of a file, each as a job of its own might, and makes a joblog of the answers, as docs/project/machines.md has it.
APART = """
while IFS="$(printf '\\t')" read -r command goal limit fen; do
    answer=$("$minimate" "$command" --goal "$goal" --limit "$limit" --slots 64 "$fen" < /dev/null) || exit
    printf '%s\\t%s\\t%s\\t%s\\t%s\\t%s\\t0\\n' "$command" "$goal" "$limit" "$fen" "$answer" "$(uname -n)" >> "$log"
done
"""


def test_tasks_are_printed_and_answers_from_elsewhere_count(spread):
    ran, log = spread.run("solve", "--limit", "5", "--tasks", SMALL), written(spread, "log")
    assert (ran.status, ran.output.count(b"\n") > 5, ran.error) == (0, True, b"")
    made = run(["sh", "-c", APART], ran.output, env={**os.environ, "minimate": spread.program, "log": str(log)}, timeout=300)
    assert (made.status, made.error) == (0, b"")
    spread.all_is_known((5, "mate", SMALL), "--joblog", log)


def test_full_disks_are_said(spread):
    log = written(spread, "x" * 100)
    with open(log, "a", encoding="ascii") as file:
        file.write(("#" * 79 + "\n") * 12)
    limited = ["sh", "-c", 'ulimit -f 1; exec "$@"', "sh", *SPREAD]
    ran = run([*limited, *spread.words("solve", "--limit", "5", *SLOTS, "--joblog", log, "--resume", SMALL)], timeout=300)
    assert (ran.status, ran.output, b"Traceback" in ran.error, bool(ran.error)) == (5, b"", False, True)
    spread.same((5, "mate", SMALL), "--joblog", log, "--resume")
    full = ["sh", "-c", 'exec "$@" > /dev/full', "sh", *SPREAD]
    assert run([*full, *spread.words("solve", "--limit", "1", THIRD)]).status == 4


def test_a_tree_that_a_wrong_answer_led_to_is_refused(spread):
    spread.fault("answered wrongly", "--limit", "3", "--tree", THIRD, program=spread.stand_in("mate is said where there is none"))


# Files of positions


def file_of(spread, text):
    path = spread.room / "positions"
    path.write_bytes(text)
    return path


def batch_of(spread, limit, text):
    """Returns what the program prints for these lines."""
    return run(started(spread.program, "batch", f"--limit={limit}", *SLOTS), text, timeout=300).output


# Lines that are refused, or that a shell would read otherwise.
ODD_LINES = b"k5 w\n" + b"z" * 300 + b"\nit's \"odd\" %s \\n $HOME `id` \t\n" + b"#" * 257 + b"\n"


@pytest.fixture
def lines():
    fens = [line.fen for line in bench_lines() if line.limit == 5][:20]
    return b"# a comment \xff\n\n\r\n" + "\r\n".join(fens).encode() + b"\n" + ODD_LINES + THIRD.encode()


def test_a_batch_is_answered_in_chunks_and_goes_on(spread, lines):
    wanted, log = batch_of(spread, 5, lines), ["--joblog", spread.room / "log"]
    words = ["batch", "--limit", "5", *SLOTS, "--chunk", "8", file_of(spread, lines), *log]
    for more in ([], ["--resume"]):
        ran = spread.run(*words, *more)
        assert (ran.status, ran.output) == (0, wanted), ran.error
    # Only refused lines are asked again.
    assert b"rests on 2 runs" in ran.error


def test_a_batch_is_certified_line_by_line(spread, lines):
    ran = spread.run("batch", "--certify", "--mate", "3", *SLOTS, file_of(spread, lines))
    assert (ran.status, ran.output, b"verified here" in ran.error) == (0, batch_of(spread, 5, lines), True)


def test_a_chunk_that_is_killed_is_tried_again(spread, lines):
    program = spread.stand_in("the first chunk is killed")
    ran = spread.run("batch", "--limit", "5", *SLOTS, "--chunk", "8", file_of(spread, lines), program=program)
    assert (ran.status, ran.output, program.killed()) == (0, batch_of(spread, 5, lines), ["killed"])


def test_a_chunk_fits_into_one_word_of_a_shell(spread):
    text = b"".join(b"%d" % number + b"~" * 250 + b"\n" for number in range(300))
    ran = spread.run("batch", "--limit", "1", *SLOTS, "--chunk", "9999", file_of(spread, text))
    assert (ran.status, ran.output) == (0, batch_of(spread, 1, text)), ran.error
    made = batch.Batch(type("Options", (), {"chunk": 9999, "hosts": None, "jobs": None, "retries": 1, "program": "", "goal": "mate"}))
    sizes = [len(batch.printed(chunk)) for chunk in [[b"~" * 250] * len(it) for it in made.chunks([b"~" * 250] * 300, list(range(300)))]]
    assert max(sizes) <= batch.MOST_PRINTED and len(sizes) < 20


@pytest.mark.parametrize("words", [["--limit", "64"], ["--limit", "x"], ["--limit", "5", "--slots", "0"], ["--mate", "33"]], ids=repr)
def test_a_batch_refuses_words_as_the_program_does(refuser, words):
    wanted = run(started(refuser.program, "batch", *words))
    ran = refuser.run("batch", *words, file_of(refuser, b""))
    assert (ran.status, ran.output) == (wanted.status, wanted.output)


def test_a_missing_file_of_positions_is_said(refuser):
    ran = refuser.run("batch", "--limit", "5", "/nowhere/positions")
    assert (ran.status, ran.output, b"/nowhere" in ran.error) == (4, b"", True)


AT_ONCE = "k5/6/1K4/6/6/5R w"
OWN_LIMITS = "\n".join([
    *(FIVE + it for it in (" ; dm 3", " ; dm 2")),
    *(THIRD + it for it in (" ; dm 2\r", "", " ; dm 1")),
    *(AT_ONCE + it for it in (" ; dm 1", " ; dm 3", "")),
    "k5 w ; dm 2",
    *(THIRD + it for it in (" ; dm 33", " ; dm 0", " ; dm 02", "; dm 2", " ; dm 2 ; dm 2", " ; dm 0 ; dm 2", " - - 0 1")),
    "# ; dm 2",
]).encode()


@pytest.mark.parametrize("mark", [b"", b"\xef\xbb\xbf"], ids=["", "byte order mark"])
@pytest.mark.parametrize("more", [[], ["--certify"]], ids=["", "certified"])
def test_lines_with_limits_of_their_own_are_answered_as_by_batch(spread, mark, more):
    ran = spread.run("batch", "--limit", "1", *SLOTS, *more, file_of(spread, mark + OWN_LIMITS))
    assert (ran.status, ran.output) == (0, batch_of(spread, 1, OWN_LIMITS)), ran.error


def test_each_certificate_is_asked_for_within_the_lines_own_limit_once(spread):
    program, wanted = spread.stand_in(), batch_of(spread, 1, OWN_LIMITS)
    words = ["batch", "--certify", "--limit", "1", *SLOTS, "--joblog", spread.room / "log", file_of(spread, OWN_LIMITS)]
    for more, asked in (([], {(5, FIVE), (3, FIVE), (3, THIRD), (1, THIRD)}), (["--resume"], set())):
        before = len(program.calls()) if more else 0
        ran = spread.run(*words, *more, program=program)
        assert (ran.status, ran.output) == (0, wanted)
        calls = [it.split() for it in program.calls()[before:] if " certify " in it]
        assert {(int(it[it.index("certify") + 1].removeprefix("--limit=")), " ".join(it[it.index("--") + 1 :])) for it in calls} == asked


# Over ssh


def hosts_of(spread, *lines):
    path = spread.room / f"hosts {len(list(spread.room.iterdir()))}"
    path.write_text("".join(f"{line}\n" for line in lines), encoding="utf-8")
    return path


@pytest.fixture(params=[StandIns, Servers], ids=["stand-in for ssh", "ssh"])
def servers(request, spread):
    (spread.room / "ssh").mkdir(mode=0o700)
    made = request.param(spread.room / "ssh", ["one", "two"])
    yield made
    made.end_all()


def test_bad_hosts_are_said(spread):
    spread.fault("can't be read", "--limit", "5", SMALL, "--hosts", "/nowhere/hosts")
    spread.fault("names no host", "--limit", "5", SMALL, "--hosts", hosts_of(spread, "# none"))
    nobody = hosts_of(spread, f"1/ssh -p {free_port()} -o BatchMode=yes {getpass.getuser()}@127.0.0.1")
    spread.fault("ended on", "--limit", "5", SMALL, "--hosts", nobody)


def test_two_servers_share_the_tasks(spread, servers):
    program, hosts = spread.stand_in(), hosts_of(spread, "1/one", "1/two")
    spread.same((5, "mate", SMALL), "--hosts", hosts, "--remote", program.path, env=servers.environment, trees=(False, True))
    assert {call.split()[0] for call in program.calls()} == {str(port) for port in servers.ports.values()}


def test_a_long_chunk_reaches_a_server(spread, servers):
    text, program = b"".join(b"%d" % number + b"\\'~$" * 60 + b"\n" for number in range(150)), spread.stand_in()
    words = ["--hosts", hosts_of(spread, "1/one"), "--remote", program.room / "batch", file_of(spread, text)]
    ran = spread.run("batch", "--limit", "1", *SLOTS, "--chunk", "9999", *words, env=servers.environment)
    assert (ran.status, ran.output) == (0, batch_of(spread, 1, text)), ran.error


def test_faults_of_a_server_are_said_or_passed_over(spread, servers):
    hosts, env = hosts_of(spread, "1/one", "1/two"), servers.environment
    spread.fault("/nowhere/minimate", "--limit", "5", SMALL, "--hosts", hosts, "--remote", "/nowhere/minimate", env=env)
    mixed = hosts_of(spread, "1/one", "1/nobody.invalid")
    spread.same((3, "mate", SMALLER), "--hosts", mixed, "--remote", spread.stand_in().path, env=env)
    full = spread.stand_in("one machine's disk is full", servers.ports["two"])
    spread.same((3, "mate", SMALLER), "--hosts", hosts, "--remote", full.path, env=env)
    killed = spread.stand_in("the first task of each round is killed")
    spread.same((5, "mate", SMALL), "--hosts", hosts, "--remote", killed.path, env=env)
    assert killed.killed() == ["killed--limit=1", "killed--limit=3"]


def test_a_signal_ends_what_runs_on_servers(spread, servers):
    program = spread.stand_in("the second round waits")
    hosts = hosts_of(spread, "1/one", "1/two")
    process = spread.start("--limit", "5", "--hosts", hosts, "--remote", program.path, SMALL, env=servers.environment)
    holder = program.holder()
    process.send_signal(signal.SIGTERM)
    output, error = process.communicate(timeout=60)
    assert (process.returncode, output, b"Traceback" in error) == (130, b"", False)
    assert wait_for(lambda: not is_alive(holder), 10)


def test_a_task_of_a_server_that_ends_is_tried_on_the_other(spread, servers):
    program = spread.stand_in("one machine waits", servers.ports["two"])
    hosts = hosts_of(spread, "1/one", "1/two")
    process = spread.start("--limit", "5", "--hosts", hosts, "--remote", program.path, SMALL, env=servers.environment)
    program.holder()
    servers.end("two")
    output, error = process.communicate(timeout=300)
    assert (process.returncode, output) == (0, spread.ours("solve", 5, "mate", SMALL))
    assert (b"on one" in error, b"on two" in error) == (True, False)
