"""Crates that are proved side by side, each by a run of its own (tools/crate_runs.py), with a program that stands in for `rt`."""

import os
import signal

import pytest

import crate_runs
import kit

MOVES = (0, b"name ./minimate\nword moves\n")
APART = pytest.mark.skipif(
    crate_runs.processors() <= crate_runs.AT_ONCE or crate_runs.free_memory() <= crate_runs.ENOUGH,
    reason="crates are proved side by side only with more processors and free memory",
)


@APART
def test_crates_are_proved_apart_once_those_below_are(clone):
    ran = clone.run("moves", RT_KEEPS="1", RT_SLEEP="2")
    assert (ran.status, ran.output) == MOVES
    assert clone.left()[1] == []
    told = [" ".join(it) for it in clone.told() if it[0] in ("apart", "begin", "end", "ci")]
    assert told[:3] == ["apart board", "begin board", "end board"]
    assert sorted(told[3:9]) == [f"{it} {name}" for it in ("apart", "begin", "end") for name in ("moves", "wintree")]
    assert [it[:3] for it in told[3:9]].index("end") == 4
    assert told[9].startswith("ci ")


def test_the_longest_chain_of_crates_is_begun_first(clone):
    clone.write("crates/wintree/src/more.rt", "// One line.\n")
    clone.write("crates/wintree/proofs/Lib.antt", "-- Two\n-- lines.\n")
    runs = crate_runs.CrateRuns(None, clone.top, kit.with_below(kit.read_crates(clone.top), ["minimate"]), None)
    assert runs.weights == {"board": 2, "moves": 2, "wintree": 5, "minimate": 2}
    lengths = runs.chains()
    assert lengths == {"board": 9, "moves": 4, "wintree": 7, "minimate": 2}
    assert runs.next_apart(lengths) == ["board"]
    runs.done = ["board"]
    assert runs.next_apart(lengths) == ["wintree", "moves"]
    runs.running = {"wintree": None}
    assert runs.next_apart(lengths) == ["moves"]


@APART
def test_a_crate_apart_that_is_not_proved_ends_what_runs_beside_it(clone):
    ran = clone.run("moves", RT_KEEPS="1", RT_FAILS="moves", RT_HELD="wintree")
    assert (ran.status, ran.output) == (125, b"")
    assert b"\nminimate: moves isn't proved: fn moves::reply: not proved; see " in ran.error
    assert (clone.has_ended(), clone.left()[1], clone.told("ci")) == (True, [], [])


@APART
def test_a_signal_ends_what_runs_apart(clone):
    process = clone.start("moves", RT_KEEPS="1", RT_HELD="wintree")
    clone.wait_until("begin", "wintree")
    process.terminate()
    process.communicate(timeout=30)
    assert (process.returncode, clone.has_ended(0), os.listdir(clone.temporary)) == (-signal.SIGTERM, True, [])


@APART
def test_one_run_has_the_rest_if_proofs_are_not_kept_or_all_are_or_the_rest_is_a_chain(clone):
    ran = clone.run("moves", RT_KEEPS="1", RT_FORGETS="1", RT_HELD="apart moves")
    assert (ran.status, len(clone.told("ci")), clone.told("end").count("moves")) == (0, 1, 1)
    clone.forget()
    clone.edit("crates/board/src/lib.rt")
    ran = clone.run("moves", RT_KEEPS="1", RT_KEPT="is kept: of an earlier run")
    assert (ran.status, clone.told("apart"), len(clone.told("ci"))) == (0, ["board"], 1)
    clone.forget()
    ran = clone.run("batch", "--limit", "1", RT_KEEPS="1")
    assert (ran.status, clone.told("apart"), len(clone.told("ci"))) == (0, [], 1)
