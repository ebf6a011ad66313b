"""Checks that each mutant can be applied, and that tools/try_edits reads the verdicts in the lines of `rt must-fail`."""

import pytest

from documents import found, groups, read
from programs import tool

TRY_EDITS = tool("try_edits")
# What `rt must-fail` has written of an edit, in groups below the verdict; `\n` stands for the end of a line.
TRIED = r"""
refused by a false fact
    refused, as it must be: note: src/x.rt:70:5: it is not proved that what it ensures holds (`stop`); the facts known there allow values at
    refused, as it must be: note: src/x.rt:57:5: it is not proved that what it ensures holds (`returns-then-count-lt184467-clause-on`); the f
    refused, as it must be: ./proofs/X.antt:58:100: error: `omega`: the goal does not follow from what it read. And the goal fails, at `me`
refused by an open goal
    refused, as it must be: note: src/x.rt:33:5: it is not proved that what it ensures holds when it returns (`asker`)
    refused, as it must be: note: src/x.rt:46:13: it is not proved that it holds (`found`); `search` gave up at one of its limit
refused by a term
    refused, as it must be: ./proofs/X.antt:8:27: error: `rule`: computed as far as they go, the two types differ only where
BAD EDIT
    refused, as it must be
    refused, as it must be (only because a proof file names what the edit took away, so this says little): ./proofs/X.antt:8:27: error: `rule`
    BAD EDIT: an 'old:' text is in src/x.rt 0 times, and not once
    BAD EDIT: it did not reach the prover; the first lines:\nsrc/x.rt:76:9: error[mismatched-types]
NOT REFUSED
    NOT REFUSED: the crate is still proved with this edit
"""
# Edits of a file `src/a.rt` that holds "one two two", and whether they can be applied.
EDITS = [
    ("file: src/a.rt\nold: one\nnew: three\n", True),
    ("file: src/a.rt\nold: one\nnew: two\nold: two two two\nnew: one\n", True),
    ("file: src/a.rt\nold: two\nnew: three\n", False),
    ("file: src/a.rt\nold: three\nnew: one\n", False),
    ("file: src/a.rt\n", False),
]


def is_applied(edit, sources):
    """Returns whether the edit replaces a text, and each text stands once in its file after the replacements before it."""
    source, was, once = "", "", []
    for line in edit.splitlines():
        word, _, text = line.partition(": ")
        if word == "file":
            source = sources(text.strip())
        elif word == "old":
            was = text
            once.append(source.count(was) == 1)
        elif word.startswith("new"):
            source = source.replace(was, text)
    return bool(once) and all(once)


@pytest.mark.parametrize("edit, wanted", EDITS)
def test_an_edit_that_cannot_be_applied_is_found(edit, wanted):
    assert is_applied(edit, {"src/a.rt": "one two two"}.get) == wanted


@pytest.mark.parametrize("folder", ["must-fail", "more-must-fail"])
def test_each_mutant_can_be_applied(folder, count):
    paths = found(f"crates/*/{folder}/*.edit")
    assert paths and [it for it in paths if not is_applied(read(it), lambda file: read(f"{it.split(folder)[0]}{file}"))] == []
    count(len(paths))


def verdicts_in(text):
    lines = text.replace("\\n", "\n").splitlines()
    return [f"{it.crate}/{it.edit}: {it.verdict}{f' by {it.by}' * (it.verdict == 'refused')}" for it in TRY_EDITS.verdicts_in(lines)]


@pytest.mark.parametrize("verdict, line", groups(TRIED))
def test_a_verdict_is_read(verdict, line):
    assert verdicts_in(f"rt: must-fail a/b.edit: {line}") == [f"a/b: {verdict}"]


def test_no_verdict_is_read_in_other_lines():
    assert verdicts_in("rt: a is proved\\nlogic=proved functions=2") == []
