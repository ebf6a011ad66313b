"""Runs each line of tools/sentences.tsv, the table of the sentences that explain refusals, and compares the table with the source."""

import os
import re
import resource

import pytest

from command_lines import FIRST, LITTLE_MEMORY, THIRD
from programs import TOP, run, started


def read(*names):
    with open(os.path.join(TOP, *names), encoding="utf-8") as file:
        return file.read()


# The lines of the table: a reason, what was given, and the sentence.
SENTENCES = [line.split("\t") for line in read("tools", "sentences.tsv").splitlines() if not line.startswith("#")]


def bytes_of(text):
    """The bytes of a cell, in which a tab and bytes that aren't ASCII are written as \\t and \\xff."""
    return text.encode().decode("unicode_escape").encode("latin-1")


def run_of(given):
    """Returns the arguments, the input and the limits of a run that is given this."""
    quoted = re.fullmatch("`(.*)`", given)
    if given == "":
        limits = {"preexec_fn": lambda: resource.setrlimit(resource.RLIMIT_AS, (LITTLE_MEMORY, LITTLE_MEMORY))}
        return ["solve", "--limit", "1", "--slots", "1048576", FIRST], b"", limits
    if given == "no bytes":
        return ["show", ""], b"", {}
    named = re.fullmatch("`(verify|batch)((?: --goal stale)?)`(, without its line feed)?: `(.*)`", given)
    if named:
        words = [named[1], *named[2].split(), *(["--limit", "1"] if named[1] == "batch" else [THIRD])]
        return words, bytes_of(named[4]) + (b"" if named[3] else b"\n"), {}
    if given.endswith(" bytes"):
        return ["check", THIRD], b"a" * int(given.split()[0]), {}
    if given.endswith(" nested moves"):
        return ["check", THIRD], b"a1a2{a3a4:" * int(given.split()[0]), {}
    if quoted[1].startswith("--"):
        return ["solve", *([] if "--limit" in quoted[1] else ["--limit", "1"]), *quoted[1].split(), FIRST], b"", {}
    return (["show", bytes_of(quoted[1])], b"", {}) if "/" in quoted[1] else (["check", THIRD], quoted[1].encode(), {})


@pytest.mark.parametrize("name, given, sentence", SENTENCES)
def test_a_refusal_is_explained_by_the_sentence_of_the_table(program, name, given, sentence):
    words, text, limits = run_of(given)
    ran = run(started(program, *words), text, **limits)
    status, line = {"NoMemory": (3, "")}.get(name, (0, "line 1: ") if words[0] == "batch" else (1, ""))
    assert (ran.status, ran.error) == (status, f"error: {line}{sentence}\n".encode())
    assert ran.output.startswith(f"refused: {name}".encode())


def pieces_of_source():
    """The texts of sentences in the source, cut where a value is put in: each piece of some length."""
    files = [read("crates", "refusals", "src", name + ".rt") for name in ("advice", "spelling", "kings")]
    texts = [text for file in files for text in re.findall(r'"((?:[^"\\]|\\.)*)"', file)]
    texts = [text.replace("\\n", "").replace("{{", "<").replace("}}", ">") for text in texts]
    pieces = {piece for text in texts for piece in re.split(r"\{\w*\}|%", text)}
    return {piece.replace("<", "{").replace(">", "}") for piece in pieces if len(piece) > 6 and " " in piece and re.search("[a-z]{3}", piece)}


def test_every_sentence_of_the_source_is_in_the_table_or_on_the_page_of_the_command_line():
    text = "\n".join(row[2] for row in SENTENCES) + read("docs", "reference", "cli.md")
    pieces = pieces_of_source()
    assert pieces and sorted(it for it in pieces if it.strip() not in " ".join(text.split("\n"))) == []
