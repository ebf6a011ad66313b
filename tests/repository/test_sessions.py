"""Types the console sessions of the pages and compares what they print; and draws the diagrams, reads the JSON and parses the shell's lines."""

import json
import re

import pytest

from documents import PAGES, blocks, diagrams, sessions, typed
from programs import TOP, run, started

SESSIONS = [
    pytest.param(command, output, id=f"{path}-{number}") for path, text in PAGES.items() for number, (command, output) in enumerate(sessions(text), 1)
]
DIAGRAMS = [pytest.param(*it, id=f"{path}-{number}") for path, text in PAGES.items() for number, it in enumerate(diagrams(text), 1)]
SHELL = [pytest.param(it, id=f"{path}-{number}") for path, text in PAGES.items() for number, it in enumerate(blocks(text, "sh"), 1)]
# Texts of a page, with the sessions and the boards in them.
READ = [
    ("```console\n$ a b\nc\n$ d\n```\n", [("a b", "c\n"), ("d", "")]),
    ("```console\n$ a <<'END'\nb\n$c\nEND\nd\n```\n", [("a <<'END'\nb\n$c\nEND", "d\n")]),
    ("```sh\n$ a\n```\n\n    $ b\n    c\n", []),
]
DRAWN = [
    ("```\n 2  k .\n 1  . K\n    a b\n```\n", [([(2, "k ."), (1, ". K")], " 2  k .\n 1  . K\n    a b\n")]),
    ("```sh\n$ a\n```\nb\n```\n 2  k .    2  . .\n 1  . K    1  q Q\n```\n", [([(2, "k ."), (1, ". K")], ""), ([(2, ". ."), (1, "q Q")], "")]),
]


@pytest.mark.parametrize("text, wanted", READ)
def test_sessions_are_read(text, wanted):
    assert list(sessions(text)) == wanted


@pytest.mark.parametrize("text, wanted", DRAWN)
def test_diagrams_are_read(text, wanted):
    assert list(diagrams(text)) == wanted


@pytest.mark.parametrize("command, output", SESSIONS)
def test_a_session_prints_what_the_page_shows(program, command, output):
    ran = run(["bash", "-c", f"exec 2>&1\n{typed(program, command)}"], cwd=TOP)
    assert ran.output.decode(errors="replace") == output


@pytest.mark.parametrize("board, whole", DIAGRAMS)
def test_a_diagram_is_what_show_draws(program, board, whole):
    fen = "/".join(re.sub(r"\.+", lambda it: str(len(it[0])), row.replace(" ", "")) for _, row in board)
    drawn = [run(started(program, "show", f"{fen} {side}")).output.decode() for side in "wb"]
    wanted = [f"{rank}  {row}" for rank, row in board]
    assert wanted in [[line.strip() for line in it.splitlines()][: len(wanted)] for it in drawn]
    assert not whole or whole in drawn


def members(value):
    """Yields the names of the members of a JSON value, at any depth."""
    for inner in value.values() if isinstance(value, dict) else value if isinstance(value, list) else ():
        yield from members(inner)
    yield from value if isinstance(value, dict) else ()


def test_json_in_sessions_has_the_members_that_the_page_of_json_lists(count):
    listed = {it for row in re.findall(r"^\| (`[^|]*`) \|", PAGES["docs/reference/json.md"], flags=re.M) for it in re.findall(r"`(\w+)`", row)}
    outputs = [output[it.start() :] for text in PAGES.values() for _, output in sessions(text) for it in re.finditer(r"^\{", output, flags=re.M)]
    unlisted = {name for it in outputs for name in members(json.JSONDecoder().raw_decode(it)[0])} - listed
    assert outputs and unlisted == set()
    count(len(outputs))


@pytest.mark.parametrize("text", SHELL)
def test_a_block_of_shell_commands_can_be_parsed(text):
    assert run(["sh", "-n"], text.encode()) == (0, b"", b"")
