"""The manual page and the completions in share/, which tools/make_share writes from the program's help."""

import os
import re
import sys

import pytest

from conftest import need
from programs import TOP, run, tool

MAKE_SHARE = tool("make_share")
SHARE = os.path.join(TOP, "share")
# Files that a folder has, and what bash completes there: the names of files after a sign that names a file, also where one stands in place of an
# option's value, and after no other word.
IN_FOLDER = ["positions", "problems of mine", "tree"]
FILE_NAMES = [
    (("batch", "--limit", "3", "<", ""), IN_FOLDER),
    (("batch", "--limit", "3", "<"), IN_FOLDER),
    (("batch", "--limit", "3", "<", "p"), IN_FOLDER[:2]),
    (("batch", "--limit", "3", "<", "positions", ">", "tr"), ["tree"]),
    (("tree", "--limit", "3", "k5/6/2K3/6/6/1R4 w", ">>", "t"), ["tree"]),
    (("batch", "--limit", "3", "2", ">", "t"), ["tree"]),
    (("batch", "--limit", "3", "<", "-"), []),
    (("<", "p"), IN_FOLDER[:2]),
    (("batch", "--limit", "3", "<", "positions", "--js"), ["--json"]),
    (("batch", "--limit", "3", "p"), []),
]
OTHERS = [
    (("help", "solve", ""), []),
    (("solve", "--goal", ""), ["mate", "stale"]),
    (("solve", "--limit", ""), []),
]


@pytest.fixture(scope="module")
def of_help(program):
    """The program as its help describes it."""
    return MAKE_SHARE.program_of(program)


@pytest.fixture(scope="module")
def options(of_help):
    """The options of each command, in the order of the help."""
    return {command.name: [it.name for it in command.options] for command in of_help.commands}


def read(*path):
    with open(os.path.join(*path), encoding="utf-8") as file:
        return file.read()


def completed(*words, cwd=None):
    """Returns what bash offers for the last of these words, in a folder."""
    need("bash")
    line = " ".join(f"'{word}'" for word in ("minimate", *words))
    script = f'source "$1"; COMP_WORDS=({line}); COMP_CWORD={len(words)}; _minimate; printf "%s\\n" "${{COMPREPLY[@]}}"'
    ran = run(["bash", "-c", script, "bash", os.path.join(SHARE, "bash/minimate")], cwd=cwd)
    return sorted(line for line in ran.output.decode().split("\n") if line)


def test_the_files_are_those_that_make_share_writes(program, tmp_path, count):
    words = [sys.executable, os.path.join(TOP, "tools", "make_share"), "--program", program, "--folder", tmp_path]
    ran = run(words)
    assert (ran.status, ran.error) == (0, b"")
    for name in MAKE_SHARE.FILES:
        assert read(tmp_path, name) == read(SHARE, name), f"share/{name} isn't as the help has it: run tools/make_share"
    count(len(MAKE_SHARE.FILES))


def test_the_manual_page_has_the_launchers_forms_and_statuses_and_the_commands_of_each_option(options):
    page = read(SHARE, "man/man1/minimate.1").replace("\\-", "-")
    assert [it for it in MAKE_SHARE.BY_LAUNCHER if f"\n{it}\n" not in page.partition(".SH DESCRIPTION")[0]] == []
    assert re.findall(r"^\.TP\n(\d+)$", page, re.M) == ["0", "1", "2", "3", "4", "125"]
    told = re.findall(r"^\.TP\n\\fB--([\w-]+)\\fR.*?^Of (.*?)\.$", page, re.M | re.S)
    named = {f"--{option}": list(options) if names == "each command" else re.split(", | and ", names) for option, names in told}
    every = {name for names in options.values() for name in names}
    assert named == {option: [name for name, takes in options.items() if option in takes] for option in every}


def test_bash_completes_the_commands_and_their_options(options, count):
    assert completed("") == sorted([*options, "help", "--help", "--version"])
    assert completed("help", "") == sorted(options)
    assert {name: completed(name, "--") for name in options} == {name: sorted(names) for name, names in options.items()}
    count(2 + len(options))


@pytest.mark.parametrize("words, wanted", OTHERS + FILE_NAMES, ids=lambda it: " ".join(it))
def test_bash_completes_values_and_names_of_files(tmp_path, words, wanted):
    for name in IN_FOLDER:
        (tmp_path / name).touch()
    assert completed(*words, cwd=tmp_path) == wanted


def test_zsh_reads_its_file():
    need("zsh")
    assert run(["zsh", "-n", os.path.join(SHARE, "zsh/_minimate")]).status == 0


def test_fish_completes_the_options_of_each_command(options):
    need("fish")
    for name, names in options.items():
        script = f"source {os.path.join(SHARE, 'fish/minimate.fish')}; complete -C 'minimate {name} --'"
        offered = run(["fish", "--no-config", "-c", script]).output.decode().split("\n")
        assert sorted(line.split("\t")[0] for line in offered if line) == sorted(names), name
