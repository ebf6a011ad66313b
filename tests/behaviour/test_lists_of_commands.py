"""Compares each place that lists the program's commands with the program's own help.

A command that takes --workers searches, and a command whose help says so reads its input. Compared are the advice on wrong command lines, the
launcher, the programs' own lists, the completions and the manual page, the page of the command line, the second reading of command lines, and
`python -m minimate`, which lacks the commands of LACKING and says so."""

import ast
import collections
import os
import re
import shutil

import pytest

import kit
import programs
import second_reading
from programs import FIRST, PROGRAMS, TOP, program_named, run, started

FEN = "k5/6/2K3/6/6/1R4 w"
LACKING = {"solution", "certify", "batch"}
# Arguments that begin with no command: the first program explains them.
OF_FIRST = [[], [""], ["sovle"], ["help", "verify"], ["--help"], ["--goal", "certify"], [FEN, "solution"], ["Verify"], ["verify "]]
# The file in which each program lists its own commands.
OF_FILES = {
    "console/src/running.rt": FIRST,
    "batches/src/program.rt": "batch",
    "verdicts/src/program.rt": "verify",
    "composing/src/program.rt": "compose",
}
SHARED = ["man/man1/minimate.1", "bash/minimate", "zsh/_minimate", "fish/minimate.fish"]


def read(*names):
    with open(os.path.join(TOP, *names), encoding="utf-8") as file:
        return file.read()


LAUNCHER = read("minimate")


@pytest.fixture(scope="module")
def commands(program):
    return programs.commands(program)


def advice(program, *words):
    return run(started(program, *words)).error.decode().rstrip("\n").rsplit("\n", 1)[-1]


def test_advice_on_arguments_knows_each_command(program, commands):
    for name, command in commands.items():
        assert advice(program, f"--{name}", FEN) == f"error: {name} is a command: write it without dashes"
        assert advice(program, "--workers", "4", name, FEN) == "error: options come after the command: write it before --workers"
        wanted = "--mate is a number from 1 to 32: write 2 in place of 'x'" if command.searches else f"{name} makes no search: leave out --mate"
        assert advice(program, name, "--mate", "x", "--depth", FEN) == f"error: {wanted}"


def function_of(launcher, name):
    """The text of a function of the launcher."""
    return re.search(rf"^{name}\(\) {{\n.*?^}}$", launcher, re.M | re.S)[0]


def test_the_launcher_knows_which_commands_search_and_which_read(commands):
    searches = function_of(LAUNCHER, "searches")
    for name, command in [*commands.items(), ("sovle", None), ("", None)]:
        ran = run(["sh", "-c", f'{searches}\nsearches "$@"', "sh", name])
        assert (ran.status == 0) == bool(command and command.searches), name
    reads = set(re.findall(r"^ +([a-z]+)\) what=", function_of(LAUNCHER, "tell_of_input"), re.M))
    assert reads == {name for name, command in commands.items() if command.reads}


def unlike(commands, lists, launcher):
    """Yields the differences between the help's commands, the programs' lists and the launcher's choice."""
    listed = collections.Counter(command for of_program in lists.values() for command in of_program)
    yield from (f"{command} is the command of {count} programs" for command, count in listed.items() if count != 1)
    yield from (f"no program has {command}" for command in commands if command not in listed)
    yield from (f"the help has no {command}" for command in listed if command not in commands)
    pick = function_of(launcher, "pick")
    for words in [[command] for command in {*commands, *listed}] + OF_FIRST:
        name = next((name for name, of_program in lists.items() if words[:1] and words[0] in of_program), FIRST)
        line = [shutil.which("sh"), "-c", f'{pick}\npick "$@"\necho "$name"', "sh", *words]
        picked = run(line, env={"PATH": ""}).output.decode().strip()
        if picked != name:
            yield f"the launcher picks {picked} for {' '.join(words)}, which is of {name}"


def test_each_command_is_one_programs_and_the_launcher_picks_that(commands):
    assert list(unlike(commands, PROGRAMS, LAUNCHER)) == []
    assert {program_named(it) for it in OF_FIRST} == {FIRST}
    assert "kit.PROGRAMS" in read("tools", "install") and list(kit.PROGRAMS) == list(PROGRAMS)


CASE = "    case ${1-} in\n        batch)"


@pytest.mark.parametrize(
    "lists, launcher",
    [
        pytest.param({**PROGRAMS, "verify": ["verify", "check"]}, LAUNCHER, id="a command of two programs"),
        pytest.param({**PROGRAMS, "compose": ["solution", "show"]}, LAUNCHER, id="a command of no program"),
        pytest.param({**PROGRAMS, "compose": ["solution", "certify", "show", "print"]}, LAUNCHER, id="a command that the help lacks"),
        pytest.param({**PROGRAMS, "verify": ["solution"], "compose": ["verify", "certify", "show"]}, LAUNCHER, id="two that changed places"),
        pytest.param(PROGRAMS, LAUNCHER.replace("solution | certify | show) name", "solution | show) name"), id="a launcher without a command"),
        pytest.param(PROGRAMS, LAUNCHER.replace(CASE, CASE.replace(")", " | moves)")), id="a launcher that picks another program"),
        pytest.param(PROGRAMS, LAUNCHER.replace(CASE, CASE.replace("1-", "2-${1-}")), id="a launcher that goes by a later word"),
    ],
)
def test_a_list_that_differs_is_found(commands, lists, launcher):
    assert any(unlike(commands, lists, launcher))


@pytest.mark.parametrize("file, name", OF_FILES.items())
def test_a_program_takes_its_own_commands(file, name):
    own = re.search(r"const OWN: &\[&str\] = &\[(.*?)\];", read("crates", file), re.S)
    assert sorted(re.findall(r'"(\w+)"', own[1])) == sorted(PROGRAMS[name])


@pytest.mark.parametrize("name", SHARED)
def test_the_manual_page_and_the_completions_have_every_command(commands, name):
    assert [command for command in commands if not re.search(rf"\b{command}\b", read("share", name))] == []


def test_the_page_of_the_command_line_has_a_section_and_a_row_for_every_command(commands):
    page = read("docs", "reference", "cli.md")
    assert set(re.findall(r"^\| \[`(\w+)`\]", page, re.M)) == set(commands)
    assert set(commands) <= set(re.findall(r"^## (\w+)$", page, re.M))


def test_the_second_reading_takes_the_same_options(commands):
    taken = {name: takes.values | takes.flags for name, takes in second_reading.COMMANDS.items()}
    assert taken == {name: command.options for name, command in commands.items()}


def test_python_has_the_commands_that_it_and_its_page_say(commands):
    tree = ast.parse(read("python", "minimate", "__main__.py"))
    table = next(it.value for it in tree.body if isinstance(it, ast.AnnAssign) and it.target.id == "COMMANDS")
    had = {key.value for key in table.keys}
    assert had == set(commands) - LACKING
    said = ast.get_docstring(tree).split("There is no ")[1].split(", and no")[0]
    assert set(re.findall(r"`(\w+)`", said)) == LACKING
    page = re.search(r"`python -m minimate` has the commands (.*?)\.", read("docs", "reference", "python.md"), re.S)[1]
    assert set(re.findall(r"`(\w+)`", page)) == had
