"""Runs command lines as people type them: status, output, help, and what a program says of another program's commands."""

import os
import re
import shlex
import shutil

import pytest

import programs
from command_lines import ANSWERS, CERTIFICATE, COMMANDS, EXPLAINED, FIRST, HELPED, OF_VALUES, SHELL_LINES, THIRD
from programs import PROGRAMS, TOP, program_named, program_of, run, started

HELP = [["--version"], ["-V"], ["-h"], ["--help"], ["help"]]
HELP += [words for command in COMMANDS for words in (["help", command], [command, "-h"], [command, "--help"])]
WITHOUT_COMMAND = [*HELP, *(words for _, words, _ in EXPLAINED), *(words for _, words, _, status, _ in ANSWERS if status == 2)]
# Side to move without a move, and what standard error says.
OVER = [("k4R/6/1K4/6/6/6 b", b"Black is mated already\n"), ("k5/2Q3/6/6/6/5K b", b"Black is stalemated already\n")]


def named(table):
    """The rows of a table as parameters, each with its first cell as its name."""
    return [pytest.param(*row[1:], id=row[0]) for row in table]


@pytest.mark.parametrize("words, text, status, output", named(ANSWERS))
def test_a_command_line_has_its_status_and_its_output(program, pages, words, text, status, output):
    ran = run(started(program, *words), text)
    is_explained = status in (1, 2, 3) or output == b"no\n" or (words[:1] == ["tree"] and "--first" in words and output.startswith(b"none"))
    assert (ran.status, ran.output, bool(ran.error)) == (status, output, is_explained)


@pytest.mark.parametrize("words, wanted", named(EXPLAINED))
def test_a_wrong_command_line_is_explained(program, words, wanted):
    ran = run(started(program, *words))
    assert (ran.status, ran.output) == (2, b"")
    assert [word for word in wanted if word not in ran.error] == []


@pytest.mark.parametrize("words", WITHOUT_COMMAND, ids=str)
def test_every_program_prints_the_same_help_and_errors(program, words):
    own = run(started(program, *words))
    for name in PROGRAMS:
        wanted = own.error
        if own.error.startswith(OF_VALUES) and name != program_named(words):
            wanted = f"error: {words[0]} is another program's: write minimate {words[0]}\n".encode()
        assert run([program_of(program, name), *words]) == (2, b"", wanted), name


@pytest.fixture(scope="session")
def installed(program, tmp_path_factory):
    """The launcher, installed beside the programs."""
    folder = tmp_path_factory.mktemp("installed")
    for place in ("bin", "lib/minimate"):
        os.makedirs(folder / place)
    shutil.copy(os.path.join(TOP, "minimate"), folder / "bin" / "minimate")
    for name in PROGRAMS:
        os.symlink(program_of(program, name), folder / "lib" / "minimate" / name)
    return str(folder / "bin" / "minimate")


@pytest.mark.parametrize("words, more", HELPED, ids=str)
def test_the_launcher_prints_help_on_the_output_whatever_else_is_wrong(program, installed, words, more):
    assert run([installed, *words, *more]) == (0, run(started(program, *words)).error, b"")


@pytest.mark.parametrize("name", PROGRAMS)
def test_a_program_refuses_the_commands_of_others(program, name):
    lines = [(words, text) for _, words, text, status, _ in ANSWERS if status != 2 and words[0] not in PROGRAMS[name]]
    assert lines
    for words, text in lines:
        ran = run([program_of(program, name), *words], text)
        assert (ran.status, ran.output) == (2, b"") and re.fullmatch(rb"error: [^\n]+\n", ran.error), words


@pytest.mark.parametrize(
    "name, command",
    [("minimate", "verify"), ("minimate", "batch --limit 1"), ("batch", "check"), ("compose", "check"), ("compose", "batch --limit 1"), ("verify", "check")],
)
def test_a_program_leaves_the_input_of_another_command_alone(program, name, command):
    fen = "" if "batch" in command else f"'{THIRD}'"
    line = f"printf rest | {{ {shlex.quote(program_of(program, name))} {command} {fen} 2> /dev/null; cat; }}"
    assert run(["sh", "-c", line])[:2] == (0, b"rest")


@pytest.mark.parametrize("fen, told", OVER)
@pytest.mark.parametrize("command", ["solve", "keys", "tree", "solution", "certify", "batch"])
def test_a_search_for_a_side_without_a_move_says_so(program, command, fen, told):
    words = [command, "--limit", "3", *([] if command == "batch" else [fen])]
    ran = run(started(program, *words), fen.encode())
    line = b"line 1: " if command == "batch" else b""
    assert (ran.status, ran.output[:14], ran.error) == (0, b"none within 3\n", line + told)


@pytest.mark.parametrize("fen, told", OVER)
def test_moves_says_so_of_a_side_without_a_move(program, fen, told):
    assert run(started(program, "moves", fen)) == (0, b"", told)


def in_shell(program, launcher, line):
    """The shell's line with the programs' paths in place of the launcher's name before a command."""
    return re.sub(rf"{re.escape(launcher)} (?=(\S*))", lambda it: f"{shlex.quote(started(program, it[1])[0])} ", line)


@pytest.mark.parametrize("line, status, output", named(SHELL_LINES))
def test_a_shell_line_has_its_status_and_its_output(program, tmp_path, line, status, output):
    ran = run(["sh", "-c", in_shell(program, "$minimate", line)], cwd=tmp_path)
    assert (ran.status, ran.output) == (status, output)
    if status == 4:
        told = "the input could not be read" if "< /" in line or "<&-" in line else "the output could not be written"
        assert ran.error.decode() == f"error: {told} to its end\n"


@pytest.mark.parametrize("command", COMMANDS)
def test_the_help_of_a_command_begins_with_an_example_that_works(program, tmp_path, command):
    (tmp_path / "positions").write_bytes(FIRST.encode())
    (tmp_path / "certificate.in").write_bytes(CERTIFICATE)
    first, longer = (run(started(program, command, flag)).error.decode().split("\n")[0] for flag in ("-h", "--help"))
    assert first.startswith("Example: ") and longer == first
    line = in_shell(program, "minimate", first[9:]).replace("< certificate", "< certificate.in")
    ran = run(["sh", "-c", line], cwd=tmp_path)
    assert (ran.status, ran.error) == (0, b"")


@pytest.mark.parametrize("flag", ["-h", "--help"])
@pytest.mark.parametrize("command", [[], *([it] for it in COMMANDS)], ids=str)
def test_no_line_of_help_is_wider_than_80_columns(program, command, flag):
    error = run(started(program, *command, flag)).error.decode()
    assert error and [line for line in error.split("\n") if len(line) > 80] == []


def test_the_help_lists_the_commands_that_these_tests_run(program):
    assert list(programs.commands(program)) == COMMANDS
