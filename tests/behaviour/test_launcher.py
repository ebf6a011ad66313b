"""The launcher `./minimate` once its programs are built, and tools/install: words, streams and statuses, with programs that stand in for
minimate's."""

import contextlib
import os
import pty
import shlex
import subprocess
import sys

import pytest

from clones import NAMES, files_below, make_tools, write
from programs import FIRST, PROGRAMS, TOP, program_named, run

SLOTS = ["--slots", "1048573"]
# A won position, and its tree.
WON, WINS = "k5/6/2K3/6/6/1R4 w", b"c4c5{a6a5:b1a1#}\n"
# The few tools that an installed launcher may use.
PLAIN_PATH = "/usr/bin:/bin"
# The files that tools/install writes below its prefix.
INSTALLED = """bin/minimate bin/minimate-show-tree lib/minimate/batch lib/minimate/check_tree.py
lib/minimate/compose lib/minimate/diagrams.py lib/minimate/minimate lib/minimate/show_tree lib/minimate/verify
share/bash-completion/completions/minimate share/fish/vendor_completions.d/minimate.fish share/man/man1/minimate.1
share/zsh/site-functions/_minimate""".split()


def cases(text):
    """Returns a case for each line `WORDS | WORDS`, as a shell reads these; `+` stands for the slots that the launcher adds."""
    rows = [line.split("|") for line in text.strip().splitlines()]
    sides = [[[it for word in shlex.split(side) for it in (SLOTS if word == "+" else [word])] for side in row] for row in rows]
    return pytest.mark.parametrize("words, wanted", sides, ids=[row[0].strip() for row in rows])


def printed(words, name=None):
    """Returns what the program that has these words prints of them, or the program of this name."""
    return "".join(f"{it}\n" for it in [f"name ./{name or program_named(words)}", *(f"word {it}" for it in words)])


@contextlib.contextmanager
def terminal():
    ours, theirs = pty.openpty()
    try:
        yield theirs
    finally:
        os.close(ours)
        os.close(theirs)


def run_at(clone, words, **streams):
    how = {"stdin": subprocess.DEVNULL, "stdout": subprocess.PIPE, "env": clone.environment(), "check": False, "timeout": 60, **streams}
    return subprocess.run([clone.top / "minimate", *words], **how)


# Words


@cases("""
    solve --limit 7 'a w'            | solve + --limit 7 'a w'
    solve --limit=6 'a w'            | solve + --limit=6 'a w'
    tree 'a w' --limit 63            | tree + 'a w' --limit 63
    keys --limit 007 'a w'           | keys + --limit 007 'a w'
    batch --limit 9                  | batch + --limit 9
    solution --limit 7 --set 'a w'   | solution + --limit 7 --set 'a w'
    certify --mate=4 'a w'           | certify + --mate=4 'a w'
    solve --mate 4 'a w'             | solve + --mate 4 'a w'
    batch --mate=05                  | batch + --mate=05
    solve --mate 3 'a w'             | solve --mate 3 'a w'
    solve --mate=x 'a w'             | solve --mate=x 'a w'
    solve --limit 5 'a w'            | solve --limit 5 'a w'
    solve --limit 05 'a w'           | solve --limit 05 'a w'
    solve --limit x 'a w'            | solve --limit x 'a w'
    solve 'a w'                      | solve 'a w'
    solve --limit 7 --slots 3 'a w'  | solve --limit 7 --slots 3 'a w'
    solve --limit 7 --slots=3 'a w'  | solve --limit 7 --slots=3 'a w'
    solve --limit 7 -- --slots       | solve + --limit 7 -- --slots
    solve -- --limit 7               | solve -- --limit 7
    check --limit 7                  | check --limit 7
    moves --limit 7                  | moves --limit 7
    --limit 7                        | --limit 7
""")
def test_a_search_of_more_than_five_plies_gets_a_table(built, words, wanted):
    assert built.run(*words).output.decode() == printed(wanted)


@cases("""
    'a/b w'                            | solve + --limit 63 'a/b w'
    'a/b w' --limit 5                  | solve 'a/b w' --limit 5
    'a/b w' --mate=3                   | solve 'a/b w' --mate=3
    'a/b w' --goal stale               | solve + --limit 63 'a/b w' --goal stale
    --mate 2 'a/b w'                   | solve --mate 2 'a/b w'
    --limit=5 'a/b w'                  | solve --limit=5 'a/b w'
    --goal stale --mate 4 'a/b w'      | solve + --goal stale --mate 4 'a/b w'
    --goal stale 'a/b w'               | solve + --limit 63 --goal stale 'a/b w'
    --workers 1 'a/b w' --mate 2       | solve --workers 1 'a/b w' --mate 2
    --mate 2 -- 'a/b w'                | solve --mate 2 -- 'a/b w'
    --mate 2 moves 'a/b w'             | --mate 2 moves 'a/b w'
    --goal a/b                         | --goal a/b
    'a w'                              | 'a w'
    --goal=a/b                         | --goal=a/b
    moves 'a/b w'                      | moves 'a/b w'
    a/b w                              | solve + --limit 63 a/b w
    'a/b w' 3x                         | solve + --limit 63 'a/b w' 3x
    solve 'a/b w' 3                    | solve 'a/b w' 3
    -limit 3 'a/b w'                   | solve + --limit 63 -limit 3 'a/b w'
    3 'a w'                            | 3 'a w'
""")
def test_a_position_alone_is_solved(built, words, wanted):
    assert built.run(*words).output.decode() == printed(wanted)


BOTH = "write --mate 3 in place of '3' for a mate in 3 moves, or --limit 3 for 3 plies: minimate --mate 3 'a/b w'"
NO_NUMBER = "write the number of moves as --mate M, from 1 to 32: minimate --mate 3 'a/b w'"


@pytest.mark.parametrize("words, sentence", [
    (["a/b w", "3"], BOTH),
    (["3", "a/b w"], BOTH),
    (["--goal", "stale", "a/b w", "3"], BOTH),
    (["a/b w - - 0 1", "3"], BOTH),
    (["a/b w", "40"], "write --limit 40 in place of '40': minimate --limit 40 'a/b w'"),
    (["a/b w", "64"], NO_NUMBER),
    (["a/b w", "0"], NO_NUMBER),
    (["a/b\nw", "3"], BOTH.replace("a/b w", "FEN")),
    (["a/b w", "3", "--mate", "3"], "leave out '3': --mate 3 is there already"),
    (["--limit=5", "a/b w", "3"], "leave out '3': --limit 5 is there already"),
])
def test_a_number_beside_a_position_alone_is_refused(built, words, sentence):
    assert built.run(*words) == (2, b"", f"error: {sentence}\n".encode())


@cases("""
    solve --limit 3 'a/b w - - 0 1'                 | solve --limit 3 'a/b w'
    solve 'a/b w - - 0 1' --limit 3                 | solve 'a/b w' --limit 3
    keys --limit 3 -- 'a/b w - - 0 1'               | keys --limit 3 -- 'a/b w'
    tree --limit 3 --first c4c5 'a/b w - - 0 1'     | tree --limit 3 --first c4c5 'a/b w'
    solution --limit 3 'a/b w - - 0 1'              | solution --limit 3 'a/b w'
    certify --limit 3 'a/b w - - 0 1'               | certify --limit 3 'a/b w'
    check 'a/b w - - 0 1'                           | check 'a/b w'
    verify 'a/b w - - 0 1'                          | verify 'a/b w'
    moves 'a/b w - - 0 1'                           | moves 'a/b w'
    show 'a/b w - - 0 1'                            | show 'a/b w'
    'a/b w - - 0 1'                                 | solve + --limit 63 'a/b w'
    --mate 2 'a/b w - - 0 1'                        | solve --mate 2 'a/b w'
    moves 'rqknbr/pppppp w KQkq e3 12 30'           | moves 'rqknbr/pppppp w'
    moves 'a/b w - - 0'                             | moves 'a/b w - - 0'
    moves 'a/b w - - 0 1 2'                         | moves 'a/b w - - 0 1 2'
    moves 'a/b w -  - 0 1'                          | moves 'a/b w -  - 0 1'
    moves 'a/b w - - 0 '                            | moves 'a/b w - - 0 '
    moves ' a/b w - - 0'                            | moves ' a/b w - - 0'
    moves 'a w - - 0 1'                             | moves 'a w - - 0 1'
    moves 'a w - - 0 1/2'                           | moves 'a w - - 0 1/2'
    moves a/b w - - 0 1                             | moves a/b w - - 0 1
""")
def test_a_position_of_six_fields_is_cut_to_two(built, words, wanted):
    ran = built.run(*words)
    assert (ran.status, ran.output.decode()) == (0, printed(wanted))


@pytest.mark.parametrize("words, status, output", [
    (["a w", "b"], 0, b"a w, b\n"),
    (["a w", "b", "c", "d"], 0, b"a w, b, c, d\n"),
    (["a w", "b", "wrong", "d"], 1, b"refused: Move\n"),
    (["a w", "b", "wrong"], 1, b"refused: Move\n"),
    (["a w", "b", "--c"], 0, b"a w, b\n"),
    (["a/b w - - 0 1", "b"], 0, b"a/b w, b\n"),
    (["a/b w - - 0 1", "b", "c"], 0, b"a/b w, b, c\n"),
])
def test_moves_are_played_one_after_another(built, words, status, output):
    ran = built.run("after", *words)
    assert (ran.status, ran.output) == (status, output)


def test_a_program_gets_its_name_words_and_input_and_its_status_is_returned(built):
    assert built.run("check", "x", text=b"c4c5#") == (0, b"name ./minimate\nword check\nword x\nc4c5#", b"")
    assert built.run("fail").status == 3


# The stand-in prints nothing but the position for `after`.
@pytest.mark.parametrize("name, command", [(name, it) for name, commands in PROGRAMS.items() for it in commands if it != "after"])
def test_each_command_is_run_by_its_program(built, name, command):
    for more in ([], ["--", "verify"]):
        assert built.run(command, *more, "x").output.decode().split("\n")[0] == f"name ./{name}"


@pytest.mark.parametrize("words", ["", "help verify", "--goal certify", "sovle solution", "'a/b w' --limit 1 verify"])
def test_other_words_are_of_the_first_program(built, words):
    assert built.run(*shlex.split(words)).output.decode().split("\n")[0] == f"name ./{FIRST}"


# Streams


@cases("""
    solve --limit 3                 | solve --progress --limit 3
    solve --limit 7                 | solve + --progress --limit 7
    solve -- --progress             | solve --progress -- --progress
    tree                            | tree --progress
    keys                            | keys --progress
    solution                        | solution --progress
    certify                         | certify --progress
    batch 'a b'                     | batch --lines 0 --progress 'a b'
    batch --progress                | batch --lines 0 --progress
    batch --progress --lines=7      | batch --progress --lines=7
    moves solve                     | moves solve
    check --goal mate               | check --goal mate
    show                            | show
    ''                              | ''
""")
def test_a_search_shows_its_progress_at_a_terminal(built, words, wanted):
    with terminal() as error:
        assert run_at(built, words, stderr=error).stdout.decode() == printed(wanted)
    kept = [wanted[0], *wanted[3:]] if wanted[1:3] == ["--lines", "0"] else list(wanted)
    if kept != words:
        kept.remove("--progress")
    assert built.run(*words).output.decode() == printed(kept)


@pytest.mark.parametrize("words", ["--skip 2 --limit 3", "--limit=3 --skip=02", "--skip x", "--skip"])
def test_a_batch_gets_all_lines_of_its_input(built, words):
    ran = built.run("batch", *words.split(), text=b"a\nb\nc\nd")
    assert (ran.status, ran.output.decode()) == (0, printed(["batch", *words.split()]) + "a\nb\nc\nd")


def test_a_batch_is_the_launchers_process_and_gets_each_line_at_once(built):
    how = {"stdin": subprocess.PIPE, "stdout": subprocess.PIPE, "bufsize": 0, "env": built.environment()}
    with subprocess.Popen([built.top / "minimate", "batch", "--skip", "1"], **how) as process:
        process.stdin.write(b"a\nb\n")
        lines = [process.stdout.readline() for _ in range(6)]
        with open(f"/proc/{process.pid}/cmdline", "rb") as file:
            assert file.read().endswith(b"./batch\0batch\0--skip\0001\0")
        process.stdin.close()
    assert lines[4:] == [b"a\n", b"b\n"]


MARK = b"\xef\xbb\xbf"


@pytest.mark.parametrize("at_terminal", [False, True])
@pytest.mark.parametrize("text, place", [(MARK + b"a\nb\n", 0), (MARK + b"a\nb\n", 5), (MARK, 0), (b"a\nb\n", 0), (b"a\nb\n", 2)])
def test_the_launcher_reads_nothing_of_the_input(built, tmp_path, text, place, at_terminal):
    (tmp_path / "input").write_bytes(text)
    with open(tmp_path / "input", "rb", buffering=0) as file, terminal() as error:
        file.seek(place)
        ran = run_at(built, ["batch"], stdin=file, stderr=error if at_terminal else subprocess.DEVNULL)
        left = os.lseek(file.fileno(), 0, os.SEEK_CUR)
    words = ["batch", "--lines", "0", "--progress"] if at_terminal else ["batch"]
    assert (ran.returncode, ran.stdout.decode(), left) == (0, printed(words), place)


READS = b"minimate: reading positions, a line each; Ctrl-D ends the input\n"


@pytest.mark.parametrize("words, place, sentence", [
    (["batch"], "terminal", READS),
    (["batch", "bad"], "terminal", READS + b"error: bad\n"),
    (["batch", "--help"], "terminal", b""),
    (["solve", "--limit", "3"], "terminal", b""),
    (["moves"], "folder", b""),
    (["batch"], "folder", b"minimate: the input is a folder\n"),
    (["batch"], "nothing", b""),
])
def test_what_is_read_is_said_at_a_terminal(built, words, place, sentence):
    with terminal() as input_, open(os.devnull, "rb") as nothing:
        folder = os.open(built.room, os.O_RDONLY)
        where = {"terminal": input_, "folder": folder, "nothing": nothing}[place]
        error = run_at(built, words, stdin=where, stdout=subprocess.DEVNULL, stderr=subprocess.PIPE).stderr
        os.close(folder)
    assert error == sentence


def test_what_is_read_is_said_before_it_is_read(built):
    with terminal() as input_:
        how = {"stdin": input_, "stdout": subprocess.DEVNULL, "stderr": subprocess.PIPE, "env": built.environment()}
        with subprocess.Popen([built.top / "minimate", "check"], **how) as process:
            assert process.stderr.readline() == b"minimate: reading a tree; Ctrl-D ends the input\n"
            process.kill()


@pytest.mark.parametrize("words", ["--help", "solve --limit 3 --help", "solve --help worse", "certify --help"])
def test_help_is_printed_on_standard_output(built, words):
    assert built.run(*words.split()) == (0, b"how to\n", b"")


def test_help_for_other_words_is_refused_as_the_program_does(built):
    with open("/dev/full", "wb") as full:
        ran = run_at(built, ["--help"], stdout=full, stderr=subprocess.PIPE)
    assert (ran.returncode, ran.stderr) == (4, b"error: the output could not be written to its end\n")
    assert built.run("--bad", "--help") == (2, b"", b"error: bad\n")
    assert built.run("moves", "--", "--help").output == b"name ./minimate\nword moves\nword --\nword --help\n"


OURS = "glibc.malloc.hugetlb=1"


@pytest.mark.parametrize("command, user, wanted", [
    ("solve", None, OURS),
    ("solve", "", OURS),
    ("tree", "glibc.malloc.check=1", f"glibc.malloc.check=1:{OURS}"),
    ("keys", "glibc.malloc.hugetlb=0", "glibc.malloc.hugetlb=0"),
    ("solution", None, OURS),
    ("certify", "glibc.malloc.hugetlb=2:glibc.malloc.check=1", "glibc.malloc.hugetlb=2:glibc.malloc.check=1"),
    ("batch", "glibc.malloc.check=1:glibc.malloc.hugetlb=0", "glibc.malloc.check=1:glibc.malloc.hugetlb=0"),
    ("solve", "glibc.malloc.hugetlb_of=0", f"glibc.malloc.hugetlb_of=0:{OURS}"),
    ("solve", "my.glibc.malloc.hugetlb=0", f"my.glibc.malloc.hugetlb=0:{OURS}"),
    ("check", None, ""),
    ("moves", "glibc.malloc.check=1", "glibc.malloc.check=1"),
])
def test_a_search_gets_large_pages_unless_the_user_has_set_them(built, command, user, wanted):
    ran = built.run(command, TELLS_TUNABLES="1", GLIBC_TUNABLES=user)
    assert (ran.status, ran.output.decode()) == (0, f"name ./{program_named([command])}\ntunables {wanted}\nword {command}\n")


def test_the_launcher_is_found_through_links(built, tmp_path):
    (tmp_path / "linked").symlink_to(built.top / "minimate")
    (tmp_path / "links").mkdir()
    (tmp_path / "links" / "linked again").symlink_to("../linked")
    for link in (tmp_path / "linked", tmp_path / "links" / "linked again"):
        ran = built.run("moves", launcher=link)
        assert (ran.status, ran.output) == (0, b"name ./minimate\nword moves\n")


# tools/install

either_name = pytest.mark.parametrize("clone", NAMES, indirect=True, ids=["spaces", "not UTF-8"])


def installed(clone, *words, **more):
    return clone.run(*words, launcher="tools/install", **more)


@either_name
def test_installed_programs_run_without_the_clone(clone):
    home = clone.room / f"home of {clone.top.name}"
    ran, launcher = installed(clone, home / "bin"), home / "bin" / "minimate"
    assert (ran.status, os.fsdecode(ran.output)) == (0, f"installed: {home}/bin/minimate, which runs {home}/lib/minimate/minimate\n")
    assert b"is not on the path" in ran.error
    assert files_below(home) == INSTALLED
    ran = clone.run("moves", launcher=launcher, PATH=PLAIN_PATH)
    assert (ran.status, ran.output) == (0, b"name ./minimate\nword moves\n")
    ran = clone.run("solve", "--limit", "7", launcher=launcher, PATH=PLAIN_PATH)
    assert ran.output[16:] == b"word solve\nword --slots\nword 1048573\nword --limit\nword 7\n"
    again = installed(clone, home / "bin", PATH=f"{clone.tools}:{home}/bin")
    assert (again.status, again.error) == (0, b"")
    shown = run([home / "bin" / "minimate-show-tree", WON], WINS, env={"PATH": str(clone.tools)})
    assert (shown.status, b"1.Kc5" in shown.output) == (0, True)


@either_name
def test_built_and_installed_programs_need_no_path(clone):
    assert installed(clone, "--prefix", clone.room / "home").status == 0
    for launcher in ("minimate", clone.room / "home/bin/minimate"):
        for command in ("moves", "verify", "solution"):
            for path in ("", None):
                ran = clone.run(command, launcher=launcher, PATH=path)
                assert (ran.status, ran.output.decode()) == (0, printed([command])), (launcher, command, path)


@either_name
def test_an_installed_launcher_names_the_program_that_is_gone(clone):
    home = clone.room / "home"
    assert installed(clone, home / "bin").status == 0
    for name, commands in PROGRAMS.items():
        ran = clone.run(commands[0], launcher=home / "bin/minimate", PATH=PLAIN_PATH)
        assert (ran.status, ran.output.split(b"\n")[0]) == (0, f"name ./{name}".encode())
        (home / "lib/minimate" / name).unlink()
        sentence = f"minimate: found no program at {home}/bin/../lib/minimate/{name}: install it again\n"
        assert clone.run(commands[0], launcher=home / "bin/minimate") == (125, b"", sentence.encode())


@either_name
def test_install_takes_away_what_it_put_below_a_prefix_and_nothing_else(clone):
    prefix = clone.room / f"prefix of {clone.top.name}"
    assert (installed(clone, "--prefix", prefix).status, files_below(prefix)) == (0, INSTALLED)
    write(prefix / "lib/minimate/own", "")
    assert (installed(clone, "--uninstall", f"--prefix={prefix}").status, files_below(prefix)) == (0, ["lib/minimate/own"])
    (prefix / "lib/minimate/own").unlink()
    assert (installed(clone, "--uninstall", prefix / "bin").status, (prefix / "lib/minimate").exists()) == (0, False)
    assert (installed(clone, "--uninstall", prefix / "nowhere").status, (prefix / "nowhere").exists()) == (1, False)
    ran = installed(clone, "--uninstall", "--prefix", f"{prefix} gone")
    assert (ran.status, ran.error) == (1, b"install: there is no folder " + os.fsencode(prefix) + b" gone\n")


@pytest.mark.parametrize("words", ["-x", "--prefix", "--prefix ''", "''", "a b", "--prefix a b", "--prefx a"])
def test_install_refuses_words_that_name_no_folder(built, words):
    before = sorted(built.room.rglob("*"))
    ran = installed(built, *shlex.split(words))
    assert (ran.status, ran.output, bool(ran.error)) == (1, b"", True)
    assert sorted(built.room.rglob("*")) == before


def test_help_of_install_starts_nothing(clone):
    ran = installed(clone, "--help")
    assert (ran.status, ran.output[:6].lower(), clone.told(), (clone.top / "out").exists()) == (0, b"usage:", [], False)


@either_name
@pytest.mark.parametrize("place, kind, sentence", [
    ("bin/minimate", "folder", "is a folder"),
    ("bin/minimate", "file/below", "is no folder"),
    ("lib/minimate/compose", "folder", "is a folder"),
    ("lib/minimate", "file", "is no folder"),
    ("share/zsh/site-functions", "file", "is no folder"),
    ("share/fish", "link", "is no folder"),
])
def test_install_writes_nothing_if_one_file_cannot_be_put_into_place(clone, place, kind, sentence):
    prefix = clone.room / f"prefix of {clone.top.name}"
    (prefix / place).parent.mkdir(parents=True)
    if kind == "folder":
        (prefix / place).mkdir()
    elif kind == "link":
        (prefix / place).symlink_to("nowhere")
    else:
        write(prefix / place, "")
    before = sorted(prefix.rglob("*"))
    ran = installed(clone, "--prefix", prefix) if kind != "file/below" else installed(clone, prefix / place / "below")
    assert (ran.status, ran.output, os.fsencode(f"{prefix / place} {sentence}") in ran.error) == (1, b"", True)
    assert sorted(prefix.rglob("*")) == before
    assert (clone.told(), (clone.top / "out").exists()) == ([], False), "something was built"


def test_install_builds_nothing_for_a_folder_that_cannot_be_written(clone):
    other = {} if os.geteuid() else {"user": 65534, "group": 65534, "extra_groups": []}
    (clone.room / "closed").mkdir(mode=0o555)
    ran = run([clone.top / "tools/install", clone.room / "closed/bin"], env=clone.environment(), cwd=clone.room, **other)
    assert (ran.status, ran.output, f"cannot write in {clone.room}/closed".encode() in ran.error) == (1, b"", True)
    assert (clone.told(), (clone.top / "out").exists()) == ([], False)


def test_install_builds_first_and_leaves_no_copy_that_it_could_not_move(clone):
    home = clone.room / "home"
    write(clone.room / "stuck/sitecustomize.py", "import os\n\nos.replace = lambda *_: os.rmdir('/')\n")
    assert clone.run("--all", launcher="tools/build_program").status == 0
    ran = installed(clone, home / "bin", PYTHONPATH=clone.room / "stuck")
    assert (ran.status, ran.output, b"install: cannot write" in ran.error, files_below(home)) == (1, b"", True, [])
    for name in PROGRAMS:
        (clone.top / "out" / name).unlink()
    assert (installed(clone, home / "bin").status, files_below(home)) == (0, INSTALLED)


# Tools that aren't there


def test_the_launcher_without_python3_says_what_it_lacks(clone):
    sentence = b"minimate: found no python3 on the path, which the toolchain needs too: install it\n"
    pythonless = make_tools(clone.room / "pythonless", ["python3"])
    assert clone.run("moves", PATH=pythonless) == (125, b"", sentence)
    for words in (["moves"], ["solve", "--limit", "7", "a w"], ["verify", "a w"], ["batch"], ["a/b w"], ["--help"], []):
        assert clone.run(*words, PATH="") == (125, b"", sentence), words


def test_the_launcher_and_the_benches_without_rt_say_what_they_lack(clone):
    path = make_tools(clone.room / "kitless", ["rt"])
    # The toolchain's own folder serves if there is no `rt` on the path.
    if not os.access("/opt/rattle/bin/rt", os.X_OK):
        ran = clone.run("moves", PATH=path)
        assert (ran.status, ran.output, b"rt" in ran.error) == (125, b"", True)
    clone.copy("bench/table/run", "bench/perft/run")
    for bench in ("table", "perft"):
        ran = clone.run(launcher=f"bench/{bench}/run", PATH=path)
        assert ran.status not in (0, None)
        assert b"rt" in ran.error.split()
