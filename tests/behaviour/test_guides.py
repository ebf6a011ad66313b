"""The guides, followed by a reader who types what they show."""

import json
import os
import re
import shlex
import subprocess
import sys

import pytest

from programs import TOP, bench_lines, run, started

FEN = "k5/6/2K3/6/6/1R4 w"


def blocks_of(page, language):
    with open(os.path.join(TOP, "docs", page), encoding="utf-8") as file:
        return re.findall(rf"^```{language}\n(.*?)^```$", file.read(), flags=re.M | re.S)


def test_the_composing_guide_leads_to_a_published_problem(program, tmp_path):
    for block in blocks_of("guide/composing.md", "sh"):
        typed = re.sub(r"\./minimate (?=(\S*))", lambda it: f"{shlex.quote(started(program, it[1])[0])} ", block)
        assert run(["sh", "-ec", typed], cwd=tmp_path).status == 0, block
    names = ("problem.svg", "key.svg", "solution.txt", "certificate.txt")
    diagram, with_key, solution, certificate = ((tmp_path / name).read_bytes() for name in names)
    assert all(it.startswith(b"<?xml ") and b"<svg " in it for it in (diagram, with_key))
    assert b"#2" in with_key and b"1.Kc5" in with_key and b"Kc5" not in diagram
    assert solution.startswith(b"mate in 2\nno set play\ntries\n1.Ra1+?\n  but 1...Kb6!\n1.Rb2? zugzwang\n  but 1...Ka5!\n")
    assert solution.endswith(b"1.Kc5! threat 2.Ra1#\n  1...Ka5 2.Ra1#\n")
    for checker in (started(program, "verify"), [sys.executable, os.path.join(TOP, "tools", "verify.py")]):
        assert run([*checker, FEN], certificate).output == b"mate 3 c4c5\n"


def test_the_testing_guide_leads_to_a_report_of_100_problems(program):
    lines = [it for it in bench_lines(("cases", "hard", "rook", "harder")) if it.goal == "mate" and it.limit >= 5][:100]
    assert len(lines) == 100
    given = "".join(f"{it.fen}\n" for it in lines)
    ran = run([*started(program, "batch"), "--mate", "3", "--json", "--slots", "1048573"], given.encode(), timeout=300)
    for number, (line, made) in enumerate(zip(lines, map(json.loads, ran.output.splitlines()), strict=True), 1):
        is_forced = line.plies is not None and line.plies <= 5
        wanted = {"line": number, "position": line.fen, "goal": "mate", "limit": 5, "answer": "mate" if is_forced else "none"}
        assert made == wanted | {"plies": line.plies if is_forced else None, "first": line.move if is_forced else None}


def programs_in_c():
    """Yields the programs in C that the pages show, each with what the page says that it prints."""
    for page in ("guide/engines.md", "reference/c.md"):
        with open(os.path.join(TOP, "docs", page), encoding="utf-8") as file:
            text = file.read()
        for found in re.finditer(r"^```c\n(.*?)^```$(.*?)It prints(?: `([^`]+)`|:\n\n```\n(.*?)^```$)", text, flags=re.M | re.S):
            yield pytest.param(found[1], found[4] or f"{found[3]}\n", id=f"{page}: {text[: found.start()].count(chr(10))}")


@pytest.mark.parametrize("source, output", programs_in_c())
def test_a_program_in_c_that_a_page_shows_prints_what_the_page_says(library, tmp_path, source, output):
    (tmp_path / "mate.c").write_text(source, encoding="utf-8")
    words = ["cc", "-Wall", "-Wextra", "-Werror", f"-I{TOP}/include", "mate.c", f"{library}/libminimate.a", "-o", "mate"]
    subprocess.run(words, cwd=tmp_path, check=True)
    assert run([str(tmp_path / "mate")]).output.decode() == output
