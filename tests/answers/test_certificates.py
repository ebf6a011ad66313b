"""Has the program make the certificate of each problem of the bench and verify it, and compares it with the one in bench/mates/certificates.

bench/mates/make_certificates makes those anew. The answers are those of the tables."""

import lzma
import os

import pytest

from certificates import MOST_BYTES, answer_of, packed, path_of, search_of
from programs import bench_lines, run, started

LINES = list(bench_lines())


@pytest.mark.parametrize("line", LINES, ids=lambda it: f"line {it.number}")
def test_the_certificate_of_a_line(program, pages, count, line):
    assert run(started(program, "solve", *search_of(line)), timeout=None).output == answer_of(line)
    text = run(started(program, "certify", *search_of(line)), timeout=None).output
    assert run(started(program, "verify", "--goal", line.goal, line.fen), text, timeout=None).output == answer_of(line)
    if not os.path.exists(path_of(line)):
        assert len(packed(text)) > MOST_BYTES, f"no certificate at {path_of(line)}"
        return count(3)
    with lzma.open(path_of(line)) as file:
        is_same = text == file.read()
    assert is_same, f"another certificate than {path_of(line)}"
    return count(4)
