"""Compares `minimate verify` with tools/verify.py, on the certificates of the bench and on texts changed from them.

The certificates are those of lines with at most VERIFIERS_PLIES plies (7), of 6,000 bytes at most, since the second checker is slow. A certificate
has to prove the table's answer, and the answer that any other text proves has to be right by the table. VERIFIERS_SEED names other lots,
VERIFIERS_CHANGED the number of changed texts a kind."""

import functools
import io
import os
import random
import re

import pytest

import verify
from asked import OTHER_GOAL, Asked, goal_words
from certificates import answer_of
from changed_texts import changed_bytes, changed_positions
from programs import bench_lines, run, started

SEED, CHANGED = os.environ.get("VERIFIERS_SEED", "1"), int(os.environ.get("VERIFIERS_CHANGED", "6"))
MOST, MOST_BYTES = int(os.environ.get("VERIFIERS_PLIES", "7")), 6000
LINES = [line for line in bench_lines() if (line.plies or line.limit) <= MOST]
# Bytes that occur in certificates, and some that never do.
BYTES = b"abcdefghpqzABXYZ.=-0123456789 \n\r\x00\xff"
# The moves and what is forced are worked out once for all texts of a game.
verify.Rules = functools.lru_cache(verify.Rules)


def changed_lines(chance, text):
    lines = text.splitlines(keepends=True)
    at, other = (chance.randrange(len(lines)) for _ in "ab")
    yield "a line left out", b"".join(lines[:at] + lines[at + 1 :])
    yield "a line twice", b"".join(lines[: at + 1] + lines[at:])
    yield "two lines swapped", b"".join({at: lines[other], other: lines[at]}.get(k, line) for k, line in enumerate(lines))
    yield "a line for another", b"".join(lines[other] if k == at else line for k, line in enumerate(lines))


def changed_claims(chance, text):
    """Yields words of a claim's line: one for another, one more, one less."""
    lines = text.split(b"\n")
    at = chance.randrange(1, len(lines))
    words = re.findall(rb"Z*[a-zA-X]|.", lines[at])
    word, place = chance.choice([b"a", b"b", b"c", b"d", b".", b"=", b"-", b"Za", b"A", b"ZZf"]), chance.randrange(len(words) + 1)
    for what, new, after in (("another word", [word], place + 1), ("a word more", [word], place), ("a word left out", [], place + 1)):
        yield what, b"\n".join([*lines[:at], b"".join([*words[:place], *new, *words[after:]]), *lines[at + 1 :]])


def first_lines(chance, text, goal):
    """Yields other answers before the same claims."""
    first, rest = text.split(b"\n", 1)
    plies = int(re.search(rb"\d+", first)[0])
    for other in (plies - 2, plies - 1, plies + 1, plies + 2, 0, 64, chance.randrange(1, 64)):
        yield "other plies", re.sub(rb"\d+", b"%d" % other, first) + b"\n" + rest
    word = b"mate" if goal == "mate" else b"goal"
    square = "".join(chance.choice("abcdef") + chance.choice("123456") for _ in "ft").encode()
    for answer in (b"none within %d" % plies, word + b" %d " % plies + square, b"0" + first, first.upper(), b" " + first, first + b" ", first + b"q"):
        yield "another answer", answer + b"\n" + rest


def fixed(text):
    yield from (("no bytes", b""), ("no line feed at the end", text[:-1]), ("carriage returns", text.replace(b"\n", b"\r\n")))
    yield from (("no memory", text + b"refused: NoMemory\n"), ("a byte order mark", b"\xef\xbb\xbf" + text))
    for long in (b"a" * verify.MOST_BYTES, b"a" * (verify.MOST_BYTES + 1)):
        yield from (("a long line", text + long + b"\n"), ("a long first line", long + b"\n" + text), ("a long line that is cut", text + long))


class Comparison(Asked):
    def compare_right(self, line, what, text):
        """Compares both answers for the line's position and goal, which are the table's or none within fewer plies than that."""
        answer, _ = self.ask(what, line.fen, line.goal, text)
        none = re.fullmatch(r"none within (\d+)", answer)
        if none:
            self.note(int(none[1]) < (line.plies or line.limit + 1), what, answer, line, text)
        elif not answer.startswith("refused"):
            self.note((answer + "\n").encode() == answer_of(line), what, answer, line, text)

    def compare_changed(self, chance, line, text):
        for _ in range(CHANGED):
            for kind in (changed_bytes(chance, text, BYTES), changed_lines(chance, text), changed_claims(chance, text)):
                for what, changed in kind:
                    self.compare_right(line, what, changed)
        for what, changed in [*first_lines(chance, text, line.goal), *fixed(text)]:
            self.compare_right(line, what, changed)
        self.ask("the other goal", line.fen, OTHER_GOAL[line.goal], text)
        for other in changed_positions(chance, line.fen, CHANGED):
            self.ask("another position", other, line.goal, text)


@pytest.mark.parametrize("line", LINES, ids=lambda it: f"line {it.number}")
def test_both_verifiers_agree(program, count, line):
    words = ["certify", *goal_words(line.goal), "--limit", str(line.limit), "--slots", "8191", line.fen]
    text = run(started(program, *words), timeout=None).output
    comparison = Comparison(program, "verify", lambda fen, source, goal: verify.verify(fen, io.BytesIO(source()), goal))
    assert (text.partition(b"\n")[0] + b"\n") == answer_of(line)
    if len(text) <= MOST_BYTES:
        assert comparison.ask("the certificate", line.fen, line.goal, text)[0].encode() + b"\n" == answer_of(line)
        comparison.compare_changed(random.Random(f"{SEED} {line.number}"), line, text)
        assert comparison.differ == []
    count(comparison.made + 1)
