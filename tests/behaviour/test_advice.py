"""Follows the advice of the program's sentences on texts with one change, until the text is accepted.

4,000 texts are drawn by lot: positions with letters, blanks, fields, ranks or units changed, lines of a batch that name their moves,
certificates and their goals, and command lines of every command. Each is passed to the program, and the text is changed as the sentence
says, as a user would do it; if the sentence leaves a choice, each choice is tried. After two changes at most the text has to be accepted, or
the last sentence has to be one that names no change. tools/check_tree.py says which positions are accepted. ADVICE_SEED names other lots.
"""

import concurrent.futures
import os
import random
import re

import pytest

import second_reading
from advice import (
    CHANGES, LETTERS_PUT, PROOF_CHANGES, WORD_CHANGES, changed_moves, changed_run, changed_text, changed_unit, changed_words, follow, is_line,
    is_position,
)
from changed_texts import whole_line
from programs import bench_lines, run, started

SEED, TEXTS, PARTS = os.environ.get("ADVICE_SEED", "1"), 4000, 4
LINES = list(bench_lines())


def sentence_in(error, coding="latin-1"):
    """The sentence, without what precedes it in a batch. Texts are bytes here, a letter each, and words are words."""
    return re.sub(r"^error: (line \d+: )?", "", error.decode(coding, errors="replace").rstrip("\n"))


class Follower:
    """Asks the program about a text, and whether a text is accepted."""

    def __init__(self, program):
        self.program = program

    def on_position(self, text):
        ran = run(started(self.program, "show", text.encode("latin-1")))
        return sentence_in(ran.error) if ran.status == 1 else f"status {ran.status}"

    def on_words(self, words):
        """The last line of standard error if it is advice; the messages of the parser end otherwise."""
        ran = run(started(self.program, *words), b"")
        if ran.status != 2:
            return f"status {ran.status}"
        last = ran.error.rstrip(b"\n").rsplit(b"\n", 1)[-1]
        return sentence_in(last, "utf-8") if last.startswith(b"error: ") else None

    def on_moves(self, text):
        return sentence_in(run(started(self.program, "batch", "--limit", "1"), text.encode("latin-1")).error)

    def has_own_limit(self, text):
        """Whether the line is searched within its own moves."""
        ran = run(started(self.program, "batch", "--limit", "1"), text.encode("latin-1"), timeout=20)
        return ran.status is None or ran.output.endswith((b" ok\n", b" differs\n"))

    def on_proof(self, asked):
        return sentence_in(run(started(self.program, *asked[0]), asked[1]).error)

    def is_proved(self, asked):
        return run(started(self.program, *asked[0]), asked[1]).status == 0

    def proof(self, chance):
        """A certificate of another goal than asked for, or with other line ends, or its first line alone without an end."""
        line = chance.choice([it for it in LINES if it.plies in (1, 3) and it.table == "cases"])
        text = run(started(self.program, "certify", "--limit", str(line.plies), "--goal", line.goal, line.fen)).output
        stale = ["--goal", "stale"]
        own, others = (stale, []) if line.goal == "stale" else ([], stale)
        first = text.split(b"\n")[0]
        return chance.choice([(["verify", *others, line.fen], text), (["verify", *own, line.fen], text.replace(b"\n", b"\r\n")), (["verify", *own, line.fen], first)])

    def try_text(self, number):
        """Returns whether the advice on the text of this number leads to an accepted text, and the way; None if nothing is refused."""
        chance = random.Random(f"{SEED} {number}")
        fen, kind = chance.choice(LINES).fen, number % 8
        if kind < 4:
            change = (changed_run, changed_unit, None, None)[kind]
            text = change(chance, fen) if change else changed_text(chance, fen, LETTERS_PUT)
            return None if is_position(text) or "\0" in text else follow(text, self.on_position, is_position, CHANGES)
        if kind < 6:
            words = whole_line(chance, chance.choice(sorted(second_reading.COMMANDS)), fen)
            new = changed_words(chance, words) if is_line(words) else words
            return None if is_line(new) else follow(new, self.on_words, is_line, WORD_CHANGES)
        if kind == 6:
            text = changed_moves(chance, "k5/6/1K4/6/6/5R w")
            return None if self.has_own_limit(text) else follow(text, self.on_moves, self.has_own_limit, CHANGES)
        return follow(self.proof(chance), self.on_proof, self.is_proved, PROOF_CHANGES)


@pytest.mark.parametrize("part", range(PARTS))
def test_advice_leads_to_a_text_that_is_accepted(program, count, part):
    with concurrent.futures.ThreadPoolExecutor(2) as pool:
        ended = list(pool.map(Follower(program).try_text, range(part, TEXTS, PARTS)))
    followed = [it for it in ended if it is not None]
    assert followed and [way[:4] for is_well, way in followed if not is_well] == []
    count(len(followed))
