"""Compares the replies of the page's modules with those of the program, in a headless Chromium.

For each position of the bench: `solve` within its own limit; `keys`, `tree`, a `check` of that tree, a `verify` of its certificate and `moves`,
within its own limit or 5 plies; and the position after each lawful move, whose text the program has to accept. Before that 20,000 texts that are
changed from positions are solved by the modules and by the program's `batch`. A trap in a module is a failure."""

import json
import lzma
import os
import random

import pytest

from browser import Tab
from programs import TOP, bench_lines, run, started

CERTIFICATES = os.path.join(TOP, "bench", "mates", "certificates")
MODULES = ["out/minimate32.wasm", "out/minimate64.wasm"]
SLOTS, MANY_SLOTS = 16381, 1048573
AT_ONCE = 1000
TEXTS, PARTS = 20_000, 4
LIBRARY = "(async () => {{ const { Library, compiled } = await import('./library.js'); window.library = new Library(await compiled('{}')); return true; }})()"
# A call is its name and what it is asked; a text that is a list is bytes.
ANSWER = """(() => { const asked = %s; const given = (one) => Array.isArray(one) ? new Uint8Array(one) : one;
const calls = { search: (it) => library.search(...it), moves: (it) => library.moves(...it), fault: (it) => library.fault(...it),
after: (it) => library.after(...it), check: (it) => library.check(...it), verify: (it) => library.verify(...it) };
return asked.map(([name, ...it]) => calls[name](it.map(given))); })()"""


# What is said of a call that is lent no memory, of memory that is asked for once the rest is lent, and of a rest of nothing.
OWED = """(async () => { const { Instance, compiled } = await import('./library.js'); const code = await compiled('%s');
const said = (act) => { try { act(); return "nothing"; } catch (error) { return error.message; } };
const [early, late, full] = [0, 0, 0].map(() => new Instance(code)); late.lend(late.taken(16)); const at = full.taken(16); full.taken(2 ** 40);
return [() => early.call("moves", []), () => late.taken(1), () => full.lend(at)].map(said); })()"""
OWED_SAID = ["a call is owed memory", "what is left is lent", "nothing is left to lend"]


class Module:
    """A module of the page, in a tab."""

    def __init__(self, driver, url, name):
        self.tab = Tab(driver, url)
        self.tab.wait("document.documentElement?.dataset.ready")
        self.tab.value(LIBRARY.replace("{{", "{").replace("}}", "}").replace("'{}'", f"'{name}'"))

    def answers(self, asked):
        return self.tab.value(ANSWER % json.dumps(asked))


@pytest.fixture(scope="module")
def modules(driver, page_url):
    return [Module(driver, page_url, name) for name in MODULES]


def test_a_call_stops_if_it_is_lent_no_memory_or_some_twice(modules):
    """The page owes each call memory that nothing else has."""
    for module, name in zip(modules, MODULES):
        assert module.tab.value(OWED % name) == OWED_SAID


def program_reply(program, words, text=b""):
    ran = run(started(program, *words), text, timeout=600)
    return ran.output.decode() if ran.status in (0, 1) else repr(ran)


def bench_asked(line, most):
    """The calls about a line of the bench, each with the words of the program for the same."""
    least = min(line.limit, most)
    for name, limit, slots in (("solve", line.limit, MANY_SLOTS), ("keys", least, SLOTS), ("tree", least, SLOTS)):
        words = [name, "--goal", line.goal, "--limit", str(limit), "--slots", str(slots), line.fen]
        yield ["search", name, line.fen, line.goal == "stale", limit, slots], words
    yield ["moves", line.fen], ["moves", line.fen]


@pytest.mark.parametrize("part", range(PARTS))
def test_the_modules_answer_the_bench_as_the_program_does(program, modules, count, part):
    lines = list(bench_lines())[part::PARTS]
    for line in lines:
        asked, words = zip(*bench_asked(line, 5))
        wanted = [program_reply(program, one) for one in words]
        for module in modules:
            assert module.answers(asked) == wanted, line
        if not wanted[2].startswith("none"):
            verdict = program_reply(program, ["check", "--goal", line.goal, line.fen], wanted[2].encode())
            assert modules[0].answers([["check", line.fen, line.goal == "stale", wanted[2]]]) == [verdict]
        check_certificate(modules[0], program, line)
        check_after(modules[0], program, line.fen, wanted[3].split())
    count(len(lines) * (4 * len(modules) + 6))


def check_certificate(module, program, line):
    """Verifies the certificate of the line that the repository keeps, and the same with a line too many."""
    path = os.path.join(CERTIFICATES, f"{line.number:03}.xz")
    if not os.path.exists(path):
        return
    with lzma.open(path) as file:
        text = file.read()
    for one in (text, text + b"a\n"):
        wanted = program_reply(program, ["verify", "--goal", line.goal, line.fen], one)
        assert module.answers([["verify", line.fen, line.goal == "stale", one.decode()]]) == [wanted]


def check_after(module, program, fen, moves):
    """The positions after all moves are sound, as many as there are moves, with the other side to move."""
    after = [text.rstrip("\n") for text in module.answers([["after", fen, move] for move in moves])]
    replies = program_reply(program, ["batch", "--limit", "1"], "".join(text + "\n" for text in after).encode()).splitlines()
    assert len(replies) == len(moves) and not any("refused" in one for one in replies)
    assert all(text[-1] != fen[-1] for text in after)
    assert module.answers([["after", fen, "a1a1"], ["after", fen, ""]]) == ["refused: Move\n"] * 2


def changed(deal, text):
    """A text with a few bytes changed, left out, put in or moved."""
    text = bytearray(text)
    for _ in range(deal.choice((0, 1, 1, 1, 2, 3, 8))):
        at, byte = deal.randrange(len(text) + 1), deal.choice(b"kqrbnpKQRBNP0123456789/ wb-\r\0\xff\xc3%x")
        way = deal.randrange(4)
        if way == 0:
            text[at:at + 1] = bytes([byte])
        elif way == 1:
            text[at:at] = bytes([byte]) * deal.choice((1, 1, 2, 40))
        elif way == 2:
            del text[at:at + deal.choice((1, 1, 2, 9))]
        else:
            text[at:] = text[at:][::-1]
    return bytes(text[:256])


def hostile_texts(count):
    """Texts that are lines of a batch: none empty, no comment, with no line feed and no carriage return at the end."""
    deal, fens = random.Random(36), [line.fen.encode() for line in bench_lines()]
    texts = []
    while len(texts) < count:
        text = changed(deal, deal.choice(fens)) if deal.random() < 0.97 else bytes(deal.randrange(256) for _ in range(deal.randrange(1, 60)))
        if text and b"\n" not in text and not text.startswith(b"#") and not text.endswith(b"\r"):
            texts.append(text)
    return texts


def test_the_modules_read_hostile_texts_as_the_program_does(program, modules, count):
    texts = hostile_texts(TEXTS)
    ran = run(started(program, "batch", "--limit", "1", "--slots", "16381"), b"\n".join(texts) + b"\n", timeout=900)
    wanted = ran.output.decode().splitlines()
    assert len(wanted) == TEXTS and sum(not one.startswith("refused") for one in wanted) > TEXTS // 20
    for start in range(0, TEXTS, AT_ONCE):
        part, due = texts[start : start + AT_ONCE], wanted[start : start + AT_ONCE]
        asked = [["search", "solve", list(text), False, 1, 61] for text in part]
        for module in modules:
            assert module.answers(asked) == [f"{want}\n" for want in due]
        faults = modules[0].answers([["fault", list(text)] for text in part])
        assert [one.split("\n")[0] for one in faults] == [want if want.startswith("refused") else "" for want in due]
    count(TEXTS * (len(modules) + 1))
