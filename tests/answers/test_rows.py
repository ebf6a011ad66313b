"""Works out the expected values of the tests in Rattle and of the bench, from docs/ alone: nothing here asks the program.

The rows are read out of the sources: each literal tuple in a file of tests that has one of the shapes below, each line of the tables in
bench/mates, and each row of a table of runs, which `expect_runs` of the tests reads. The shape of a row follows from its fields, so rows may
be moved and tables renamed.

    packing    position, attacker, goal, ends of an interval, three words, slots with their numbers
    counts     position, how many lines of 1, 2, .. plies begin there: to depth ROWS_DEPTH (3)
    moves      position, its lawful moves, and which of them give check, if there is a third text
    answer     position, limit, goal, the fewest plies with the least move, or none: to ROWS_PLIES plies (5), by a plain search
    rook       king and rook against king: by the table of tools/backward_table
    tree       position, goal, the best tree and a limit: to ROWS_PLIES plies
    check      position, a tree, and the plies within which it wins
    run        position, a tree's text, and what `check` prints of it, with its status
    refusal    a text, and the fault of its position
"""

import ast
import collections
import functools
import glob
import os
import re

import pytest

import check_tree
from plain_search import Search
from programs import TOP, bench_lines, tool
from test_check_tree import leaves

PLIES, DEPTH = (int(os.environ.get(name, number)) for name, number in (("ROWS_PLIES", 5), ("ROWS_DEPTH", 3)))
SOURCES = ["crates/*/src/*tests.rt", "crates/*_tests/src/*.rt", "crates/acceptance/src/*.rt"]
GOALS = {"Mate": "mate", "MateOrStale": "stale", "MATE": "mate", "STALE": "stale", "mate": "mate", "stale": "stale"}
REFUSED = [f"refused: {it}" for it in "Fields Shape Letter Run Side Kings Units PawnRank OtherInCheck".split()]
SIDES = {"White": "w", "Black": "b", "W": "w", "B": "b"}
FEN = re.compile(r"[KQRBNPkqrbnp1-6]+(?:/[KQRBNPkqrbnp1-6]+){4,5} [wb]")
MOVE = r"[a-f][1-6][a-f][1-6][qrbn]?"
MOVES = rf"({MOVE}\s?)*"
MASK, TURN = (1 << 64) - 1, 0x9E3779B97F4A7C15
CODES = "KQRBNPkqrbnp"


# A name in a source, such as Goal::Mate: the last part, and what precedes it.
Word = collections.namedtuple("Word", "name of", defaults=[""])
Row = collections.namedtuple("Row", "where shape fields")


TOKEN = re.compile(
    r"""(?P<skip>\s+|//[^\n]*)|(?P<text>b?"(?:[^"\\]|\\.)*")|(?P<number>0x[0-9A-Fa-f_]+|\d[\d_]*)(?:[ui](?:8|16|32|64|size))?"""
    r"""|(?P<word>[A-Za-z_]\w*(?:::\w+)*)|(?P<call>\.\w+\(\))|(?P<mark>.)""",
    re.DOTALL,
)


class Unread(Exception):
    """Raised where no literal stands."""


def literal(tokens, at):
    """Returns the literal that begins here, and where it ends."""
    kind, text = tokens[at]
    if kind == "text":
        return value_of(text), past_calls(tokens, at + 1)
    if kind == "number":
        return int(re.sub(r"[ui](8|16|32|64|size)$", "", text).replace("_", ""), 0), at + 1
    if kind == "word" and text == "Some":
        inside, end = literal(tokens, at + 2)
        return inside, end + 1
    if kind == "word":
        of, _, name = text.rpartition("::")
        return None if text == "None" else Word(name, of), at + 1
    if text == "&":
        return literal(tokens, at + 1)
    if text in "([":
        found, end = items(tokens, at + 1, {"(": ")", "[": "]"}[text])
        return (tuple(found) if text == "(" else found), past_calls(tokens, end)
    raise Unread


def value_of(text):
    """Returns a string as text; bytes keep their values, each as a letter."""
    value = ast.literal_eval(re.sub(r"\\u\{(\w+)\}", lambda it: chr(int(it[1], 16)), text))
    return value.decode("latin-1") if isinstance(value, bytes) else value


def past_calls(tokens, at):
    return next((it for it in range(at, len(tokens)) if tokens[it][0] != "call"), len(tokens))


def items(tokens, at, closing):
    found = []
    while tokens[at][1] != closing:
        item, at = literal(tokens, at)
        found.append(item)
        if tokens[at][1] == ",":
            at += 1
        elif tokens[at][1] != closing:
            raise Unread
    return found, at + 1


def tuples_of(source):
    """Yields each literal tuple of a source that is in no other tuple."""
    tokens, at = [(it.lastgroup, it[0]) for it in TOKEN.finditer(source) if it.lastgroup != "skip"], 0
    while at < len(tokens):
        if tokens[at][1] == "(":
            try:
                found, at = literal(tokens, at)
                yield found
                continue
            except (Unread, IndexError, SyntaxError, ValueError):
                pass
        at += 1


def runs_of(source):
    """Yields the fields of WORD,WORD,..|INPUT|OUTPUT that decide the answer, of each row of a table of runs. A semicolon is a line feed."""
    for status, text in re.findall(r'expect_runs\(\s*&rt,\s*(\d),\s*("(?:[^"\\]|\\.)*")', source):
        for line in value_of(f'""{text}""').split("\n"):
            words, given, output = line.replace(";", "\n").split("|")
            command, *words = [*words.split(",")[1:], ""]
            options = {it: words[words.index(it) + 1] for it in ("--limit", "--goal") if it in words}
            fen = next((it for it in words if " " in it), None)
            searches = (options.get("--limit"), options.get("--goal", "mate")) if command in ("solve", "keys", "tree") else ()
            checks = (given, options.get("--goal", "mate"), status) if command == "check" else ()
            # The tree of a given first move isn't the position's.
            if fen and None not in searches and status != "2" and not any(it.startswith("--first") for it in words):
                yield (*searches, fen, *checks, output)


def named(value, constants):
    """Returns the value with texts in place of their names."""
    if isinstance(value, Word):
        return value if value.of else constants.get(value.name, value)
    return tuple(named(item, constants) for item in value) if isinstance(value, tuple) else value


def shape_of(row):
    """Returns the shape of a tuple with the fields that matter, or None. The arguments of a call of the tests' own make a tuple too."""
    row = [int(it) if isinstance(it, str) and re.fullmatch("[0-9]{1,7}", it) else it for it in row if it != Word("rt")]
    texts, numbers, words, lists = ([it for it in row if isinstance(it, kind)] for kind in (str, int, Word, list))
    fens = [it for it in texts if FEN.fullmatch(it)]
    goal = next((GOALS[it] for it in [word.name for word in words] + texts if it in GOALS), "mate")
    others = [it for it in texts if it not in fens and it not in GOALS]
    if len(fens) == 1 and len(lists) == 2 and len(lists[0]) == 3 and len(words) == 2:
        return "packing", (fens[0], SIDES[words[0].name], goal, row[3], row[4], tuple(lists[0]), tuple(lists[1]))
    if len(fens) == 1 and len(lists) == 1 and not others and len(lists[0]) == 4 and len(row) == 2:
        return "counts", (fens[0], tuple(lists[0]))
    if len(fens) == 1 and len(others) == 2 and len(row) == 3 and all(re.fullmatch(MOVES, it) for it in others):
        return "moves", (fens[0], *(" ".join(it.split()) for it in others))
    if len(fens) == 1 and len(others) == 1 and not lists and all(word.of == "Goal" for word in words):
        return shape_of_answer(fens[0], others[0], numbers, goal, len(row))
    if len(fens) == 1 and len(others) == 2 and len(numbers) == 1 and re.match("yes|no|refused", others[1]):
        return "run", (fens[0], others[0], goal, numbers[0], others[1])
    return shape_of_refusal(row)


def shape_of_answer(fen, text, numbers, goal, length):
    """Returns the shape of a row with a position and one other text."""
    found = re.fullmatch(rf"(?:(?:mate |goal )?(\d+) ({MOVE})|none within (\d+))\n?", text)
    if found and numbers and min(numbers) > 0 and numbers[0] <= 63:
        return "answer", (fen, numbers[0], goal, (int(found[1]), found[2]) if found[1] else None)
    if length == 2 and re.fullmatch(MOVES, text):
        return "moves", (fen, " ".join(text.split()))
    if re.match(rf"{MOVE}[#={{]", text) and length == 4 and len(numbers) == 1:
        return "tree", (fen, text.removesuffix("\n"), goal, numbers[0])
    if re.match(rf"{MOVE}[#={{]", text) and length == 3 and len(numbers) <= 1:
        return "check", (fen, text, goal, numbers[0] if numbers else None)
    return None


def shape_of_refusal(row):
    """Returns the shape of a row with a fault. A line of a batch may have its own limit, and six fields."""
    if len(row) == 2 and isinstance(row[0], str) and isinstance(row[1], Word) and row[1].of == "FenFault":
        return "refusal", (row[0], row[1].name)
    if len(row) == 2 and all(isinstance(it, str) for it in row) and row[1].removesuffix("\n") in REFUSED:
        text = re.sub(r" ; dm (0|[1-9][0-9]?)$", "", row[0])
        six = re.fullmatch(r"([^ ]* [^ ]*) [-KQkq]+ [-a-h1-8]+ [0-9]+ [0-9]+", text)
        return "refusal", (six[1] if six else text, row[1].split()[1])
    return None


def rows():
    for path in sorted({path for pattern in SOURCES for path in glob.glob(os.path.join(TOP, pattern))}):
        with open(path, encoding="utf-8") as file:
            source = file.read()
        constants = {name: value_of(text) for name, text in re.findall(r'const (\w+): &str = ("[^"]*");', source)}
        for kind, all_found in (("tuple", tuples_of(source)), ("run", runs_of(source))):
            for number, found in enumerate(all_found):
                shaped = shape_of(named(found, constants))
                if shaped:
                    yield Row(f"{os.path.relpath(path, TOP)}, {kind} {number}", *shaped)
    for line in bench_lines():
        answer = (line.plies, line.move) if line.plies else None
        where = f"bench/mates/{line.table}.tsv, line {line.number}"
        yield Row(where, "rook" if line.table == "rook" else "answer", (line.fen, line.limit, line.goal, answer))


# Each of these functions returns the row's value and the one that is worked out, or None if the limits above exclude the row.
def of_packing(fen, attacker, goal, below, upto, wanted, slots):
    """Works out the three words of an entry, by the table of bits in docs/reference/formats.md, and the numbers of its slots."""
    position, words = check_tree.read_position(fen.encode()), [0, 0, 0]
    for (file, rank), unit in position.units.items():
        words[rank // 2] |= (CODES.index(unit) + 1) << 4 * (position.width * (rank % 2) + file)
    marks = {48: position.side == "b", 49: attacker == "b", 50: position.width == 5, 51: goal == "stale", 63: True}
    words[0] |= sum(1 << bit for bit, is_set in marks.items() if is_set)
    words[1] |= below << 48
    words[2] |= (255 if upto is None else upto) << 48
    return (wanted, slots), (tuple(words), tuple((it, slot_number(words, it)) for it, _ in slots))


def slot_number(words, slots):
    low = [(words[0], 0), (words[1] & ((1 << 48) - 1), 20), (words[2] & ((1 << 48) - 1), 40)]
    first, second, third = ((word << count | word >> (64 - count)) & MASK for word, count in low)
    return (((first ^ second ^ third) * TURN & MASK) >> 32) % slots


def of_counts(fen, counts):
    position = check_tree.read_position(fen.encode())
    return counts[:DEPTH], tuple(leaves(position, it) for it in range(1, DEPTH + 1))


def of_moves(fen, *wanted):
    position = check_tree.read_position(fen.encode())
    moves = check_tree.lawful(position)
    checks = [it for it in moves if check_tree.in_check(check_tree.after(position, it))]
    return wanted, tuple(" ".join(map(check_tree.move_text, it)) for it in (moves, checks))[: len(wanted)]


def of_answer(fen, limit, goal, answer):
    if (answer[0] if answer else limit) > PLIES:
        return None
    return answer, Search(goal).answer(check_tree.read_position(fen.encode()), min(limit, PLIES))


@functools.lru_cache(maxsize=None)
def rook_table(width):
    module = tool("backward_table")
    tables = module.Tables(width)
    return tables, tables.of(module.units_of("KRK"))


def of_rook(fen, _, __, answer):
    """Returns the fewest plies and the least move that keeps them. The side with the rook becomes White."""
    position = check_tree.read_position(fen.encode())
    tables, plies = rook_table(position.width)
    if position.side == "b":
        position = check_tree.Position(position.width, "w", {square: unit.swapcase() for square, unit in position.units.items()})
    assert sorted(position.units.values()) == sorted("KRk")
    most, after = plies[tables.ways.name(position)], functools.partial(check_tree.after, position)
    best = (it for it in check_tree.lawful(position) if plies.get(tables.ways.name(after(it))) == most - 1)
    return answer, (most, check_tree.move_text(next(best)))


def of_tree(fen, text, goal, limit):
    found = Search(goal).tree(check_tree.read_position(fen.encode()), min(limit, PLIES))
    return None if found is None and limit > PLIES else (text, found)


def of_check(fen, text, goal, plies):
    return plies, check_tree.height(check_tree.read_position(fen.encode()), check_tree.read_tree(text.encode()), goal)


def of_run(fen, text, goal, status, output):
    line, ended = check_tree.answer(fen.encode(), text.encode, goal)
    return (output, status), (line + "\n", ended)


def of_refusal(text, fault):
    with pytest.raises(check_tree.Refused) as refused:
        check_tree.read_position(text.encode("latin-1"))
    return fault, str(refused.value)


WORKED_OUT = {name.removeprefix("of_"): made for name, made in list(globals().items()) if name.startswith("of_")}
PARTS = 8


@pytest.mark.parametrize("part", range(PARTS))
def test_rows(count, part):
    of_part = list(rows())[part::PARTS]
    pairs = {f"{row.where}: {row.shape} {row.fields[0]}": WORKED_OUT[row.shape](*row.fields) for row in of_part}
    worked_out = {name: pair for name, pair in pairs.items() if pair}
    assert worked_out and {name: pair for name, pair in worked_out.items() if pair[0] != pair[1]} == {}
    count(len(worked_out))


def test_every_shape_has_rows(count):
    assert {row.shape for row in rows()} == WORKED_OUT.keys()
    count()
