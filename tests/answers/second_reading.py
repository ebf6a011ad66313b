"""A second reading of command lines, and of their answers, made from docs/ and tools/check_tree.py alone."""

import re
from collections import namedtuple
from typing import NamedTuple, Optional

import check_tree
from plain_search import Search

MOVE = r"[a-f][1-6][a-f][1-6][qrbn]?"
# Above SURE_PLIES, or on boards with more units, only the shape of the answer is compared; above MOST_PLIES a search takes too long.
SURE_PLIES, SURE_UNITS, MOST_PLIES = 1, 8, 5


Line = namedtuple("Line", "command options fen more")
# What a command takes: options with a value, options without, and the number of other words.
Takes = namedtuple("Takes", "values flags words", defaults=[1])
SEARCH = {"limit", "mate", "workers", "slots", "goal"}
COMMANDS = {
    "solve": Takes(SEARCH, {"progress"}),
    "keys": Takes(SEARCH, {"progress"}),
    "tree": Takes(SEARCH | {"first"}, {"progress"}),
    "solution": Takes(SEARCH | {"first"}, {"progress", "set", "tries", "figurines", "short", "json", "svg"}),
    "certify": Takes(SEARCH, {"progress"}),
    "batch": Takes(SEARCH | {"lines", "skip"}, {"progress", "echo", "keys", "json"}, 0),
    "check": Takes({"goal"}, set()),
    "verify": Takes({"goal"}, set()),
    "moves": Takes(set(), set()),
    "show": Takes(set(), {"svg", "unicode", "black"}),
    "after": Takes(set(), set(), 2),
}
DEFAULTS = {"workers": "2", "slots": "64", "goal": "mate"}
# In the order in which they are refused.
LIMITS = {"limit": 63, "workers": 16, "slots": 1048576}
NUMBERS = {*LIMITS, "mate", "lines", "skip"}


def read_words(words):
    """Returns the line that the words mean, or None."""
    try:
        command, *rest = [word.decode() for word in words]
    except (UnicodeDecodeError, ValueError):
        return None
    takes = COMMANDS.get(command)
    found = takes and options_of(rest, takes)
    if not found or len(found[1]) != takes.words:
        return None
    options = {name: text for name, text in {**DEFAULTS, **found[0]}.items() if name in takes.values | takes.flags}
    numbers = [options[name] for name in NUMBERS & options.keys()]
    if options.get("goal", "mate") not in ("mate", "stale") or not all(re.fullmatch(r"\+?[0-9]+", it) and int(it) < 2**32 for it in numbers):
        return None
    if "limit" in takes.values:
        if ("limit" in options) == ("mate" in options):
            return None
        options.setdefault("limit", str(max(0, 2 * int(options.get("mate", "0")) - 1)))
    fen, *more = [*found[1], ""] if takes.words == 0 else found[1]
    return Line(command, options, fen.encode(), more)


def options_of(words, takes):
    """Returns the options by name and the other words, or None if an option is unknown, repeated, lacks its value or has one that it doesn't take."""
    options, others, rest = {}, [], iter(words)
    for word in rest:
        if word == "--":
            return options, [*others, *rest]
        if not word.startswith("-") or word == "-":
            others.append(word)
            continue
        name, equals, value = word[2:].partition("=")
        if not word.startswith("--") or name in options:
            return None
        if name in takes.flags and not equals:
            options[name] = "true"
            continue
        value = value if equals else next(rest, "--")
        if name not in takes.values or not equals and value.startswith("-") and value != "-":
            return None
        options[name] = value
    return options, others


class Said(NamedTuple):
    """The status and the output: text, or a pattern of the whole output if the search was not made here."""

    status: int
    output: str
    is_pattern: bool = False
    # Standard error with status 0; None if it isn't known here.
    error: Optional[str] = ""

    def fits(self, ran):
        output, error = ran.output.decode("utf-8", "replace"), ran.error.decode("utf-8", "replace")
        is_same = re.fullmatch(self.output, output) if self.is_pattern else output == self.output
        is_explained = bool(error) if self.status in (1, 2, 3) else self.error is None or error == self.error
        return ran.status == self.status and is_same and is_explained


def second_answer(words, text):
    """Returns the expected answer; None if the program would search for too long."""
    line = read_words(words)
    if line is None:
        return Said(2, "")
    if line.command == "check":
        answer, status = check_tree.answer(line.fen, lambda: text, line.options["goal"])
        return Said(status, answer + "\n", error=None if answer == "no" else "")
    try:
        position = None if line.command == "batch" else check_tree.read_position(line.fen)
        move = move_named(line, position)
        for name, most in LIMITS.items():
            if name in line.options and not 1 <= int(line.options[name]) <= most:
                raise check_tree.Refused(name.capitalize())
    except check_tree.Refused as fault:
        if line.command == "batch" and "json" in line.options:
            return Said(1, rf'{{"position":null,"refused":"{fault}","sentence":"[^"\n]+"}}\n', True)
        return Said(1, f"refused: {fault}\n")
    if line.command == "moves":
        return Said(0, "".join(check_tree.move_text(it) + "\n" for it in check_tree.lawful(position)), error=over_already(position))
    if line.command == "after":
        return Said(0, check_tree.fen_text(check_tree.after(position, move)) + "\n")
    if line.command == "show":
        return drawn(line, position)
    if line.command == "verify":
        return None  # test_verifiers.py compares its answers.
    if line.command in ("solution", "certify", "batch"):
        return None if int(line.options["limit"]) > MOST_PLIES else Said(0, "(?s:.*)", True, None)
    answer = search_answer(line, position)
    return answer and answer._replace(error=None if "first" in line.options else over_already(position))


def move_named(line, position):
    """Returns the lawful move that the line names, if it names one."""
    name = line.options.get("first", line.more[0] if line.command == "after" else None)
    if name is None or position is None:
        return None
    found = [move for move in check_tree.lawful(position) if check_tree.move_text(move) == name]
    if not found:
        raise check_tree.Refused("Move")
    return found[0]


def drawn(line, position):
    """Returns the board by letters; for other drawings that there is one."""
    if any(line.options.get(flag) for flag in ("svg", "unicode", "black")):
        return Said(0, "(?s:.+)", True)
    files = range(position.width)
    rows = [f" {rank + 1}  " + " ".join(position.units.get((file, rank), ".") for file in files) for rank in reversed(files)]
    side = "White" if position.side == "w" else "Black"
    return Said(0, "\n".join([*rows, "    " + " ".join("abcdef"[: position.width]) + f"      {side} to move"]) + "\n")


def over_already(position):
    """Returns the sentence on a side without a lawful move."""
    if check_tree.lawful(position):
        return ""
    side = "White" if position.side == "w" else "Black"
    return f"{side} is {'mated' if check_tree.in_check(position) else 'stalemated'} already\n"


def search_answer(line, position):
    limit, search = int(line.options["limit"]), Search(line.options["goal"])
    if limit > MOST_PLIES:
        return None
    # The goal can be forced only in an odd number of plies.
    none, odd = f"none within {limit}\n", limit - 1 + limit % 2
    if odd > SURE_PLIES and (odd > 3 or len(position.units) > SURE_UNITS):
        answer = {"solve": rf"(?:mate|goal) \d+ {MOVE}\n", "keys": rf"(?:{MOVE} \d+\n)+"}.get(line.command, r"[a-f][a-f1-6qrbn{}:,#=]*\n")
        return Said(0, f"(?:{answer}|{none})", True)
    if line.command == "keys":
        return Said(0, "".join(f"{move} {plies}\n" for move, plies in search.keys(position, limit)) or none)
    if "first" in line.options:
        return Said(0, rf"(?:{line.options['first']}[a-f1-6qrbn{{}}:,#=]*\n|{none})", True)
    if line.command == "tree":
        tree = search.tree(position, limit)
        return Said(0, tree + "\n" if tree else none)
    answer = search.answer(position, limit)
    return Said(0, f"{'mate' if search.goal == 'mate' else 'goal'} {answer[0]} {answer[1]}\n" if answer else none)
