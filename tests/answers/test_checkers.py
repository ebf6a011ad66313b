"""Compares `minimate check` with tools/check_tree.py, on the trees of the bench and on texts changed from them, nearly all of them wrong.

The tree itself has to win in the table's plies and begin with the table's move; of a tree above 1,048,576 bytes the program has to print that it
is too long. The longer a tree, the fewer texts are changed from it. If a tree doesn't win, the flaw that `check` reports has to be one. A tree of
cases.tsv has to be there within a minute; a later one of another table is left out. CHECKERS_SEED names other lots, CHECKERS_CHANGED the number of
changed texts a kind."""

import itertools
import os
import random
import re

import pytest

import check_tree
from asked import OTHER_GOAL, SECONDS, Asked, goal_words
from changed_texts import changed_bytes, changed_positions
from check_tree import move_text
from programs import bench_lines, run

SEED, CHANGED = os.environ.get("CHECKERS_SEED", "1"), int(os.environ.get("CHECKERS_CHANGED", "4"))
# How many bytes the texts changed from one tree have together, about, and the least number of these texts.
CHANGED_BYTES, FEWEST_CHANGED = 300_000, 2
# Bytes that occur in trees, and some that never do.
BYTES = b"abcdefg01234567qrbnkN#={}:, \n\x00\xff"
REPORT = re.compile(r"the tree is wrong at((?: [a-f][1-6][a-f][1-6][qrbn]?)+): (.*)\n")


def opened(tree):
    """Returns a tree as a list, whose parts can be changed: its move, its end or "", its replies, each a list of a reply and a tree."""
    return [tree.move, tree.end, [[reply, opened(below)] for reply, below in tree.replies]]


def written(tree):
    move, end, replies = tree
    return move + (end or "{" + ",".join(f"{reply}:{written(below)}" for reply, below in replies) + "}")


def nodes(tree):
    yield tree
    for _, below in tree[2]:
        yield from nodes(below)


# The changes of a node with replies, of one that ends its line, and of either.
OF_REPLIES, OF_ENDS, OF_ALL = "leave-out swap-replies swap-trees repeat-reply change-reply end-here", "turn-end go-on", "change-move change-promotion"
CHANGES = {True: OF_REPLIES, False: OF_ENDS, None: OF_ALL}


def change(chance, node, what):
    """Changes a node in place."""
    move, end, replies = node
    if what == "leave-out":
        del replies[chance.randrange(len(replies))]
    elif what == "swap-replies" and len(replies) > 1:
        first, second = chance.sample(range(len(replies)), 2)
        replies[first], replies[second] = replies[second], replies[first]
    elif what == "swap-trees" and len(replies) > 1:
        first, second = chance.sample(replies, 2)
        first[1], second[1] = second[1], first[1]
    elif what == "repeat-reply":
        place = chance.randrange(len(replies))
        replies.insert(place + chance.randrange(2), list(replies[place]))
    elif what == "change-reply":
        chance.choice(replies)[0] = any_move(chance)
    elif what == "end-here":
        node[1:] = [chance.choice("#="), []]
    elif what == "turn-end":
        node[1] = {"#": "=", "=": "#"}[end]
    elif what == "go-on":
        node[1:] = ["", [[any_move(chance), [any_move(chance), "#", []]]]]
    elif what == "change-move":
        node[0] = any_move(chance)
    elif what == "change-promotion":
        node[0] = move[:4] + chance.choice([kind for kind in ("", "q", "r", "b", "n") if kind != move[4:]])


def any_move(chance):
    squares = [chance.choice("abcdef") + chance.choice("123456") for _ in "ft"]
    return "".join(squares) + chance.choice(["", "", "", "q", "n"])


def changed_trees(chance, tree, count):
    """Yields each change, made so often at nodes drawn by lot."""
    for has_replies, what in [(has_replies, what) for has_replies, names in CHANGES.items() for what in names.split() for _ in range(count)]:
        copy = opened(tree)
        fitting = [node for node in nodes(copy) if has_replies is None or bool(node[2]) == has_replies]
        if fitting:
            change(chance, chance.choice(fitting), what)
            yield what, written(copy).encode()


def other_texts(chance, tree, text, position, count):
    """Yields the tree with another lawful first move; nested trees about as deep as one may be, whole and not; line ends; inputs about as long as
    one may be."""
    moves = [move_text(move) for move in check_tree.lawful(position)]
    for move in chance.sample(moves, min(count, len(moves))):
        yield "other lawful move", written([move, *opened(tree)[1:]]).encode()
        yield "other lawful move ends the line", move.encode() + chance.choice([b"#", b"="])
    for _ in range(count):
        yield from changed_bytes(chance, text, BYTES)
    for depth in (30, 31, 32, 33, 40):
        deep = b"a1a2{a1a2:" * depth
        yield from (("nested", deep + text + b"}" * depth), ("nested and cut", deep), ("nested and wrong at the end", deep + b"a1a2#}x"))
    yield from (("a line feed", text + b"\n"), ("two line feeds", text + b"\n\n"), ("a carriage return", text + b"\r\n"), ("no bytes", b""))
    for length in (check_tree.MOST_BYTES - 1, check_tree.MOST_BYTES, check_tree.MOST_BYTES + 1):
        yield "long", text + b"\n" * (length - len(text))


def played(position, name):
    """Returns the position after the lawful move of this name, or None."""
    return next((check_tree.after(position, m) for m in check_tree.lawful(position) if move_text(m) == name), None)


def is_so(position, tree, goal, reason):
    """Decides whether this is wrong with the tree's first move."""
    defended = played(position, tree.move)
    if defended is None:
        return reason == "that move isn't lawful"
    replies, listed = [move_text(m) for m in check_tree.lawful(defended)], [reply for reply, _ in tree.replies]
    is_over, checked = not replies, check_tree.in_check(defended)
    if tree.end:
        return {
            "it ends with #, and there is no mate": tree.end == "#" and not (is_over and checked),
            "it ends with =, and there is no stalemate": tree.end == "=" and not (is_over and not checked),
            "it ends with =, and the goal is mate: add --goal stale": tree.end == "=" and goal == "mate",
        }.get(reason, False)
    reply, _, what = reason.removeprefix("the reply ").partition(" ")
    is_misplaced = any(name == reply and replies[at : at + 1] != [reply] for at, name in enumerate(listed))
    return reason.startswith("the reply ") and {
        "is left out": reply in replies and reply not in listed,
        "isn't lawful": reply in listed and reply not in replies,
        "isn't at its place: write each once, in the order of `moves`": reply in replies and is_misplaced,
    }.get(what, False)


def is_flaw(position, tree, goal, line, reason):
    """Decides whether the tree is wrong at the last of these moves, of the attacker and the defender in turn, for this reason."""
    if position is None or not line or tree.move != line[0]:
        return False
    if len(line) == 1:
        return is_so(position, tree, goal, reason)
    defended = played(position, line[0])
    below = [below for reply, below in tree.replies if reply == line[1]]
    return defended is not None and any(is_flaw(played(defended, line[1]), it, goal, line[2:], reason) for it in below)


class Comparison(Asked):
    def compare(self, what, fen, goal, text):
        """Compares both answers, and checks a reported flaw. Returns the second checker's answer."""
        line, error = self.ask(what, fen, goal, text)
        if line == "no":
            report = REPORT.fullmatch(error)
            tree, position = check_tree.read_tree(text.removesuffix(b"\n")), check_tree.read_position(fen.encode())
            self.note(report and is_flaw(position, tree, goal, report[1].split(), report[2]), what, fen, goal, error, text)
        return line

    def compare_changed(self, chance, goal, fen, text):
        """Compares texts changed from the tree's, and the tree's own text for the other goal and at other positions."""
        tree, position = check_tree.read_tree(text), check_tree.read_position(fen.encode())
        most = max(FEWEST_CHANGED, CHANGED_BYTES // len(text))
        count = CHANGED if most > 100 else 1
        texts = itertools.chain(changed_trees(chance, tree, count), other_texts(chance, tree, text, position, count))
        tries = [(what, fen, goal, changed) for what, changed in texts]
        tries.append(("the other goal", fen, OTHER_GOAL[goal], text))
        tries += [("another position", other, goal, text) for other in changed_positions(chance, fen, count)]
        for it in tries if len(tries) <= most else chance.sample(tries, most):
            self.compare(*it)


@pytest.mark.parametrize("line", [it for it in bench_lines() if it.plies is not None], ids=lambda it: f"line {it.number}")
def test_both_checkers_agree(program, count, line):
    words = ["--limit", str(line.limit), "--slots", "1048573", *goal_words(line.goal), line.fen]
    ran, comparison = run([program, "tree", *words], timeout=SECONDS), Comparison(program, "check", check_tree.answer)
    assert ran.status == 0 or (ran.status is None and line.table != "cases")
    if ran.status is None:
        return
    is_long = len(ran.output) > check_tree.MOST_BYTES
    said = comparison.compare("the tree", line.fen, line.goal, ran.output if is_long else ran.output.removesuffix(b"\n"))
    if not is_long:
        assert re.match(rb"[a-f]\d[a-f]\d[qrbn]?", ran.output)[0] == line.move.encode()
        assert said == f"yes {line.plies}"
        comparison.compare_changed(random.Random(f"{SEED} {line.number}"), line.goal, line.fen, ran.output.removesuffix(b"\n"))
    assert comparison.differ == []
    count(comparison.made + (1 if is_long else 3))
