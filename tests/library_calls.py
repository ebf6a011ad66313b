"""The calls that the tests of the C library, of Python and of the release share, with replies that were worked out by hand."""

import lzma
import os
from typing import NamedTuple

from programs import TOP, bench_lines, run, started

SLOTS = 16381
# The greatest limit that is asked about a position of the bench.
MOST = 5
FIRST, THIRD = "k5/6/1K4/6/6/5R w", "k5/6/2K3/6/6/1R4 w"
# A king alone, which mates nobody; a root of 70 moves; and a search of minutes.
ALONE, WIDE, LONG = "2k2/2p2/2p2/3pp/K4 w", "6/5k/QQ1Q2/4Q1/QQ4/1KQ3 w", "3R2/K5/6/2PR1P/1rk3/1r4 w"
TREE = b"c4c5{a6a5:b1a1#}\n"
CERTIFICATE = b"mate 3 c4c5\np.\naaaaaaaa-aaaaaa\n\n"
DEEP = b"a1a2{b1b2:" * 33
# How a call reports that memory ran out, and how its program in C is run under valgrind.
NO_MEMORY = (0, b"refused: NoMemory\n")
VALGRIND = ["valgrind", "-q", "--error-exitcode=9"]


class Asked(NamedTuple):
    """A call, and the arguments of the command that prints the same reply."""

    word: str
    fen: str
    stale: bool = False
    limit: int = 5
    slots: int = SLOTS
    # The tree of `check`, the certificate of `verify`, the move of `after`.
    tree: bytes = b""

    def __str__(self):
        return f"{self.word} {self.fen} {self.stale} {self.limit} {self.slots} {self.tree[:20]!r}"


# The replies are worked out by hand.
KNOWN = [
    (Asked("solve", FIRST, limit=1), b"mate 1 f1f6\n"),
    (Asked("solve", THIRD, limit=3), b"mate 3 c4c5\n"),
    (Asked("solve", THIRD, stale=True, limit=1), b"goal 1 b1b5\n"),
    (Asked("solve", THIRD, limit=1), b"none within 1\n"),
    (Asked("tree", THIRD, limit=3), TREE),
    (Asked("tree", THIRD, stale=True, limit=3), b"b1b5=\n"),
    (Asked("check", THIRD, tree=TREE), b"yes 3\n"),
    (Asked("check", THIRD, tree=TREE[:-1]), b"yes 3\n"),
    (Asked("check", THIRD, stale=True, tree=b"b1b5="), b"yes 1\n"),
    (Asked("check", THIRD, tree=b"b1b5="), b"no\n"),
    (Asked("verify", THIRD, tree=CERTIFICATE), b"mate 3 c4c5\n"),
    (Asked("verify", THIRD, stale=True, tree=b"goal 1 b1b5\ni\n\n"), b"goal 1 b1b5\n"),
    (Asked("verify", THIRD, tree=b"none within 2\n\n"), b"none within 2\n"),
    (Asked("moves", "k5/2P3/6/6/6/5K w"), b"f1e1\nf1e2\nf1f2\nc5c6q\nc5c6r\nc5c6n\n"),
    (Asked("solve", FIRST, limit=0), b"refused: Limit\n"),
    (Asked("tree", FIRST, limit=64), b"refused: Limit\n"),
    (Asked("solve", FIRST, limit=4294967295), b"refused: Limit\n"),
    (Asked("solve", FIRST, slots=0), b"refused: Slots\n"),
    (Asked("tree", FIRST, slots=1048577), b"refused: Slots\n"),
    (Asked("solve", "k5/6/1K4/6/6/5R"), b"refused: Fields\n"),
    (Asked("moves", "k4R/6/1K4/6/6/6 w"), b"refused: OtherInCheck\n"),
    (Asked("check", "", tree=TREE), b"refused: Fields\n"),
    (Asked("check", THIRD, tree=b""), b"refused: Grammar at offset 0\n"),
    (Asked("verify", "", tree=CERTIFICATE), b"refused: Fields\n"),
    (Asked("verify", THIRD, tree=b""), b"refused: Answer\n"),
    (Asked("verify", THIRD, tree=CERTIFICATE[:-1]), b"refused: Claim at line 4\n"),
    (Asked("verify", THIRD, tree=b"a" * 8193), b"refused: TooLong\n"),
    (Asked("check", THIRD, tree=DEEP), b"refused: Deep\n"),
    (Asked("check", THIRD, tree=b" " * 1048577), b"refused: TooLong\n"),
    (Asked("keys", THIRD, limit=3), b"c4c5 3\n"),
    (Asked("keys", "k4/2P2/1K3/5/5 w", limit=1), b"c4c5q 1\nc4c5r 1\n"),
    (Asked("keys", THIRD, limit=1), b"none within 1\n"),
    (Asked("keys", FIRST, limit=64), b"refused: Limit\n"),
    # as many plies and slots as there may be, a root of 70 moves, and a node of 500 replies
    (Asked("solve", ALONE, limit=63, slots=65521), b"none within 63\n"),
    (Asked("keys", ALONE, limit=63, slots=65521), b"none within 63\n"),
    (Asked("tree", ALONE, limit=63, slots=65521), b"none within 63\n"),
    (Asked("solve", FIRST, limit=63, slots=1048576), b"mate 1 f1f6\n"),
    (Asked("keys", FIRST, limit=1, slots=1048576), b"f1f6 1\n"),
    (Asked("tree", FIRST, limit=63, slots=1048576), b"f1f6#\n"),
    (Asked("solve", WIDE, limit=1), b"mate 1 c1f1\n"),
    (Asked("tree", WIDE, limit=1), b"c1f1#\n"),
    (Asked("check", THIRD, tree=b"c4c5{" + b",".join([b"a3a4:a1a2#"] * 500) + b"}"), b"no\n"),
]

# So are these, which no command of the program prints so.
APART = [
    (Asked("after", THIRD, tree=b"c4c5"), b"k5/2K3/6/6/6/1R4 b\n"),
    (Asked("after", "k5/2P3/6/6/6/5K w", tree=b"c5c6n"), b"k1N3/6/6/6/6/5K b\n"),
    (Asked("after", "k5/2P3/6/6/6/5K w", tree=b"c5c6"), b"refused: Move\n"),
    (Asked("after", THIRD, tree=b"c4c5\n"), b"refused: Move\n"),
    (Asked("after", THIRD, tree=b""), b"refused: Move\n"),
    (Asked("after", "k4R/6/1K4/6/6/6 w", tree=b"f6a6"), b"refused: OtherInCheck\n"),
    (
        Asked("fault", "k5/6/1K4/6/6/5R"),
        b"refused: Fields\nerror: a position has two fields, the board and the side: here is one; write ' w' or ' b' after the board\n",
    ),
    (Asked("fault", "6/6/1K4/6/6/K4R w"), b"refused: Kings\nerror: each side has one king, K and k: here are 2 K and 0 k\n"),
    (Asked("fault", THIRD), b""),
    # bytes that are no UTF-8, and a zero byte, are refused like any others
    (
        Asked("fault", "k5/6/1K4/6/6/5R \udcff"),
        b"refused: Side\nerror: character 17 is not ASCII: write a letter, a digit, / or a space for '\\xff'\n",
    ),
    (Asked("moves", "k5/6/1K4/6/6/5R \udcff"), b"refused: Side\n"),
    (Asked("check", THIRD, tree=b"c4c5\xff"), b"refused: Grammar at offset 4\n"),
    (Asked("check", THIRD, tree=b"c4c5\0"), b"refused: Grammar at offset 4\n"),
    (Asked("after", THIRD, tree=b"c4c5\0"), b"refused: Move\n"),
    (Asked("after", THIRD, tree=b"\xff"), b"refused: Move\n"),
]


def bench_calls():
    """Yields calls about the positions of the bench."""
    for line in bench_lines():
        stale, limit = line.goal == "stale", min(line.limit, MOST)
        for word in ("solve", "keys", "tree", "moves"):
            yield Asked(word, line.fen, stale, limit)
        packed = os.path.join(TOP, "bench", "mates", "certificates", f"{line.number:03}.xz")
        if os.path.exists(packed):
            with lzma.open(packed) as file:
                yield Asked("verify", line.fen, stale, tree=file.read())


def with_replies(program, calls):
    """Yields the calls with what the program prints for each, and after each tree the call that checks it."""
    for asked in calls:
        wanted = program_reply(program, asked)
        yield asked, wanted
        if asked.word == "tree" and not wanted.startswith(b"none"):
            again = asked._replace(word="check", tree=wanted)
            yield again, program_reply(program, again)


def program_reply(program, asked):
    """Returns what the program prints for the call."""
    goal = ["--goal", "stale" if asked.stale else "mate"]
    search = ["--limit", str(asked.limit), "--slots", str(asked.slots)]
    values = {"moves": [], "check": goal, "verify": goal}.get(asked.word, goal + search)
    ran = run(started(program, asked.word, *values, asked.fen), asked.tree)
    assert ran.status in (0, 1) and ran.output, f"{asked}: {ran}"
    return ran.output


def c_words(caller, asked, room):
    return [caller, asked.word, str(int(asked.stale)), str(asked.limit), str(asked.slots), str(room), asked.fen]


def c_reply(caller, asked, room):
    """Returns what the program of library/caller.c prints for the call: bytes, None if the room was too small, or a run that failed."""
    ran = run(c_words(caller, asked, room), asked.tree)
    return {0: ran.output, 3: None}.get(ran.status, ran)


def compiled(folder, library):
    """Returns the path of the program of library/caller.c, made with the static library."""
    made, source = os.path.join(folder, "caller"), os.path.join(TOP, "tests", "library", "caller.c")
    how = ["-std=c11", "-D_POSIX_C_SOURCE=200809L", "-Wall", "-Wextra", "-Werror", "-pthread", "-I", os.path.join(TOP, "include"), "-o", made]
    ran = run(["cc", *how, source, os.path.join(library, "libminimate.a")])
    assert (ran.status, ran.error) == (0, b"")
    return made
