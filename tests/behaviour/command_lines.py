"""Command lines with their input, status and output, and the positions that the tests of behaviour share.

Expected answers come from tools/check_tree.py, from tests/answers, or from a reading of the pages by hand."""

import re

FIRST, THIRD = "k5/6/1K4/6/6/5R w", "k5/6/2K3/6/6/1R4 w"
START = "rnqknr/pppppp/6/6/PPPPPP/RNQKNR w"
# A king alone mates nobody, and there is little that the other side can do.
ALONE = "2k2/2p2/2p2/3pp/K4 w"
TREE = b"c4c5{a6a5:b1a1#}\n"
# Its letters are places among lawful moves, as docs/reference/formats.md says.
CERTIFICATE = b"mate 3 c4c5\np.\naaaaaaaa-aaaaaa\n\n"
TURNED = """ 1  \u2656 . . . . .
 2  . . . . . .
 3  . . . . . .
 4  . . . . \u2654 .
 5  . . . . . .
 6  . . . . . \u265a
    f e d c b a      White to move
"""
DRAWN = b""" 6  k . . . . .
 5  . . . . . .
 4  . K . . . .
 3  . . . . . .
 2  . . . . . .
 1  . . . . . R
    a b c d e f      White to move
"""
# The first moves that mate within three plies, as the search of all moves in tests/answers has them.
KEYS = b"f1d1 3\nf1e1 3\nf1f2 3\nf1f3 3\nf1f4 3\nf1f5 3\nf1f6 1\nb4c5 3\n"
MOST_INPUT = 1 << 20
# A search of some seconds, its answer, which another program confirms, and its rounds.
SLOW, SLOW_WORDS, SLOW_ANSWER, SLOW_NONE = START, ["--slots", "4096", "--limit", "15"], b"none within 15\n", range(1, 16, 2)
# A search that ends long before its first progress line is due.
SHORT_LIMIT = "3"
SIGN = re.compile(rb"\r\x1b\[\?7l(\d+) s, (line 1, )?(?:none within (\d+), )?round (\d+): (?:move (\d+) of (\d+), (\w+)|(\w+) wins)(?:; --slots 1048573 may be faster)?\x1b\[K\x1b\[\?7h")
# The seconds of a progress line, and whether it advises --slots, which it does after ADVISED_AFTER seconds over a small table.
ADVICE, ADVISED_AFTER = re.compile(rb"\r\x1b\[\?7l(\d+) s, [^\x1b\r]*?(; --slots 1048573 may be faster)?\x1b\[K"), 10
# A root of 70 moves, 27 of which mate. White mates in it at once; what the moves are, tools/check_tree.py says.
WIDE = "6/5k/QQ1Q2/4Q1/QQ4/1KQ3 w"
# The greatest table takes more memory than this, a small one less.
LITTLE_MEMORY = 30 << 20
# LITTLE_STACK is room for the deepest runs, and NO_STACK for none. docs/project/measurements.md says how much they take.
LITTLE_STACK, NO_STACK = 512 << 10, 16 << 10
# Searches within the most plies that are over soon: mates of 45, 39 and 23 plies, one of 11 among 19 units, and two positions that hold none, in
# the second of which the defender has 55 moves.
DEEP_WORDS = ["--limit", "63", "--slots", "131071"]
DEEP = [
    ("3k2/3p2/3P1p/5P/6/5K b", ["solve"]),
    ("6/k5/6/6/K3P1/6 w", ["keys", "certify"]),
    ("6/R5/1k4/6/6/K5 w", ["tree", "certify"]),
    ("1r1kr1/1pqp1p/3p2/P2PP1/P1PKnP/RN2R1 b", ["solve", "tree", "certify"]),
    (ALONE, ["solve", "keys", "tree", "solution", "certify"]),
    ("1q1nq1/1r1k2/q5/3K2/rr3q/5n w", ["solve", "keys", "tree", "certify"]),
]
# A winning tree of 63 plies, the most that are read: White's king goes to and fro, Black's has one move each time, and then it is mated.
TALL, TALLEST = "6/k5/5R/6/6/1R2K1 w", b"e1f1{a5a6:f1e1{a6a5:" * 15 + b"e1f1{a5a6:f4a4#" + b"}" * 31
# Lines of a batch that are all answered or copied, and the output for them.
BATCH = b"# three\n\n" + THIRD.encode() + b"\r\n" + FIRST.encode() + b"\n" + b"k5/6/6/6/6/5K w"
REPLIES = b"# three\n\nmate 3 c4c5\nmate 1 f1f6\nnone within 3\n"
# The same as JSON: comments are left out.
OBJECTS = (
    b'{"line":3,"position":"k5/6/2K3/6/6/1R4 w","goal":"mate","limit":3,"answer":"mate","plies":3,"first":"c4c5"}\n'
    b'{"line":4,"position":"k5/6/1K4/6/6/5R w","goal":"mate","limit":3,"answer":"mate","plies":1,"first":"f1f6"}\n'
    b'{"line":5,"position":"k5/6/6/6/6/5K w","goal":"mate","limit":3,"answer":"none","plies":null,"first":null}\n'
)
# A batch that is refused as a whole.
REFUSED_BATCH = b'{"position":null,"refused":"Limit","sentence":"--limit is 1 to 63 plies: a mate in M moves is --limit 2M-1, or --mate M, 1 to 32"}\n'
# With Black to move there is no mate at once; the key threatens mate on the a-file, and there is one reply.
SOLUTION = b"mate in 2\nno set play\n1.Kc5! threat 2.Ra1#\n  1...Ka5 2.Ra1#\n"
# Diagrams of problems: the goal, the position, its stipulation and its keys.
CAPTIONED = [
    ("mate", THIRD, ("#2", " 1.Kc5")),
    ("mate", "k4/2P2/1K3/5/5 w", ("#1", " 1.c5=Q# 1.c5=R#")),
    ("stale", THIRD, ("=1", " 1.Rb5=")),
]
WHOLE_SOLUTION = b"""\
mate in 3
1.Kc3! threat 2.Re5#
  1...Kb5 2.Ra1 zugzwang
    2...Kc5 3.Ra5#
  1...Kd5 2.Re2 zugzwang, dual 2.Re3
    2...Kc5 3.Re5#
"""

COMMANDS = ["solve", "keys", "tree", "solution", "check", "verify", "certify", "moves", "show", "after", "batch"]
# Arguments, input, status and output. Standard error has a text only with status 1, 2 and 3.
ANSWERS = [
    ("an answer", ["solve", "--limit", "1", FIRST], b"", 0, b"mate 1 f1f6\n"),
    ("options after the position", ["solve", THIRD, "--limit=3", "--workers=1", "--slots", "1"], b"", 0, b"mate 3 c4c5\n"),
    ("no mate", ["solve", "--limit", "2", THIRD], b"", 0, b"none within 2\n"),
    ("another goal", ["solve", "--goal", "stale", "--limit", "1", THIRD], b"", 0, b"goal 1 b1b5\n"),
    ("keys", ["keys", "--limit", "3", FIRST], b"", 0, KEYS),
    ("no keys", ["keys", "--limit", "2", THIRD], b"", 0, b"none within 2\n"),
    ("keys for another goal", ["keys", "--goal=stale", "--limit", "2", THIRD], b"", 0, b"b1b5 1\n"),
    ("a refused limit of keys", ["keys", "--limit", "64", FIRST], b"", 1, b"refused: Limit\n"),
    ("keys of a refused position", ["keys", "--limit", "64", "k5 w"], b"", 1, b"refused: Shape\n"),
    ("keys without a limit", ["keys", FIRST], b"", 2, b""),
    ("a mate in two moves", ["solve", "--mate", "2", THIRD], b"", 0, b"mate 3 c4c5\n"),
    ("no mate in so many moves", ["keys", "--mate=3", "k5/6/6/6/6/5K w"], b"", 0, b"none within 5\n"),
    ("no move", ["solve", "--mate", "0", FIRST], b"", 1, b"refused: Limit\n"),
    ("33 moves", ["batch", "--mate", "33"], BATCH, 1, b"refused: Limit\n"),
    ("limits in plies and in moves", ["solve", "--limit", "3", "--mate", "2", THIRD], b"", 2, b""),
    ("a move", ["after", THIRD, "c4c5"], b"", 0, b"k5/2K3/6/6/6/1R4 b\n"),
    ("a move that isn't lawful", ["after", THIRD, "c4c6"], b"", 1, b"refused: Move\n"),
    ("a move at a refused position", ["after", "k5 w", "c4c5"], b"", 1, b"refused: Shape\n"),
    ("a position without a move", ["after", THIRD], b"", 2, b""),
    ("a board", ["show", FIRST], b"", 0, DRAWN),
    ("a board as Black sees it, by symbols", ["show", "--unicode", "--black", FIRST], b"", 0, TURNED.encode()),
    ("a batch", ["batch", "--limit", "3"], BATCH, 0, REPLIES),
    ("a batch of nothing", ["batch", "--limit", "3"], b"", 0, b""),
    ("a batch behind lines that are left out", ["batch", "--limit", "3", "--skip", "3"], BATCH, 0, b"mate 1 f1f6\nnone within 3\n"),
    ("a batch of which all lines are left out", ["batch", "--limit", "3", "--skip=4294967295"], BATCH, 0, b""),
    ("lines left out that are no number", ["batch", "--limit", "3", "--skip", "x"], BATCH, 2, b""),
    ("too many lines left out for a number", ["batch", "--limit", "3", "--skip", "4294967296"], BATCH, 2, b""),
    ("lines left out where there are none", ["solve", "--limit", "3", "--skip", "1", FIRST], b"", 2, b""),
    ("keys of a batch", ["batch", "--limit", "1", "--keys"], b"k4/2P2/1K3/5/5 w\n" + THIRD.encode(), 0, b"c4c5q 1,c4c5r 1\nnone within 1\n"),
    ("moves behind a position", ["batch", "--limit", "1"], THIRD.encode() + b" ; dm 2\n" + FIRST.encode() + b" ; dm 2\n", 0, b"mate 3 c4c5 ok\nmate 1 f1f6 differs\n"),
    ("objects of a batch", ["batch", "--limit", "3", "--json"], BATCH, 0, OBJECTS),
    ("a refused batch as an object", ["batch", "--limit", "0", "--json"], BATCH, 1, REFUSED_BATCH),
    ("a tree of a first move", ["tree", "--limit", "3", "--first", "f1f2", FIRST], b"", 0, b"f1f2{a6b6:f2f6#}\n"),
    ("no tree of a first move", ["tree", "--limit", "3", "--first", "f1a1", FIRST], b"", 0, b"none within 3\n"),
    ("a first move that isn't lawful", ["tree", "--limit", "3", "--first", "f1a2", FIRST], b"", 1, b"refused: Move\n"),
    ("a solution", ["solution", "--mate", "2", "--set", THIRD], b"", 0, SOLUTION),
    ("a solution in the short form", ["solution", "--mate", "2", "--set", "--short", THIRD], b"", 0, SOLUTION),
    ("a whole solution", ["solution", "--mate", "3", "2k2/5/5/2K2/4R w"], b"", 0, WHOLE_SOLUTION),
    ("no solution", ["solution", "--limit", "2", THIRD], b"", 0, b"none within 2\n"),
    ("a first move of a solution", ["solution", "--mate", "2", "--first", "b1b2", THIRD], b"", 0, b"1.Rb2? zugzwang\n  but 1...Ka5!\n"),
    ("a key of a solution", ["solution", "--mate", "2", "--first", "c4c5", THIRD], b"", 0, SOLUTION.partition(b"play\n")[2]),
    ("a first move that stalemates", ["solution", "--mate", "2", "--first", "b1b5", THIRD], b"", 0, b"1.Rb5? stalemate\n"),
    ("a first move of no solution", ["solution", "--limit", "2", "--first", "c4c5", THIRD], b"", 0, b"none within 2\n"),
    ("a first move of a solution that isn't lawful", ["solution", "--limit", "64", "--first", "c4c6", THIRD], b"", 1, b"refused: Move\n"),
    ("a first move within no limit", ["solution", "--limit", "64", "--first", "c4c5", THIRD], b"", 1, b"refused: Limit\n"),
    ("no diagram", ["solution", "--limit", "2", "--svg", THIRD], b"", 0, b"none within 2\n"),
    ("cooks", ["solution", "--limit", "1", "k4/2P2/1K3/5/5 w"], b"", 0, b"mate in 1, cooked by 1 key\n1.c5=Q#!\n1.c5=R#!\n"),
    ("a solution of a refused position", ["solution", "--limit", "1", "k5 w"], b"", 1, b"refused: Shape\n"),
    ("a solution without a limit", ["solution", FIRST], b"", 2, b""),
    ("a batch whose limits are refused", ["batch", "--limit", "64"], BATCH, 1, b"refused: Limit\n"),
    ("a batch with a position", ["batch", "--limit", "3", FIRST], b"", 2, b""),
    ("a board of a refused position", ["show", "6/6/6/6/6/5K w"], b"", 1, b"refused: Kings\n"),
    ("a tree", ["tree", "--limit", "3", THIRD], b"", 0, TREE),
    ("a tree that wins", ["check", THIRD], TREE, 0, b"yes 3\n"),
    ("a tree that doesn't win", ["check", THIRD], b"c4c5#", 0, b"no\n"),
    ("keys within the most plies", ["keys", "--limit", "63", "--slots", "65521", ALONE], b"", 0, b"none within 63\n"),
    ("a tree within the most plies", ["tree", "--limit", "63", "--slots", "65521", ALONE], b"", 0, b"none within 63\n"),
    ("a solve within the most plies", ["solve", "--limit", "63", "--slots", "65521", ALONE], b"", 0, b"none within 63\n"),
    ("a refused position", ["moves", "6/6/6/6/6/5K w"], b"", 1, b"refused: Kings\n"),
    ("an empty position", ["moves", ""], b"", 1, b"refused: Fields\n"),
    ("a refused limit", ["solve", "--limit", "64", FIRST], b"", 1, b"refused: Limit\n"),
    ("a limit of -0, which is the number 0", ["solve", "--limit=-0", FIRST], b"", 1, b"refused: Limit\n"),
    ("-0 as a word of its own, which is no option", ["solve", "--limit", "-0", FIRST], b"", 2, b""),
    ("refused workers", ["solve", "--limit", "1", "--workers", "17", FIRST], b"", 1, b"refused: Workers\n"),
    ("refused slots", ["solve", "--limit", "1", "--slots", "0", FIRST], b"", 1, b"refused: Slots\n"),
    ("a tree's fault", ["check", THIRD], b"c4c5{}", 1, b"refused: Grammar at offset 5\n"),
    ("no input", ["check", THIRD], b"", 1, b"refused: Grammar at offset 0\n"),
    ("as much input as is taken", ["check", THIRD], b"a" * MOST_INPUT, 1, b"refused: Grammar at offset 1\n"),
    ("more input than is taken", ["check", THIRD], b"a" * (MOST_INPUT + 1), 1, b"refused: TooLong\n"),
    ("a certificate", ["verify", THIRD], CERTIFICATE, 0, b"mate 3 c4c5\n"),
    ("a certificate for another goal", ["verify", "--goal=stale", THIRD], CERTIFICATE, 1, b"refused: Answer\n"),
    ("a certificate that is cut off", ["verify", THIRD], CERTIFICATE[:-1], 1, b"refused: Claim at line 4\n"),
    ("a certificate of a mate at once", ["certify", "--limit", "1", FIRST], b"", 0, b"mate 1 f1f6\nj\n\n"),
    ("a certificate's position that is refused", ["certify", "--limit", "1", "k5 w"], b"", 1, b"refused: Shape\n"),
    ("a certificate's limit that is refused", ["certify", "--limit", "64", FIRST], b"", 1, b"refused: Limit\n"),
    ("a certificate without a limit", ["certify", FIRST], b"", 2, b""),
    ("no words", [], b"", 2, b""),
    ("an unknown command", ["mate", FIRST], b"", 2, b""),
    ("no limit", ["solve", FIRST], b"", 2, b""),
    ("a limit that is no number", ["solve", "--limit", "x", FIRST], b"", 2, b""),
    ("a limit that is too great a number", ["solve", "--limit", "4294967296", FIRST], b"", 2, b""),
    ("two positions", ["moves", FIRST, THIRD], b"", 2, b""),
    ("help", ["--help"], b"", 2, b""),
    ("help for a command", ["solve", "--help"], b"", 2, b""),
    ("a command word that isn't UTF-8", [b"\xff"], b"", 2, b""),
    ("a position that isn't UTF-8", ["moves", b"k5/6/6/6/6/5K\xff w"], b"", 2, b""),
    ("a value that isn't UTF-8", ["solve", "--limit", b"1\x80", FIRST], b"", 2, b""),
    ("a goal that isn't UTF-8", ["check", "--goal", b"mate\xc3", FIRST], b"c4c5#", 2, b""),
]
# Arguments that end with status 2, and what standard error has to contain.
EXPLAINED = [
    ("an unknown goal is named as the fault", ["solve", "--limit", "1", "--goal", "draw", FIRST], [b"goal", b"mate", b"stale"]),
    ("an unknown goal of check", ["check", "--goal", "Mate", FIRST], [b"goal", b"mate", b"stale"]),
    ("a word that isn't UTF-8 is named as the fault", ["moves", b"\xff"], [b"UTF-8"]),
    ("the help names each command", ["--help"], [it.encode() for it in COMMANDS]),
    ("the help of solve names each option", ["solve", "--help"], [b"--limit", b"--workers", b"--slots", b"--goal"]),
    ("the version names the program", ["--version"], [b"minimate"]),
    ("an unknown option is named", ["moves", "--depth", FIRST], [b"--depth"]),
    ("no limit is told", ["solve", FIRST], [b"error: a search has a limit: add --limit 3"]),
    ("two limits are told", ["tree", "--mate", "2", "--limit", "3", FIRST], [b"error: --limit and --mate say the same: leave one"]),
    ("a number with a point", ["solve", "--limit", "1.5", FIRST], [b"error: --limit is a number from 1 to 63: write 3 in place of '1.5'"]),
    ("a size for slots", ["solve", "--limit=1", "--slots=64M", FIRST], [b"error: --slots is a number from 1 to 1048576: write 1048573 in place"]),
    ("a limit without its option", ["solve", "1", FIRST], [b"error: a limit comes after its option: write '--limit 1' in place of '1'"]),
    ("--moves", ["keys", "--moves", "2", FIRST], [b"error: moves of the attacker are counted by --mate: write --mate in place of --moves"]),
    ("a command with dashes", ["--moves", FIRST], [b"error: moves is a command: write it without dashes"]),
    ("--mate where nothing is searched", ["check", "--mate", "2", FIRST], [b"error: check makes no search: leave out --mate 2"]),
    ("a batch with a file", ["batch", "--limit=3", "positions"], [b"error: batch reads positions from its input: write '< positions'"]),
    ("a position that isn't quoted", ["moves", *FIRST.split()], [b"quote it: '" + FIRST.encode() + b"'"]),
    ("a position of six fields that isn't quoted", ["solve", "--limit=1", *FIRST.split(), "-", "-"], [b"quote it: '" + FIRST.encode() + b"'"]),
    ("a position that isn't quoted, with options between", ["check", "--goal", "mate", *FIRST.split()], [b"quote it: '" + FIRST.encode() + b"'"]),
]
# Arguments that ask for help, and further arguments after them, which are wrong.
HELPED = [
    (["solve", "-h"], ["--limit"]),
    (["solve", "--help"], ["--limit", "1.5", FIRST]),
    (["keys", "-h"], ["--slots", "64M"]),
    (["batch", "--help"], ["--lines"]),
    (["verify", "-h"], ["--mate", "2"]),
    (["certify", "-h"], ["--mate"]),
    (["moves", "--help"], FIRST.split()),
    (["-h"], ["--bad"]),
    (["--version"], ["--limit"]),
    (["solve", "-h"], []),
]
# Shell lines, in which $minimate is the program that has the command, with status and output.
SHELL_LINES = [
    ("a pipe from tree to check", f"$minimate tree --limit 3 '{THIRD}' | $minimate check '{THIRD}'", 0, b"yes 3\n"),
    ("a tree from a file", f"printf 'c4c5{{a6a5:b1a1#}}' > tree; $minimate check '{THIRD}' < tree", 0, b"yes 3\n"),
    ("a refused position leaves the input", f"printf rest | {{ $minimate check 'k5 w'; cat; }}", 0, b"refused: Shape\nrest"),
    ("solve leaves the input", f"printf rest | {{ $minimate solve --limit 1 '{FIRST}'; cat; }}", 0, b"mate 1 f1f6\nrest"),
    ("a refused position of a certificate leaves the input", f"printf rest | {{ $minimate verify 'k5 w'; cat; }}", 0, b"refused: Shape\nrest"),
    ("a certificate is made and verified", f"$minimate certify --limit 3 '{THIRD}' | $minimate verify '{THIRD}'", 0, b"mate 3 c4c5\n"),
    ("none within is certified", f"$minimate certify --limit 2 '{THIRD}' | $minimate verify '{THIRD}'", 0, b"none within 2\n"),
    ("a goal stale is certified", f"$minimate certify --goal stale --limit 3 '{THIRD}' | $minimate verify --goal stale '{THIRD}'", 0, b"goal 1 b1b5\n"),
    ("a full output of a certificate", f"$minimate certify --limit 3 '{THIRD}' > /dev/full", 4, b""),
    ("a certificate that can't be read", f"$minimate verify '{THIRD}' < /", 4, b""),
    ("a certificate from a closed input", f"$minimate verify '{THIRD}' <&-", 4, b""),
    ("a full output", f"$minimate moves '{FIRST}' > /dev/full", 4, b""),
    ("a full output of a batch", f"printf '{FIRST}\\n' | $minimate batch --limit 1 > /dev/full", 4, b""),
    ("a folder in place of a batch's input, with lines left out", "$minimate batch --limit 1 --skip 2 < /", 4, b""),
    ("a full output of a refusal", "$minimate moves 'k5 w' > /dev/full", 4, b""),
    ("a closed output", f"$minimate moves '{FIRST}' >&-", 4, b""),
    ("an input that can't be read", f"$minimate check '{THIRD}' < /", 4, b""),
    ("a full standard error", "$minimate --help 2> /dev/full", 2, b""),
    ("a closed standard error", "$minimate --help 2>&-", 2, b""),
    ("an empty environment", f"env -i $minimate solve --limit 1 '{FIRST}'", 0, b"mate 1 f1f6\n"),
    ("another folder", f"cd / && $minimate solve --limit 1 '{FIRST}'", 0, b"mate 1 f1f6\n"),
    ("no folder", f"mkdir gone && cd gone && rmdir ../gone && $minimate solve --limit 1 '{FIRST}'", 0, b"mate 1 f1f6\n"),
    ("a closed input", f"$minimate check '{THIRD}' <&-", 4, b""),
    ("a closed input that isn't asked", f"$minimate solve --limit 1 '{FIRST}' <&-", 0, b"mate 1 f1f6\n"),
]
# How a sentence on a goal or a limit begins: the parser has accepted such arguments.
OF_VALUES = (b"error: --goal is mate or stale", b"error: a search has a limit", b"error: --limit and --mate")
