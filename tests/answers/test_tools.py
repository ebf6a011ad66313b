"""Tries tools/verify.py, show_tree, show_certificate and backward_table on cases worked out by hand, and their words."""

import html.parser
import io
import os
import re

import pytest

import check_tree
import verify
from command_lines import THIRD
from programs import TOP, bench_lines, run, tool
from short_moves import SHORT

SHOW_TREE, SHOW_CERTIFICATE, BACKWARD_TABLE = map(tool, ("show_tree", "show_certificate", "backward_table"))
CORNER, KINGS = "k4/2P2/1K3/5/5 w", "k5/6/6/6/6/5K w"


# tools/verify.py. The certificates are written by hand, from lists of moves that the documents give.

MATE, NONE = "mate 3 c4c5\np.\naaaaaaaa-aaaaaa\n\n", "none within 7\naaa\naaaaa\naaaaaaaa\naaaaa\n"
# A position, the goal, the answer, and the certificates that get it; in these a semicolon is a line feed, and `OLD > NEW` a change.
CERTIFICATES = """
CORNER | mate | mate 1 c4c5q | mate 1 c4c5q;f;;
CORNER | mate | refused: Claim at line 3 | mate 1 c4c5r;g;;
CORNER | mate | refused: Claim at line 2 | mate 1 c4c5q;g;; / mate 1 c4c5b;h;;
THIRD | mate | mate 3 c4c5 | MATE
THIRD | stale | refused: Answer | MATE
THIRD | stale | goal 1 b1b5 | goal 1 b1b5;i;;
THIRD | mate | refused: Answer | goal 1 b1b5;i;; / MATE, mate 3 > mate 2 / MATE, c4c5 > c4c7
THIRD | mate | refused: Claim at line 2 | mate 1 b1b5;i;; / none within 1;a; / none within 3;aaaaaaaa-aaaaaaaa; / MATE, mate 3 > mate 1
THIRD | mate | refused: Claim at line 2 | MATE, p. > p / MATE, p. > p.. / MATE, p. > p= / MATE, p. > . / MATE, p. > / MATE, p. > pb
THIRD | mate | refused: Claim at line 2 | MATE, c4c5 > c4c6
THIRD | mate | none within 1 | none within 1;;
THIRD | mate | none within 2 | none within 2;;
THIRD | stale | refused: Claim at line 2 | none within 1;;
THIRD | mate | refused: Claim at line 3 | MATE, mate 3 > mate 5 / MATE, a-a > aaa / MATE, aaaaaaaa- > -aaaaaaaa / MATE, aaaaaaaa- > aaaaaaa-
THIRD | mate | refused: Claim at line 3 | MATE, aaaaaaaa- > baaaaaaa- / MATE, aaaaaaaa- > Zaaaaaaaa-
THIRD | mate | refused: Claim at line 3 | MATE, p.;aaaaaaaa-aaaaaa;; > pa;k;aaaaaaaa-aaaaaa;; / mate 3 c4c5;p.;aaaaaaaa-aaaaaa
THIRD | mate | refused: Claim at line 4 | mate 3 c4c5;p.;aaaaaaaa-aaaaaa;
THIRD | mate | refused: Claim at line 5 | mate 3 c4c5;p.;aaaaaaaa-aaaaaa;;; / mate 3 c4c5;p.;aaaaaaaa-aaaaaa;;a
KINGS | mate | none within 3 | none within 3;aaa;
KINGS | stale | none within 6 | none within 6;aaa;
KINGS | mate | none within 7 | NONE
KINGS | stale | none within 8 | NONE, within 7 > within 8
KINGS | mate | refused: Claim at line 3 | NONE, within 7 > within 5 / none within 7;aaa;refused: NoMemory; / none within 3;aaa;LONG
KINGS | mate | refused: Claim at line 6 | NONE, within 7 > within 9
KINGS | mate | refused: Claim at line 2 | NONE, ;aaa; > ;aaA; / none within 3;LONG;
KINGS | mate | refused: Claim at line 4 | NONE, aaaaaaaa > aaaaaaa
KINGS | mate | refused: Answer | none within 3 /  / ; / none within 0;; / none within 03;aaa; / none within 64;aaa; / none within  3;aaa;
KINGS | mate | refused: Answer | none within 3 ;aaa; / refused: NoMemory; / LONG;
KINGS | mate | refused: TooLong | LONGa; / none within 3;LONGa / none within 3;aaa;LONGa
k5/6/6/6/6/5K | mate | refused: Fields | none within 3;aaa;
KK4/6/6/6/6/5k w | mate | refused: Kings |
"""
NAMED = {"CORNER": CORNER, "THIRD": THIRD, "KINGS": KINGS, "MATE": MATE, "NONE": NONE}


def certificates():
    for line in CERTIFICATES.strip("\n").split("\n"):
        fen, goal, wanted, texts = (it.strip(" ") for it in line.split("|"))
        for text in texts.split(" / "):
            text, _, change = text.replace(";", "\n").replace("LONG", "a" * verify.MOST_BYTES).partition(", ")
            old, _, new = change.partition(" >")
            text = NAMED.get(text, text)
            assert old in text
            yield NAMED.get(fen, fen), text.replace(old, new.strip(" ")) if change else text, goal, wanted


@pytest.mark.parametrize("fen, text, goal, wanted", certificates(), ids=lambda it: it[:60])
def test_the_answer_of_a_certificate(count, fen, text, goal, wanted):
    assert verify.verify(fen.encode(), io.BytesIO(text.encode()), goal) == (wanted, int(wanted.startswith("refused")))
    count()


@pytest.mark.parametrize("fen", [CORNER, THIRD, KINGS])
def test_the_moves_of_both_second_checkers(count, fen):
    rules, board = verify.read_position(fen.encode(), "mate")
    moves = check_tree.lawful(check_tree.read_position(fen.encode()))
    assert [text for text, _ in rules.moves(board)] == [check_tree.move_text(move) for move in moves]
    count()


CLAIMS = [
    (CORNER, "mate 1 c4c5q\nf\n\n", ["mate 1 c4c5q", f"yes 1: {CORNER} within 1 by c4c5q", f"no 1: {CORNER} not within 1"]),
    (KINGS, NONE, [
        "none within 7",
        f"no 1: {KINGS} not within 7: f1e1 a6a5@2, f1e2 a6a5@3, f1f2 a6a5@4",
        "no 2: 6/k5/6/6/6/4K1 w not within 5: e1d1 a5a4, e1f1 a5a4, e1d2 a5a4, e1e2 a5a4, e1f2 a5a4",
        "no 3: 6/k5/6/6/4K1/6 w not within 5: e2d1 a5a4, e2e1 a5a4, e2f1 a5a4, e2d2 a5a4, e2f2 a5a4, e2d3 a5a4, e2e3 a5a4, e2f3 a5a4",
        "no 4: 6/k5/6/6/5K/6 w not within 5: f2e1 a5a4, f2f1 a5a4, f2e2 a5a4, f2e3 a5a4, f2f3 a5a4",
    ]),
    (THIRD, "mate 3 c4c5\np.\naaaa\n", ["mate 3 c4c5", f"yes 1: {THIRD} within 3 by c4c5 against a6a5", "refused: Claim at line 3"]),
    (THIRD, "mate 4 c4c5\n", ["refused: Answer"]),
]


@pytest.mark.parametrize("fen, text, lines", CLAIMS, ids=lambda it: it[:20])
def test_the_claims_of_a_certificate(count, fen, text, lines):
    assert list(SHOW_CERTIFICATE.shown(fen.encode(), io.BytesIO(text.encode()), "mate")) == lines
    count()


def test_a_claim_of_a_stalemate(count):
    assert "b1b5 stalemates, b1b6 a6a5" in list(SHOW_CERTIFICATE.shown(THIRD.encode(), io.BytesIO(MATE.encode()), "mate"))[2]
    count()


SOLUTIONS = [
    (THIRD, "c4c5{a6a5:b1a1#}\n", "White to move: mate in 2 moves (3 plies)", ["1.Kc5", "    1...Ka5 2.Ra1#"]),
    (THIRD, "b1b5=", "White to move: mate or stalemate in 1 move (1 ply)", ["1.Rb5="]),
    ("5r/6/6/1k4/6/K5 b", "f6f1#", "Black to move: mate in 1 move (1 ply)", ["1...Rf1#"]),
    (CORNER, "c4c5q#", "White to move: mate in 1 move (1 ply)", ["1.c5=Q#"]),
    ("1r4/6/6/2k3/6/K5 b", "c3c2{a1a2:b6a6#}", "Black to move: mate in 2 moves (3 plies)", ["1...Kc2", "    2.Ka2 Ra6#"]),
    ("6/1k3n/4R1/5R/6/K5 w", "f3f5{b5a6:e4e6#,b5b6:e4e6#,b5c6:e4e6#}", "White to move: mate in 2 moves (3 plies)",
     ["1.Rxf5+", "    1...Ka6 2.Re6#", "    1...Kb6 2.Re6#", "    1...Kc6 2.Re6#"]),
    ("1k4/5R/6/6/6/2R2K w", "c1e1{b6a6:e1d1{a6b6:d1d6#},b6c6:e1e6#}", "White to move: mate in 3 moves (5 plies)",
     ["1.Re1", "    1...Ka6 2.Rd1", "        2...Kb6 3.Rd6#", "    1...Kc6 2.Re6#"]),
]
REFUSED = [
    ("k5/6/2K3/6/6/1R4", "c4c5#", "refused: Fields\n"),
    (THIRD, "c4c5", "refused: Grammar at offset 4\n"),
    (THIRD, "c4c5#", "the tree doesn't win at this position\n"),
    (THIRD, "c4c6#", "the tree doesn't win at this position\n"),
    (THIRD, "none within 3\n", "there is no tree to show: nothing is forced within 3 plies\n"),
    (THIRD, "none within 1", "there is no tree to show: nothing is forced within 1 ply\n"),
    (THIRD, "none within 3\n\n", "refused: Grammar at offset 0\n"),
    (THIRD, "refused: Limit\n", "there is no tree to show: `minimate tree` answered 'refused: Limit'\n"),
    (THIRD, "", "there is no tree to show: the input is empty\n"),
    ("k5/6/2K3/6/6/1R4", "refused: Fields\n", "refused: Fields\n"),
]
BOARD = " 5  k . . . .\n 4  . . P . .\n 3  . K . . .\n 2  . . . . .\n 1  . . . . .\n    a b c d e"


class Reader(html.parser.HTMLParser):
    """Collects the tags of a page in order of closing, its words, and the attributes by which it would fetch a file."""

    def __init__(self):
        super().__init__()
        self.open, self.closed, self.words, self.fetched, self.is_nested = [], [], [], [], True

    def handle_starttag(self, tag, attributes):
        self.fetched += [name for name, _ in attributes if name in ("src", "href", "srcset", "xlink:href")]
        self.open += [tag] if tag != "meta" else []

    def handle_startendtag(self, tag, attributes):
        self.closed.append(tag)

    def handle_endtag(self, tag):
        self.is_nested &= bool(self.open) and self.open.pop() == tag
        self.closed.append(tag)

    def handle_data(self, data):
        self.words += [data.strip()] if data.strip() else []


@pytest.mark.parametrize("fen, tree, title, lines", SOLUTIONS, ids=[it[1].strip() for it in SOLUTIONS])
def test_a_solution_as_text_and_as_a_page(count, fen, tree, title, lines):
    text, status = SHOW_TREE.shown(fen.encode(), tree.encode(), False)
    assert status == 0
    assert text.split("\n\n")[1:] == [title, "\n".join([*lines, ""])]
    reader = Reader()
    reader.feed(SHOW_TREE.shown(fen.encode(), tree.encode(), True)[0])
    assert (reader.is_nested, reader.open, reader.fetched) == (True, [], [])
    assert reader.closed.count("g") == sum(letter.isalpha() for letter in fen[:-2])
    assert [it for it in [title, *(line.strip() for line in lines)] if it not in reader.words] == []
    folds = 1 + tree.count("{") - (1 if "{" in tree else 0)
    assert (reader.closed.count("details"), reader.closed.count("script")) == (folds, 0)
    count(6)


@pytest.mark.parametrize("fen, tree, why", REFUSED, ids=lambda it: it[:40])
def test_a_tree_that_is_not_shown(count, fen, tree, why):
    assert SHOW_TREE.shown(fen.encode(), tree.encode(), False) == (why, 1)
    count()


@pytest.mark.parametrize("fen, move, wanted", SHORT, ids=[it[2] for it in SHORT])
def test_a_move_in_short(count, fen, move, wanted):
    assert SHOW_TREE.short(check_tree.read_position(fen.encode()), SHOW_TREE.move_of(move)) == wanted
    count()


def test_the_board_as_text_and_drawn(count):
    """Tests which unit stands where, from the last rank down, in which colour, and that a1 is a dark square."""
    assert SHOW_TREE.shown(CORNER.encode(), b"c4c5q#", False)[0].split("\n\n")[0] == BOARD
    drawn = SHOW_TREE.shown(CORNER.encode(), b"c4c5q#", True)[0]
    units = set(re.findall(r'<g transform="translate\((\d+) (\d+)\)" fill="(#\w+)"', drawn))
    assert units == {("44", "4", "#2b2d29"), ("244", "104", "#fff"), ("144", "204", "#fff")}
    dark = set(re.findall(r'<path d="M(\d+) (\d+)h100v100h-100z" fill="#c9cfbf"/>', drawn))
    assert len(dark) == 13
    assert [("44", "404") in dark, ("144", "404") in dark] == [True, False]
    assert drawn.count('<path transform="translate(') == 10
    count(5)


# tools/backward_table. The expected values are those of rook.tsv and of small endings that are known: a lone knight or bishop never mates.

KNOWN = [("KK", 0, None), ("KNK", 0, None), ("KBK", 0, None), ("KRK", None, 19)]
GARDNER = BACKWARD_TABLE.Tables(5)


def worked_out(ending, side, tables=GARDNER):
    return dict(BACKWARD_TABLE.worked_out(tables, ending, side))


@pytest.mark.parametrize("ending, won, most", KNOWN)
def test_the_longest_mate_of_an_ending(count, ending, won, most):
    summary = BACKWARD_TABLE.Summary(BACKWARD_TABLE.worked_out(GARDNER, ending, "w"))
    assert summary.most() == most
    assert won is None or summary.won() == won
    count(2)


def test_placements_of_king_and_rook(count):
    plies = worked_out("KRK", "w")
    lines = [line for line in bench_lines(["rook"]) if line.fen.count("/") == 4 and line.fen in plies]
    assert lines and {line.fen: plies[line.fen] for line in lines} == {line.fen: line.plies for line in lines}
    assert plies["k4/5/1K3/5/4R w"] == 1
    rook = check_tree.read_position(b"k4/5/2K2/5/1R3 w")
    assert BACKWARD_TABLE.Trees(GARDNER).text(rook) == "c3c4{a5a4:b1a1#}"
    # Black captures the rook.
    assert worked_out("KRK", "b")["5/5/3k1/3R1/K4 b"] is None
    count(len(lines) + 3)


@pytest.mark.parametrize("side", "wb")
def test_a_table_with_an_entry_for_each_placement(count, side):
    assert worked_out("KQK", side) == worked_out("KQK", side, BACKWARD_TABLE.Tables(5, is_plain=True))
    count()


TOOLS = ["check_tree.py", "verify.py", "show_tree", "show_certificate", "backward_table"]


@pytest.mark.parametrize("name", TOOLS)
def test_help_starts_nothing(name, tmp_path):
    ran = run([os.path.join(TOP, "tools", name), "--help"], cwd=tmp_path)
    assert (ran.status, ran.output[:6], ran.error, list(tmp_path.iterdir())) == (0, b"usage:", b"", [])
    assert run([os.path.join(TOP, "tools", name)]).status == 2


@pytest.mark.parametrize("name", ["check_tree.py", "verify.py"])
def test_a_second_checker_imports_nothing_of_the_clone(name):
    with open(os.path.join(TOP, "tools", name), encoding="utf-8") as source:
        imported = set(re.findall(r"^ *(?:import|from) ([\w.]+)", source.read(), re.M))
    assert imported and [it for it in imported if os.path.exists(os.path.join(TOP, "tools", f"{it}.py"))] == []
