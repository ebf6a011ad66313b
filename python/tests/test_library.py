"""The package over the library: answers of the bench, which independent programs worked out, refusals as the documents have them, and
values that were worked out by hand."""

import csv
import os
import re
import subprocess
import sys
import unittest
from unittest import mock

import minimate
from minimate import Answer, Game, Key, Move, Position, Refused, Solver, _calls, living, verify

TOP = os.path.dirname(os.path.dirname(os.path.dirname(os.path.abspath(__file__))))
ROOK, PAWN, PROMOTES = "k5/6/2K3/6/6/1R4 w", "k4/2P2/1K3/5/5 w", "k5/2P3/6/6/6/5K w"
TREE = ("c4c5", (("a6a5", ("b1a1", "#")),))
CERTIFICATE = b"mate 3 c4c5\np.\naaaaaaaa-aaaaaa\n\n"
# Searches of the tests go no farther than so many plies.
MOST = 5


def has_library():
    try:
        return bool(minimate.library_path())
    except OSError:
        return False


def bench_lines():
    """Lines of the bench that are soon answered: the limit, the goal, the position, and what `minimate solve` prints of it."""
    with open(os.path.join(TOP, "bench", "mates", "cases.tsv"), encoding="ascii") as table:
        rows = [row for row in csv.reader(table, delimiter="\t") if not row[0].startswith("#")]
    return [(int(limit), goal, fen, answer) for limit, goal, fen, answer, _ in rows if int(limit) <= MOST]


def told_refusals():
    """The rows of the table of refusals but those of a batch and of six fields, which the package cuts: the name, what was given, in which bytes
    stand as \\xff, and the sentence."""
    with open(os.path.join(TOP, "tools", "sentences.tsv"), encoding="utf-8") as table:
        rows = re.findall(r"^([\w ]+)\t`(.+)`\t(.+)$", table.read(), flags=re.M)
    rows = [row for row in rows if not row[1].startswith("batch`") and (row[0] != "Fields" or row[1].count(" ") != 5)]
    return [(name, given.encode().decode("unicode_escape").encode("latin-1").decode(), sentence) for name, given, sentence in rows]


@unittest.skipUnless(has_library(), "there is no libminimate.so")
class Answers(unittest.TestCase):
    def test_bench(self):
        lines = bench_lines()
        self.assertGreater(len(lines), 20)
        for limit, goal, fen, wanted in lines:
            with self.subTest(fen=fen, goal=goal):
                position, solver = Position(fen), Solver()
                answer = solver.solve(position, limit, goal)
                self.assertEqual(str(answer), wanted)
                tree, keys = solver.tree(position, limit, goal), solver.keys(position, limit, goal)
                self.assertEqual(tree is None, not answer.is_forced)
                self.assertEqual(bool(keys), answer.is_forced)
                if tree:
                    self.assertEqual(tree[0], answer.first)
                    self.assertEqual(solver.check(position, tree, goal), answer.plies)
                    self.assertIn(Key(answer.first, answer.plies), keys)
                    self.assertEqual(minimate.read_tree(minimate.tree_text(tree)), tree)

    def test_rounds_answer_the_same(self):
        for limit, goal, fen, wanted in bench_lines():
            heard = []
            answer = Solver().solve(fen, limit, goal, progress=heard.append)
            self.assertEqual(str(answer), wanted)
            self.assertEqual(heard, [it for it in range(1, limit + 1, 2) if not answer.is_forced or it < answer.plies])

    def test_what_keys_tell(self):
        heard = []
        keys = Solver().keys("3R2/K5/6/2PR1P/1rk3/1r4 w", 5, progress=lambda *told: heard.append(told))
        self.assertEqual(keys, Solver().keys("3R2/K5/6/2PR1P/1rk3/1r4 w", 5))
        self.assertEqual(heard, sorted(set(heard)))
        count = len(Position("3R2/K5/6/2PR1P/1rk3/1r4 w").moves())
        self.assertTrue(all(1 <= tried <= moves == count for tried, moves in heard), heard)

    def test_one_table(self):
        """Keys and a tree behind a solve over the same table, one of so few slots that little of it stays."""
        for slots in (1, 64, None):
            solver = Solver(slots)
            for limit, goal, fen, wanted in bench_lines():
                if limit <= 3:
                    answer, keys = solver.solve(fen, limit, goal), solver.keys(fen, limit, goal)
                    tree = solver.tree(fen, limit, goal)
                    self.assertEqual((str(answer), tree and tree[0]), (wanted, answer.first))
                    self.assertEqual([key for key in keys if key.plies == answer.plies][:1], [Key(answer.first, answer.plies)] if answer.is_forced else [])

    def test_rooms_that_are_too_small(self):
        """Texts that have more bytes than a reply is first given room for."""
        with mock.patch.object(living, "ROOM", 5):
            self.assertEqual(Solver().tree(ROOK, 3), TREE)
            self.assertEqual(Solver().keys(PAWN, 1), [Key("c4c5q", 1), Key("c4c5r", 1)])
            self.assertEqual((Solver().keys(ROOK, 1), Solver().tree(ROOK, 1)), ([], None))

    def test_by_hand(self):
        solver = Solver(slots=64)
        self.assertEqual(solver.solve(ROOK, 3), Answer("mate", 3, Move("c4c5")))
        self.assertEqual(solver.solve(ROOK, 1), Answer("none", 1, None))
        self.assertEqual(solver.solve(ROOK, 3, goal="stale"), Answer("goal", 1, Move("b1b5")))
        self.assertEqual(solver.keys(PAWN, 1), [Key("c4c5q", 1), Key("c4c5r", 1)])
        self.assertEqual(solver.tree(ROOK, 3), TREE)
        self.assertEqual((solver.check(ROOK, TREE), solver.check(ROOK, "c4c5{a6a5:b1a1#}\n")), (3, 3))
        self.assertEqual((solver.check(ROOK, ("b1b5", "=")), solver.check(ROOK, ("b1b5", "="), goal="stale")), (None, 1))

    def test_a_room_that_grows(self):
        calls = _calls.calls()
        self.assertEqual(calls.ask("moves", PROMOTES.encode(), room=1), b"f1e1\nf1e2\nf1f2\nc5c6q\nc5c6r\nc5c6n\n")


@unittest.skipUnless(has_library(), "there is no libminimate.so")
class Positions(unittest.TestCase):
    def test_moves(self):
        self.assertEqual(Position(PROMOTES).moves(), ["f1e1", "f1e2", "f1f2", "c5c6q", "c5c6r", "c5c6n"])
        self.assertEqual(Solver().moves(PROMOTES), Position(PROMOTES).moves())
        self.assertEqual([len(game.start.moves()) for game in Game], [10, 7])

    def test_six_fields(self):
        position = Position("k5/6/2K3/6/6/1R4 w - - 0 1")
        self.assertEqual((position, position.after("c4c5").fen()), (Position(ROOK), "k5/2K3/6/6/6/1R4 b"))
        self.assertEqual(str(Solver().solve(f"{ROOK} - - 0 1", 3)), "mate 3 c4c5")

    def test_what_comes_after(self):
        self.assertEqual(Position(PROMOTES).after("c5c6n"), Position("k1N3/6/6/6/6/5K b"))
        self.assertEqual(Position(ROOK).after("c4c5", "a6a5"), Position("6/k1K3/6/6/6/1R4 w"))
        for move in ("c5c6", "c5c6b", "f1f1", ""):
            with self.assertRaises(Refused) as caught:
                Position(PROMOTES).after(move)
            self.assertEqual(caught.exception.name, "Move")

    def test_check_mate_and_stalemate(self):
        for fen, wanted in (
            (ROOK, (False, False, False)),
            ("k4R/6/1K4/6/6/6 b", (True, True, False)),
            ("k5/6/6/6/6/R4K b", (True, False, False)),
            ("k5/1R4/2K3/6/6/6 b", (False, False, True)),
        ):
            position = Position(fen)
            self.assertEqual((position.is_check(), position.is_checkmate(), position.is_stalemate()), wanted, fen)


@unittest.skipUnless(has_library(), "there is no libminimate.so")
class Refusals(unittest.TestCase):
    def refused(self, name, given):
        """What is raised of a row of the table."""
        if name in ("Limit", "Slots"):
            value = int(given.split()[1])
            return lambda: Solver(slots=value if name == "Slots" else 64).solve(ROOK, value if name == "Limit" else 3)
        if name in ("Answer", "Claim at line"):
            found = re.fullmatch("verify((?: --goal stale)?)`(, without its line feed)?: `(.*)", given, flags=re.S)
            assert found
            return lambda: verify(ROOK, found[3] + ("" if found[2] else "\n"), "stale" if found[1] else "mate")
        if name.startswith("Grammar"):
            return lambda: Solver().check(ROOK, given)
        return lambda: Position(given)

    def test_sentences(self):
        # The package has no workers.
        rows = [row for row in told_refusals() if row[0] != "Workers"]
        self.assertGreater(len(rows), 18)
        for name, given, sentence in rows:
            with self.subTest(name=name, given=given), self.assertRaises(Refused) as caught:
                self.refused(name, given)()
            self.assertEqual((caught.exception.name, str(caught.exception)), (name.split(" ")[0], sentence))

    def test_certificates(self):
        self.assertEqual(verify(ROOK, CERTIFICATE), Answer("mate", 3, Move("c4c5")))
        self.assertEqual(verify(Position(ROOK), "none within 2\n\n"), Answer("none", 2, None))
        self.assertEqual(verify(ROOK, "goal 1 b1b5\ni\n\n", "stale"), Answer("goal", 1, Move("b1b5")))
        for text, reply, line in ((CERTIFICATE[:-1], "refused: Claim at line 4", 4), (b"\xff\n", "refused: Answer", None), ("a" * 8193, "refused: TooLong", None)):
            with self.assertRaises(Refused) as caught:
                verify(ROOK, text)
            self.assertEqual((caught.exception.reply, caught.exception.line), (reply, line))

    def test_trees(self):
        deep = ("a1a2", "#")
        for _ in range(32):
            deep = ("a1a2", (("b1b2", deep),))
        for tree, reply in ((deep, "refused: Deep"), (" " * 1048577, "refused: TooLong"), (("a1a2", ()), "refused: Grammar at offset 5")):
            with self.assertRaises(Refused) as caught:
                Solver().check(ROOK, tree)
            self.assertEqual(caught.exception.reply, reply)

    def test_order(self):
        """A fault of the limit comes before one of the slots."""
        for slots, limit, name in ((0, 0, "Limit"), (0, 64, "Limit"), (0, 3, "Slots"), (2**40, 3, "Slots"), (64, -1, "Limit")):
            with self.assertRaises(Refused) as caught:
                Solver(slots=slots).solve(ROOK, limit)
            self.assertEqual(caught.exception.name, name)


@unittest.skipUnless(has_library(), "there is no libminimate.so")
class Program(unittest.TestCase):
    def run_words(self, *words, given=b""):
        package = os.path.join(TOP, "python")
        ran = subprocess.run([sys.executable, "-m", "minimate", *words], input=given, capture_output=True, check=False, cwd=package, timeout=60)
        return ran.returncode, ran.stdout, ran.stderr

    def test_answers(self):
        drawn = b" 5  k . . . .\n 4  . . P . .\n 3  . K . . .\n 2  . . . . .\n 1  . . . . .\n    a b c d e      White to move\n"
        for words, given, wanted in (
            (["solve", "--limit", "3", ROOK], b"", b"mate 3 c4c5\n"),
            (["solve", "--limit", "3", f"{ROOK} - - 0 1"], b"", b"mate 3 c4c5\n"),
            (["solve", "--limit", "1", "--goal", "stale", ROOK], b"", b"goal 1 b1b5\n"),
            (["keys", ROOK, "--limit=1"], b"", b"none within 1\n"),
            (["tree", "--limit", "3", "--slots", "64", ROOK], b"", b"c4c5{a6a5:b1a1#}\n"),
            (["tree", "--limit", "1", ROOK], b"", b"none within 1\n"),
            (["check", ROOK], b"c4c5{a6a5:b1a1#}\n", b"yes 3\n"),
            (["check", ROOK], b"b1b5=", b"no\n"),
            (["verify", ROOK], CERTIFICATE, b"mate 3 c4c5\n"),
            (["verify", "--goal", "stale", ROOK], b"goal 1 b1b5\ni\n\n", b"goal 1 b1b5\n"),
            (["moves", "k5/1R4/2K3/6/6/6 b"], b"", b""),
            (["show", PAWN], b"", drawn),
        ):
            self.assertEqual(self.run_words(*words, given=given), (0, wanted, b""), words)

    def test_progress(self):
        wanted = (0, b"mate 3 c4c5\n", b"none within 1\n")
        self.assertEqual(self.run_words("solve", "--limit", "5", "--progress", ROOK), wanted)

    def test_refusals(self):
        self.assertEqual(self.run_words("moves", "k5")[:2], (1, b"refused: Fields\n"))
        self.assertEqual(self.run_words("solve", "--limit", "64", ROOK)[:2], (1, b"refused: Limit\n"))
        self.assertEqual(self.run_words("check", ROOK, given=b"c4c5")[:2], (1, b"refused: Grammar at offset 4\n"))
        self.assertEqual(self.run_words("verify", ROOK, given=CERTIFICATE[:-1])[:2], (1, b"refused: Claim at line 4\n"))
        self.assertEqual(self.run_words("solve", ROOK)[:2], (2, b""))


if __name__ == "__main__":
    unittest.main()
