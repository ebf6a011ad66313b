"""What the package does with replies, which a fake gives here: no library is needed."""

import copy
import ctypes
import io
import os
import pickle
import signal
import tempfile
import threading
import time
import unittest
import xml.etree.ElementTree
from contextlib import redirect_stderr
from unittest import mock

import minimate
from minimate import Answer, Game, Interrupted, Key, Move, NoMemory, Position, Refused, Solver, __main__, _calls

from . import fake

ROOK, PAWN = "k5/6/2K3/6/6/1R4 w", "k4/2P2/1K3/5/5 w"
TREE = ("c4c5", (("a6a5", ("b1a1", "#")),))
WIDE = "f3f5{b5a6:e4e6#,b5b6:e4e6#,b5c6:e4e6#}"


class Moves(unittest.TestCase):
    def test_parts(self):
        move = Move.from_uci("c5c6q")
        self.assertEqual((move.from_square, move.to_square, move.promotion, move.uci()), ("c5", "c6", "q", "c5c6q"))
        self.assertEqual(Move("c4c5").promotion, None)
        self.assertEqual(Move("c4c5"), "c4c5")
        self.assertIs(type(pickle.loads(pickle.dumps(move))), Move)

    def test_other_texts_are_refused(self):
        for text in ("", "c4", "c4c5k", "g1a1", "a0a1", "c4c5 ", "c4c5\n", "C4c5", 7):
            with self.assertRaises(Refused) as caught:
                Move(text)
            self.assertEqual(caught.exception.name, "Move")


class Trees(unittest.TestCase):
    def test_text_of_tuples(self):
        self.assertEqual(minimate.tree_text(TREE), "c4c5{a6a5:b1a1#}")
        self.assertEqual(minimate.tree_text(("b1b5", "=")), "b1b5=")

    def test_tuples_of_text(self):
        with fake.calls(check=b"no\n"):
            self.assertEqual(minimate.read_tree("c4c5{a6a5:b1a1#}"), TREE)
            end = ("e4e6", "#")
            self.assertEqual(minimate.read_tree(WIDE), ("f3f5", (("b5a6", end), ("b5b6", end), ("b5c6", end))))
            deep = "c1e1{b6a6:e1d1{a6b6:d1d6#},b6c6:e1e6#}"
            self.assertEqual(minimate.tree_text(minimate.read_tree(deep)), deep)

    def test_text_that_is_refused(self):
        with fake.calls(check=b"refused: Grammar at offset 4\n"), self.assertRaises(Refused) as caught:
            minimate.read_tree("c4c5")
        why = caught.exception
        self.assertEqual((why.name, why.offset, why.reply), ("Grammar", 4, "refused: Grammar at offset 4"))
        self.assertTrue(str(why).startswith("after its first 4 bytes the input is no tree"))

    def test_a_tree_too_deep_for_recursion_is_written(self):
        tree = ("a1a2", "#")
        for _ in range(5000):
            tree = ("a1a2", (("b1b2", tree),))
        self.assertEqual(minimate.tree_text(tree).count("{"), 5000)


class Positions(unittest.TestCase):
    def test_what_a_text_tells(self):
        with fake.calls():
            position, other = Position(ROOK), Position("2k2/2p2/2p2/3pp/K4 b")
        self.assertEqual((position.text, position.fen(), position.mover, position.turn), (ROOK, ROOK, "White", minimate.WHITE))
        self.assertEqual((other.mover, other.turn), ("Black", minimate.BLACK))
        self.assertEqual((position.game, other.game, other.game.size), (Game.LOS_ALAMOS, Game.GARDNER, 5))
        self.assertEqual(position.piece_map(), {"a6": "k", "c4": "K", "b1": "R"})
        self.assertEqual((position.piece_at("b1"), position.piece_at("b2")), ("R", None))

    def test_six_fields_are_cut_to_two(self):
        with fake.calls(solve=b"none within 3\n", moves=b"") as asked:
            for fields in (" - - 0 1", " KQkq e3 12 30"):
                position = Position(ROOK + fields)
                self.assertEqual((position.text, position, repr(position)), (ROOK, Position(ROOK), f"Position('{ROOK}')"))
                Solver().solve(ROOK + fields, 3)
                Solver().moves(ROOK + fields)
        self.assertEqual({values[0] for _, *values in asked.asked}, {ROOK.encode()})

    def test_no_other_text_is_cut(self):
        for text in (ROOK + " - - 0", ROOK + " - - 0 1 2", ROOK + " -  - 0 1", ROOK + " - - 0 ", f" {ROOK} - - 0", "k5 w - - 0 1", "k5 w - - 0 1/2"):
            with fake.calls() as asked:
                self.assertEqual(Position(text).text, text)
            self.assertEqual(asked.asked, [("fault", text.encode())])

    def test_equal_positions(self):
        with fake.calls():
            position, same, other = Position(ROOK), Position(ROOK), Position(PAWN)
            self.assertEqual(position, same)
            self.assertNotEqual(position, other)
            self.assertNotEqual(position, ROOK)
            self.assertEqual(len({position, same, other}), 2)
            self.assertEqual([copy.deepcopy(position), pickle.loads(pickle.dumps(position))], [position, position])
            self.assertEqual(repr(position), f"Position('{ROOK}')")

    def test_a_refused_text(self):
        told = b"refused: Kings\nerror: each side has one king, K and k: here are 2 K and 0 k\n"
        with fake.calls(fault=told), self.assertRaises(ValueError) as caught:
            Position("6/6/1K4/6/6/K4R w")
        why = caught.exception
        self.assertEqual((why.name, why.reply, why.offset), ("Kings", "refused: Kings", None))
        self.assertEqual([str(why), why.sentence], 2 * ["each side has one king, K and k: here are 2 K and 0 k"])
        self.assertEqual(str(pickle.loads(pickle.dumps(why))), str(why))

    def test_what_is_no_text(self):
        for given, why in ((b"k5", TypeError), (None, TypeError), ("\udcff", ValueError)):
            with fake.calls(), self.assertRaises(why):
                Position(given)

    def test_moves_and_what_comes_after(self):
        with fake.calls(moves=b"f1e1\nc5c6q\n", after=lambda fen, move: move + b" of " + fen + b"\n"):
            position = Position(ROOK)
            self.assertEqual(position.moves(), ["f1e1", "c5c6q"])
            self.assertEqual(position.legal_moves, ("f1e1", "c5c6q"))
            self.assertEqual(position.after("b1a1", Move("a6a5")).text, f"a6a5 of b1a1 of {ROOK}")
            self.assertEqual(position.after(), position)

    def test_check_is_asked_with_the_other_side_to_move(self):
        in_check = lambda fen: b"refused: OtherInCheck\nerror: so it is\n" if fen == b"1k4/6/6/6/6/KR4 w" else b""
        with fake.calls(fault=in_check, moves=b""):
            self.assertTrue(Position("1k4/6/6/6/6/KR4 b").is_check())
            self.assertTrue(Position("1k4/6/6/6/6/KR4 b").is_checkmate())
            self.assertTrue(Position("2k3/6/6/6/6/KR4 b").is_stalemate())
            self.assertFalse(Position("2k3/6/6/6/6/KR4 b").is_checkmate())

    def test_the_drawn_board(self):
        with fake.calls():
            drawn = str(Position(PAWN))
        rows = [" 5  k . . . .", " 4  . . P . .", " 3  . K . . .", " 2  . . . . .", " 1  . . . . .", "    a b c d e      White to move"]
        self.assertEqual(drawn.split("\n"), rows)

    def test_the_picture(self):
        with fake.calls():
            picture = xml.etree.ElementTree.fromstring(Position(PAWN)._repr_svg_())
        space = "{http://www.w3.org/2000/svg}"
        squares = [it for it in picture.iter(f"{space}rect") if it.get("width") == "45"]
        titles = [it.text for it in picture.iter(f"{space}title")]
        self.assertEqual((len(squares), titles), (25, ["Black king", "White pawn", "White king"]))
        # a1 is the last rank's first square, and dark; b1 is light.
        self.assertEqual([it.get("fill") for it in squares[-5:-3]], ["#b58863", "#f0d9b5"])


class Searches(unittest.TestCase):
    def test_answers(self):
        for reply, wanted in (
            (b"mate 3 c4c5\n", Answer("mate", 3, Move("c4c5"))),
            (b"goal 1 b1b5\n", Answer("goal", 1, Move("b1b5"))),
            (b"none within 3\n", Answer("none", 3, None)),
        ):
            with fake.calls(solve=reply):
                answer = Solver().solve(ROOK, 3)
            self.assertEqual((answer, f"{answer}\n".encode(), answer.is_forced), (wanted, reply, wanted.kind != "none"))

    def test_keys(self):
        with fake.calls(keys=b"c4c5q 1\nc4c5r 1\n"):
            keys = Solver().keys(PAWN, 1)
        self.assertEqual((keys, [str(key) for key in keys]), ([Key("c4c5q", 1), Key("c4c5r", 1)], ["c4c5q 1", "c4c5r 1"]))
        with fake.calls(keys=b"none within 1\n"):
            self.assertEqual(Solver().keys(ROOK, 1), [])

    def test_trees(self):
        with fake.calls(tree=b"c4c5{a6a5:b1a1#}\n"):
            self.assertEqual(Solver().tree(ROOK, 3), TREE)
        with fake.calls(tree=b"none within 1\n"):
            self.assertIsNone(Solver().tree(ROOK, 1))

    def test_checks(self):
        for reply, wanted in ((b"yes 3\n", 3), (b"no\n", None)):
            with fake.calls(check=reply) as asked:
                self.assertEqual(Solver().check(ROOK, TREE, goal="stale"), wanted)
                self.assertEqual(asked.asked[-1], ("check", ROOK.encode(), True, b"c4c5{a6a5:b1a1#}"))

    def test_what_is_asked(self):
        with fake.calls(solve=b"none within 5\n") as asked:
            Solver().solve(ROOK, 5)
            Solver().solve(ROOK, 7, goal="stale")
            Solver(slots=17).solve(ROOK, 7)
            Solver(slots=2**32 + 64).solve(ROOK, 2**32 + 3)
            Solver(slots=-1).solve(ROOK, -3)
        searches = [values[1:] for word, *values in asked.asked if word == "solve"]
        most = 2**32 - 1
        wanted = [[False, 5, 16381], [True, 7, 1048573], [False, 7, 17], [False, most, most], [False, 0, 0]]
        self.assertEqual([list(it) for it in searches], wanted)

    def test_refusals(self):
        for name, limit in (("Limit", 64), ("Slots", 3), ("Deep", 3), ("TooLong", 3)):
            with fake.calls(solve=f"refused: {name}\n".encode()), self.assertRaises(Refused) as caught:
                Solver().solve(ROOK, limit)
            self.assertEqual(caught.exception.name, name)
            self.assertNotEqual(str(caught.exception), "")

    def test_want_of_memory(self):
        with fake.calls(tree=b"refused: NoMemory\n"), self.assertRaises(MemoryError) as caught:
            Solver().tree(ROOK, 3)
        self.assertEqual((type(caught.exception), str(caught.exception)), (NoMemory, NoMemory.sentence))
        with fake.calls(fault=b"refused: NoMemory\n"), self.assertRaises(NoMemory):
            Position(ROOK)

    def test_no_thread(self):
        with fake.calls(solve=b"none within 3\n"), mock.patch("threading.Thread.start", side_effect=RuntimeError), self.assertRaises(NoMemory):
            Solver().solve(ROOK, 3)

    def test_other_goals_and_kinds(self):
        with fake.calls(solve=b"none within 3\n"):
            with self.assertRaises(ValueError):
                Solver().solve(ROOK, 3, goal="win")
            with self.assertRaises(TypeError):
                Solver().solve(ROOK, 3.0)

    def test_rounds(self):
        self.assertEqual([minimate.solver.rounds(it) for it in (1, 2, 5, 6)], [[1], [2], [1, 3, 5], [1, 3, 6]])
        self.assertEqual([minimate.solver.rounds(it) for it in (0, 64)], [[0], [64]])

    def test_progress(self):
        reply = lambda fen, stale, limit, slots: b"mate 5 c4c5\n" if limit >= 5 else f"none within {limit}\n".encode()
        heard = []
        with fake.calls(solve=reply, tree=b"c4c5#\n") as asked:
            self.assertEqual(Solver().solve(ROOK, 9, progress=heard.append), Answer("mate", 5, Move("c4c5")))
            self.assertEqual(heard, [1, 3])
            self.assertEqual(Solver().solve(ROOK, 4, progress=heard.append), Answer("none", 4, None))
            self.assertEqual(heard, [1, 3, 1, 4])
            self.assertEqual(Solver().tree(ROOK, 9, progress=heard.append), ("c4c5", "#"))
            self.assertEqual(asked.asked[-1], ("tree", ROOK.encode(), False, 5, 16381))
            self.assertIsNone(Solver().tree(ROOK, 3, progress=heard.append))
        with fake.calls(solve=reply), self.assertRaises(ZeroDivisionError):
            Solver().solve(ROOK, 9, progress=lambda plies: 1 / (plies - 3))


class Interrupts(unittest.TestCase):
    def setUp(self):
        # What runs in the background may have been started with interrupts ignored.
        before = signal.signal(signal.SIGINT, signal.default_int_handler)
        self.addCleanup(signal.signal, signal.SIGINT, before)

    def interrupted(self, progress):
        """How an interrupt ends a solve whose second round would take ten seconds, and after how long."""
        held, sent = threading.Event(), []

        def send():
            sent.append(time.monotonic())
            os.kill(os.getpid(), signal.SIGINT)

        def reply(fen, stale, limit, slots):
            if limit == 1:
                return b"none within 1\n"
            threading.Timer(0.2, send).start()
            held.wait(10)
            return b"none within 3\n"

        with fake.calls(solve=reply), self.assertRaises(KeyboardInterrupt) as caught:
            Solver().solve(ROOK, 3, progress=progress)
        took = time.monotonic() - sent[0]
        held.set()
        return caught.exception, took

    def test_what_is_known_is_kept(self):
        why, took = self.interrupted(lambda plies: None)
        self.assertEqual((type(why), why.none_within, str(why)), (Interrupted, 1, "interrupted: none within 1"))
        self.assertLess(took, 0.1)

    def test_without_progress(self):
        why, took = self.interrupted(None)
        self.assertEqual((type(why), why.none_within), (Interrupted, 0))
        self.assertLess(took, 0.1)

    def test_the_stack_of_other_threads_stays(self):
        before = threading.stack_size()
        with fake.calls(solve=b"none within 3\n"):
            Solver().solve(ROOK, 3)
        self.assertEqual(threading.stack_size(), before)


class Library(unittest.TestCase):
    def test_where_it_is_looked_for(self):
        with tempfile.TemporaryDirectory() as top:
            clone, released = os.path.join(top, "share", "minimate"), os.path.join(top, "lib")
            package, built = os.path.join(clone, "python", "minimate"), os.path.join(clone, "out")
            for folder in (package, built, released):
                os.makedirs(folder)
            path = mock.patch.object(_calls, "__file__", os.path.join(package, "_calls.py"))
            system = mock.patch("ctypes.util.find_library", lambda name: f"lib{name}.so.0")
            with path, system, mock.patch.dict(os.environ, MINIMATE_LIBRARY=""):
                self.assertEqual(_calls.find_library(), "libminimate.so.0")
                for folder in (released, built, package):
                    wanted = os.path.join(folder, _calls.NAME)
                    with open(wanted, "wb"):
                        self.assertEqual(_calls.find_library(), wanted)
                for named, wanted in (("/nowhere/it.so", "/nowhere/it.so"), (top, os.path.join(top, _calls.NAME))):
                    with mock.patch.dict(os.environ, MINIMATE_LIBRARY=named):
                        self.assertEqual(_calls.find_library(), wanted)

    def test_none_is_found(self):
        path = mock.patch.object(_calls, "__file__", "/nowhere/python/minimate/_calls.py")
        system = mock.patch("ctypes.util.find_library", lambda name: None)
        with path, system, mock.patch.dict(os.environ, MINIMATE_LIBRARY=""), self.assertRaises(OSError) as caught:
            _calls.find_library()
        self.assertIn("tools/build_c --shared", str(caught.exception))

    def test_another_library(self):
        with self.assertRaises(OSError) as caught:
            _calls.Calls(ctypes.util.find_library("c"))
        self.assertIn("is no libminimate", str(caught.exception))


class Program(unittest.TestCase):
    """The words of `python -m minimate`, before anything is asked."""

    def status(self, *words):
        with redirect_stderr(io.StringIO()), self.assertRaises(SystemExit) as caught:
            __main__.read_words(list(words))
        return caught.exception.code

    def test_words_that_are_no_command(self):
        for words in (
            [],
            ["solve"],
            ["solve", ROOK],
            ["win", ROOK],
            ["solve", "--limit", "3", "--limit", "3", ROOK],
            ["solve", "--limit", "x", ROOK],
            ["solve", "--limit", "4294967296", ROOK],
            ["solve", "--limit", "-1", ROOK],
            ["solve", "--lim", "3", ROOK],
            ["solve", "--limit", "3", "--goal", "win", ROOK],
            ["solve", "--limit", "3", ROOK, "w"],
            ["moves", "--limit", "3", ROOK],
            ["check", "--slots", "3", ROOK],
            ["keys", "--limit", "3", "--progress", ROOK],
        ):
            self.assertEqual(self.status(*words), 2, words)

    def test_words_in_any_order(self):
        for words in (["solve", "--limit", "+3", ROOK], ["solve", ROOK, "--limit=3"], ["solve", "--limit=3", "--", ROOK]):
            asked = __main__.read_words(words)
            self.assertEqual((asked.command, asked.fen, asked.limit), ("solve", ROOK, 3))
        self.assertEqual(__main__.read_words(["solve", "--limit=-0", ROOK]).limit, 0)

    def test_a_word_that_is_no_text(self):
        with mock.patch("os.write"):
            self.assertEqual(__main__.main(["moves", "\udcff"]), 2)


if __name__ == "__main__":
    unittest.main()
