"""The solver: searches by the library's calls."""

import threading
from typing import Callable, List, Optional, Tuple, Union

from . import _calls, rooms
from .answers import NONE_WITHIN, Answer, Key, read_answer, read_key
from .living import Living
from .moves import Move
from .positions import Position
from .refusals import answered
from .searching import apart
from .trees import Tree, known_tree, tree_text

GOALS = ("mate", "stale")
MOST_PLIES = 63
# Up to so many plies a small table serves as well, and is sooner made.
FEW_PLIES, FEW_SLOTS, MANY_SLOTS = 5, 16381, 1048573
# What nearly all trees fit in. A larger one is searched for once more.
TREE_ROOM = 1 << 26

Progress = Callable[[int], object]
KeysProgress = Callable[[int, int], object]
Question = Tuple[Position, int, str]
LivingCall = Callable[[bytes, bool, int], bytes]


def position_of(given: Union[Position, str]) -> Position:
    return given if isinstance(given, Position) else Position(given)


def counts_stale(goal: str) -> bool:
    """Whether stalemate is as good as mate."""
    if goal not in GOALS:
        raise ValueError(f"a goal is 'mate' or 'stale': here is {goal!r}")
    return goal == "stale"


def rounds(limit: int) -> List[int]:
    """The limits 1, 3, 5 and so on, up to the one that is asked: the attacker's move is the last of a mate, so even ones add nothing."""
    return [*range(1, limit - 1, 2), limit] if 1 <= limit <= MOST_PLIES else [limit]


class Told:
    """What is told of a solve round by round."""

    def __init__(self, all_rounds: List[int], progress: Optional[Progress]) -> None:
        self.rounds, self.progress = all_rounds, progress
        self.none_within = 0

    def look(self, living: Living) -> None:
        """How far the search is."""
        self.hear(living.told()[0])

    def hear(self, none_within: int) -> None:
        """Nothing is forced within so many plies: each round up to them is told once."""
        for plies in self.rounds if self.progress else []:
            if self.none_within < plies <= none_within and self.progress:
                self.none_within = plies
                self.progress(plies)


class ToldKeys:
    """What is told of keys: each first move that was searched."""

    none_within = 0

    def __init__(self, progress: Optional[KeysProgress]) -> None:
        self.progress, self.tried = progress, 0

    def look(self, living: Living) -> None:
        """How far the search is."""
        _, tried, moves = living.told()
        if self.progress and self.tried < tried:
            self.tried = tried
            self.progress(tried, moves)


class ToldNothing:
    """Nothing is told of a tree, but for the plies that were searched before it."""

    def __init__(self, none_within: int = 0) -> None:
        self.none_within = none_within

    def look(self, living: Living) -> None:
        """Nothing is looked at."""


class Solver:
    """Finds forced mates.

    `slots` is how many slots of 32 bytes the table of a search has, 1 to 1048576; a prime serves best. Without it the table is small up
    to 5 plies, and has 1048573 slots beyond. No answer depends on it. A solver keeps its table for the next search; threads may share it, and
    then search one after another.

    A position is a `Position` or its text. A limit counts plies, 1 to 63: a mate in M moves is 2M-1. The goal is ``"mate"``, or
    ``"stale"`` for mate or stalemate. What the program refuses is `Refused`, and want of memory `NoMemory`, which is a MemoryError.

    A search runs in a daemon thread of its own. Ctrl-C ends it at once, as `Interrupted`, which is a KeyboardInterrupt.
    """

    def __init__(self, slots: Optional[int] = None) -> None:
        self.slots = slots
        self._living: Optional[Living] = None
        self._solving = threading.Lock()

    def __repr__(self) -> str:
        return "Solver()" if self.slots is None else f"Solver(slots={self.slots})"

    def solve(
        self,
        position: Union[Position, str],
        limit: int,
        goal: str = "mate",
        progress: Optional[Progress] = None,
    ) -> Answer:
        """The fewest plies up to the limit in which the side to move forces the goal, and the least first move, or that there are none.

        After each of the rounds 1, 3, 5 and so on that found nothing `progress` is called, in the caller's thread, with the plies within
        which nothing is forced; what it raises ends the search. `Interrupted` then tells these plies too.
        """
        asked, told = position_of(position), Told(rounds(limit), progress)
        living = self._lives(_calls.number(limit))
        if living is None:
            return self._solve_apart(asked, limit, goal, told)
        answer = read_answer(self._ask(living, living.solve, (asked, limit, goal), told))
        told.hear(answer.plies - 1 if answer.is_forced else MOST_PLIES)
        return answer

    def _ask(self, living: Living, call: LivingCall, question: Question, told: Union[Told, ToldKeys, ToldNothing]) -> str:
        """What the call of a solver that lives answers. It is watched, and stopped where its caller is interrupted."""
        position, limit, goal = question
        is_stale, plies, begun = counts_stale(goal), _calls.number(limit), threading.Event()

        def work() -> bytes:
            with self._solving:
                living.begin()
                begun.set()
                return call(position.text.encode(), is_stale, plies)

        def watch() -> None:
            if begun.is_set():
                told.look(living)

        return answered(apart(work, lambda: told.none_within, watch, living.stop))

    def _lives(self, limit: int) -> Optional[Living]:
        """The solver of the library that serves such a limit, where the library has any."""
        with self._solving:
            slots = self._slots(limit)
            if self._living is None or self._living.opened or self._living.slots < slots:
                self._living = _calls.calls().living(slots)
            return self._living

    def _slots(self, limit: int) -> int:
        if self.slots is not None:
            return _calls.number(self.slots)
        return FEW_SLOTS if limit <= FEW_PLIES else MANY_SLOTS

    def _solve_apart(self, asked: Position, limit: int, goal: str, told: "Told") -> Answer:
        """The same, each round by a call of its own."""
        answer = None
        for plies in told.rounds if told.progress else [limit]:
            answer = read_answer(self._search("solve", asked, plies, goal, told.none_within))
            if answer.is_forced:
                break
            told.hear(answer.plies)
        assert answer is not None
        return answer

    def keys(
        self,
        position: Union[Position, str],
        limit: int,
        goal: str = "mate",
        progress: Optional[KeysProgress] = None,
    ) -> List[Key]:
        """Each first move that forces the goal within the limit, in the order of moves, with the fewest plies that it takes.

        As the search goes on `progress` is called, in the caller's thread, with how many first moves are searched, and of how many; what it
        raises ends the search.
        """
        asked, living = position_of(position), self._lives(_calls.number(limit))
        if living is None:
            text = self._search("keys", asked, limit, goal)
        else:
            text = self._ask(living, living.keys, (asked, limit, goal), ToldKeys(progress))
        return [] if text.startswith(NONE_WITHIN) else [read_key(line) for line in text.splitlines()]

    def tree(
        self,
        position: Union[Position, str],
        limit: int,
        goal: str = "mate",
        progress: Optional[Progress] = None,
    ) -> Optional[Tree]:
        """The tree that shows the answer of `solve`, as nested tuples, or None where nothing is forced within the limit.

        A tree is the attacker's move and then ``"#"`` for mate, ``"="`` for stalemate, or a tuple of each reply with the tree that meets
        it: ``('c4c5', (('a6a5', ('b1a1', '#')),))``. `progress` is that of `solve`.
        """
        text = self.tree_text(position, limit, goal, progress)
        return None if text is None else known_tree(text)

    def tree_text(
        self,
        position: Union[Position, str],
        limit: int,
        goal: str = "mate",
        progress: Optional[Progress] = None,
    ) -> Optional[str]:
        """The same tree as `minimate tree` writes it, without a line feed."""
        asked, known = position_of(position), 0
        if progress:
            answer = self.solve(asked, limit, goal, progress)
            if not answer.is_forced:
                return None
            limit, known = answer.plies, answer.plies - 1
        living = self._lives(_calls.number(limit))
        if living is None:
            text = self._search("tree", asked, limit, goal)
        else:
            text = self._ask(living, living.tree, (asked, limit, goal), ToldNothing(known))
        return None if text.startswith(NONE_WITHIN) else text.rstrip("\n")

    def check(self, position: Union[Position, str], tree: Union[Tree, str], goal: str = "mate") -> Optional[int]:
        """In how many plies the tree, or the tree of this text, wins at the position; None where it doesn't win."""
        asked, is_stale = position_of(position), counts_stale(goal)
        text = (tree if isinstance(tree, str) else tree_text(tree)).encode()
        reply = apart(lambda: _calls.calls().ask("check", asked.text.encode(), is_stale, text))
        words = answered(reply).split()
        return int(words[1]) if words[0] == "yes" else None

    def moves(self, position: Union[Position, str]) -> List[Move]:
        """The lawful moves, in order."""
        return position_of(position).moves()

    def _search(self, word: str, position: Position, limit: int, goal: str, none_within: int = 0) -> str:
        """What a call writes that searches."""
        is_stale, plies = counts_stale(goal), _calls.number(limit)
        values: List[Union[bytes, bool, int]] = [position.text.encode(), is_stale, plies, self._slots(plies)]
        room = TREE_ROOM if word == "tree" else rooms.ROOM
        return answered(apart(lambda: _calls.calls().ask(word, *values, room=room), lambda: none_within))
