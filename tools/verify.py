#!/usr/bin/env python3
"""A second checker of certificates, made from docs/reference/games.md and formats.md alone, in Python's standard library.

    tools/verify.py [--goal mate|stale] FEN < certificate

It prints the answer that the certificate proves, as `minimate solve` prints it, or `refused: ` and the name of the fault. Status 0
is an answer, 1 a refusal, 2 words that are no command. The only search in it is over three plies.
"""

import argparse
import os
import re
import sys
from functools import lru_cache
from typing import NamedTuple, Optional

# The most bytes of a line without its line feed, and the most plies of an answer and of what is worked out here.
MOST_BYTES = 8192
MOST_PLIES = 63
LEAF = 3

# Of boards of each width: the kinds of units, the most units of a side, and what a pawn becomes.
KINDS, MOST_UNITS, PROMOTIONS = {5: "KQRBNP", 6: "KQRNP"}, {5: 10, 6: 12}, {5: "qrbn", 6: "qrn"}
STRAIGHT, SLANTED = [(1, 0), (-1, 0), (0, 1), (0, -1)], [(1, 1), (1, -1), (-1, 1), (-1, -1)]
LEAPS = [(1, 2), (2, 1), (2, -1), (1, -2), (-1, -2), (-2, -1), (-2, 1), (-1, 2)]
OTHER = {"w": "b", "b": "w"}

LETTERS = b"abcdefghijklmnopqrstuvwxyzABCDEFGHIJKLMNOPQRSTUVWX"
WORD = re.compile(rb"(Z*)([a-zA-X])|([.=-])")
ANSWER = re.compile(rb"(?:(mate|goal) ([1-9]\d?) ([a-f][1-6][a-f][1-6][qrbn]?)|none within ([1-9]\d?))")


class Refused(Exception):
    """A fault, as it is printed after `refused: `."""


# The rules, on boards that are kept as one string


class Board(NamedTuple):
    """The letters of all squares along the ranks from a1, `.` for an empty square, and the side to move."""

    units: str
    side: str


def need(holds, fault):
    if not holds:
        raise Refused(fault)


def read_position(text, goal):
    """The rules of the game, and the board whose text the bytes are. Each fault is looked for only if no earlier one holds."""
    need(text.count(b" ") == 1, "Fields")
    board, side = text.decode("latin-1").split(" ")
    rows = board.split("/")
    width = len(rows)
    need(width in KINDS and all(sum(int(it) if it in "0123456789" else 1 for it in row) == width for row in rows), "Shape")
    need(set(board) <= set(KINDS[width] + KINDS[width].lower() + "0123456789/"), "Letter")
    need(not re.search("0|[0-9][0-9]", board), "Run")
    need(side in OTHER, "Side")
    units = "".join("." * int(it) if it.isdigit() else it for row in reversed(rows) for it in row)
    need(units.count("K") == units.count("k") == 1, "Kings")
    need(max(sum(map(str.isupper, units)), sum(map(str.islower, units))) <= MOST_UNITS[width], "Units")
    need(not re.search("[Pp]", units[:width] + units[-width:]), "PawnRank")
    rules = Rules(width, goal)
    need(not rules.in_check(Board(units, OTHER[side])), "OtherInCheck")
    return rules, Board(units, side)


class Rules:
    """Moves of one game, by tables of each square, and what is forced within three plies."""

    def __init__(self, width, goal):
        self.width, self.goal, self.last = width, goal, None
        squares = range(width * width)
        self.names = [file + rank for rank in "123456"[:width] for file in "abcdef"[:width]]
        self.rides = {kind: [self.lines_from(it, steps, width) for it in squares] for kind, steps in (("R", STRAIGHT), ("B", SLANTED))}
        self.leaps = {kind: [self.leaps_from(it, steps) for it in squares] for kind, steps in (("K", STRAIGHT + SLANTED), ("N", LEAPS))}
        self.ahead = {side: [self.leaps_from(it, [(0, dy)]) for it in squares] for side, dy in (("w", 1), ("b", -1))}
        self.takes = {side: [self.leaps_from(it, [(-1, dy), (1, dy)]) for it in squares] for side, dy in (("w", 1), ("b", -1))}
        self.moves = lru_cache(1 << 18)(self.moves)
        self.wins_at_once = lru_cache(1 << 20)(self.wins_at_once)

    def lines_from(self, start, steps, most):
        """Returns a line of squares for each step, repeated at most so often from a square."""
        lines = []
        for dx, dy in steps:
            places = [(start % self.width + dx * count, start // self.width + dy * count) for count in range(1, most + 1)]
            line = [rank * self.width + file for file, rank in places if 0 <= file < self.width and 0 <= rank < self.width]
            lines += [line] if line else []
        return lines

    def leaps_from(self, start, steps):
        return [square for line in self.lines_from(start, steps, 1) for square in line]

    def is_attacked(self, units, square, side):
        king, queen, rook, bishop, knight, pawn = "KQRBNP" if side == "w" else "kqrbnp"
        if any(units[at] == knight for at in self.leaps["N"][square]) or any(units[at] == king for at in self.leaps["K"][square]):
            return True
        if any(units[at] == pawn for at in self.takes[OTHER[side]][square]):
            return True
        return self.is_seen(units, self.rides["R"][square], rook + queen) or self.is_seen(units, self.rides["B"][square], bishop + queen)

    @staticmethod
    def is_seen(units, lines, riders):
        """Whether the first unit of some line is one of these."""
        for line in lines:
            for at in line:
                if units[at] != ".":
                    if units[at] in riders:
                        return True
                    break
        return False

    def in_check(self, board):
        return self.is_attacked(board.units, board.units.index("K" if board.side == "w" else "k"), OTHER[board.side])

    def targets(self, units, start, side):
        """Where the unit may go, whatever becomes of its king."""
        kind = units[start].upper()
        if kind == "P":
            yield from (at for at in self.ahead[side][start] if units[at] == ".")
            yield from (at for at in self.takes[side][start] if is_enemy(units[at], side))
        elif kind in "KN":
            yield from (at for at in self.leaps[kind][start] if units[at] == "." or is_enemy(units[at], side))
        else:
            for line in (self.rides["R"][start] if kind in "RQ" else []) + (self.rides["B"][start] if kind in "BQ" else []):
                for at in line:
                    if units[at] == "." or is_enemy(units[at], side):
                        yield at
                    if units[at] != ".":
                        break

    def moves(self, board):
        """The lawful moves in order, each as its text and the board after it."""
        starts = [start for start, letter in enumerate(board.units) if is_enemy(letter, OTHER[board.side])]
        ends = ((start, end) for start in starts for end in sorted(self.targets(board.units, start, board.side)))
        return [move for start, end in ends for move in self.moves_to(board, start, end)]

    def moves_to(self, board, start, end):
        units, side = board
        letter = units[start]
        if units[end] in "Kk":
            return []
        kinds = PROMOTIONS[self.width] if letter in "Pp" and not self.ahead[side][end] else [""]
        text = self.names[start] + self.names[end]
        after = [(text + kind, self.after(units, start, end, (kind.upper() if side == "w" else kind) or letter)) for kind in kinds]
        if self.is_attacked(after[0][1], after[0][1].index("K" if side == "w" else "k"), OTHER[side]):
            return []
        return [(text, Board(units, OTHER[side])) for text, units in after]

    @staticmethod
    def after(units, start, end, letter):
        left = list(units)
        left[start], left[end] = ".", letter
        return "".join(left)

    def is_reached(self, board):
        """Whether the side to move is where the goal wants it."""
        return not self.moves(board) and (self.goal == "stale" or self.in_check(board))

    def wins_at_once(self, board):
        return any(self.is_reached(after) for _, after in self.moves(board))

    def is_forced(self, board, plies):
        """Decides whether the side to move forces the goal within an odd number of plies."""
        if plies == 1:
            return self.wins_at_once(board)
        return any(self.loses(after, plies - 1) for _, after in self.moves(board))

    def loses(self, board, plies):
        replies = self.moves(board)
        if not replies:
            return self.is_reached(board)
        # The reply that refuted last is tried first.
        for text, after in [reply for reply in replies if reply[0] == self.last] + replies:
            if not self.is_forced(after, plies - 1):
                self.last = text
                return False
        return True


def is_enemy(letter, side):
    return letter.islower() if side == "w" else letter.isupper()


# A certificate's lines


class Answer(NamedTuple):
    """Plies and move of a mate, or the limit within which there is none."""

    plies: int
    move: Optional[str]


class Line(NamedTuple):
    """A claim with its line: the attacker's move of a yes claim; each move with its word and the number of its next claim."""

    is_yes: bool
    board: Board
    plies: int
    move: Optional[str]
    met: list


class Source:
    """The lines of a certificate, numbered from 1."""

    def __init__(self, stream):
        self.stream, self.number = stream, 0

    def read(self):
        self.number += 1
        text = self.stream.readline(MOST_BYTES + 1)
        need(len(text) <= MOST_BYTES or text.endswith(b"\n"), "TooLong")
        return text

    def line(self):
        """The next line, without its line feed."""
        text = self.read()
        self.need(text.endswith(b"\n"))
        return text[:-1]

    def words(self):
        """Returns the words of a claim's line: places in a list, from 0, and signs."""
        text, words, at = self.line(), [], 0
        while at < len(text):
            word = WORD.match(text, at)
            self.need(word)
            words.append(word[3].decode() if word[3] else 50 * len(word[1]) + LETTERS.index(word[2]))
            at = word.end()
        return words

    def need(self, holds):
        need(holds, "Answer" if self.number == 1 else f"Claim at line {self.number}")

    def place(self, items, word):
        self.need(isinstance(word, int) and word < len(items))
        return items[word]

    def end(self):
        """No line may follow: one that does is read like any other."""
        self.need(not self.read())


def read_answer(source, goal):
    found = ANSWER.fullmatch(source.line())
    source.need(found)
    plies = int(found[2] or found[4])
    source.need(plies <= MOST_PLIES)
    if found[4]:
        return Answer(plies, None)
    source.need(found[1] == (b"mate" if goal == "mate" else b"goal") and plies % 2 == 1)
    return Answer(plies, found[3].decode())


# The claims. Each part begins with claims about the position itself, and its lines lead to others: a part has as many lines as claims.


class Part:
    """The claims of a part in the order of their lines, and the plies of the claim about each board."""

    def __init__(self, rules, source, looks):
        self.rules, self.source, self.looks = rules, source, looks
        self.claims, self.plies, self.numbers = [], {}, {}

    def add(self, board, plies):
        self.claims.append((board, plies))
        self.plies[board], self.numbers[board] = plies, len(self.claims)

    def is_forced(self, board, plies, claimed):
        """Decides whether the goal is forced within so few plies that no claim is needed. Without `looks` the certificate is believed."""
        return self.rules.is_forced(board, plies) if self.looks else claimed


class YesPart(Part):
    def lines(self, root, answer):
        self.add(root, answer.plies)
        for number, (board, plies) in enumerate(self.claims):
            words = self.source.words()
            move, after = self.source.place(self.rules.moves(board), words[0] if words else None)
            self.source.need(number > 0 or move == answer.move)
            replies = self.rules.moves(after)
            self.source.need(len(words) == len(replies) + 1)
            self.source.need(plies >= 3 if replies else self.rules.is_reached(after))
            yield Line(True, board, plies, move, [self.met(reply, word, plies - 2) for word, reply in zip(words[1:], replies)])

    def met(self, reply, word, left):
        """The reply leads to a board where the goal is forced within the plies that are left."""
        text, board = reply
        if word == ".":
            self.source.need(self.is_forced(board, min(LEAF, left), True))
        elif word == "=":
            self.source.need(self.plies.get(board, left + 1) <= left)
        else:
            self.source.need(isinstance(word, int) and 2 * word + 1 <= left and board not in self.plies)
            self.add(board, 2 * word + 1)
        return text, word, self.numbers.get(board)


class NoPart(Part):
    def lines(self, root, answer):
        if answer.move is None:
            self.add(root, answer.plies - 1 + answer.plies % 2)
        else:
            # The line of the first claim has only the moves before the answer's, and no line leads to it.
            self.claims.append((root, answer.plies))
            if answer.plies > 1:
                self.add(root, answer.plies - 2)
        for number, (board, plies) in enumerate(self.claims):
            moves = self.rules.moves(board)
            if number == 0 and answer.move is not None:
                moves = moves[: [text for text, _ in moves].index(answer.move)]
            words = self.source.words()
            self.source.need(len(words) == (0 if plies == 1 else len(moves)))
            self.source.need(not any(self.rules.is_reached(after) for _, after in moves))
            yield Line(False, board, plies, None, [self.fails(move, word, plies - 2) for word, move in zip(words, moves)])

    def fails(self, move, word, left):
        """After the move the defender is stalemated, or has the reply that is named."""
        text, after = move
        replies = self.rules.moves(after)
        if word == "-":
            self.source.need(not replies)
            return text, word, None
        reply, board = self.source.place(replies, word)
        if left <= LEAF:
            self.source.need(not self.is_forced(board, left, False))
        elif board not in self.plies:
            self.add(board, left)
        else:
            self.source.need(self.plies[board] >= left)
        return text, reply, self.numbers.get(board)


def lines_of(source, fen, goal, looks=True):
    """The answer, and then each claim with its line. Without `looks`, what a checker works out for itself is taken as true."""
    rules, root = read_position(fen, goal)
    answer = read_answer(source, goal)
    yield answer
    if answer.move is not None:
        yield from YesPart(rules, source, looks).lines(root, answer)
    yield from NoPart(rules, source, looks).lines(root, answer)
    source.end()


def answer_text(answer, goal):
    if answer.move is None:
        return f"none within {answer.plies}"
    return f"{'mate' if goal == 'mate' else 'goal'} {answer.plies} {answer.move}"


def verify(fen, stream, goal="mate"):
    """What is printed, and the status."""
    try:
        answer, *_ = lines_of(Source(stream), fen, goal)
    except Refused as fault:
        return f"refused: {fault}", 1
    return answer_text(answer, goal), 0


def main():
    parser = argparse.ArgumentParser(description="Prints the answer that a certificate on standard input proves.")
    parser.add_argument("--goal", choices=["mate", "stale"], default="mate", help="the attacker's goal (default %(default)s)")
    parser.add_argument("fen", metavar="FEN", help="the position, as one word")
    words = parser.parse_args()
    line, status = verify(os.fsencode(words.fen), sys.stdin.buffer, words.goal)
    print(line)
    return status


if __name__ == "__main__":
    sys.exit(main())
