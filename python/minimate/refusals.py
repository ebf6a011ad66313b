"""What the program refuses, as exceptions with its names and its sentences."""

import re
from typing import Optional

# The sentences of refusals that rest on no position's text. The library has those that do.
SENTENCES = {
    "Limit": "--limit is 1 to 63 plies: a mate in M moves is --limit 2M-1, or --mate M, 1 to 32",
    "Slots": "--slots is 1 to 1048576",
    "TooLong": "a tree has at most 1048576 bytes, its line feed counted, and a line of a certificate 8192",
    "Deep": "more than 32 moves of the attacker are nested: no tree of 63 plies needs so many",
    "Answer": "the first line is no answer: write it as `solve` prints it for this goal, as mate 3 c4c5",
    "Claim": "this line is missing, isn't a claim, or is false for this position and goal",
    "Move": "no lawful move has this name: a move is two squares and what a pawn becomes, as c4c5q",
    "NoMemory": "out of memory: a search takes less with fewer --slots or --workers",
}
# How many bytes of a certificate are looked at for what is wrong with its first line.
MOST_KNOWN = 64
NO_TREE = "the input doesn't begin with a move: if `tree` printed no tree, there is none to check; a byte order mark is no part of a tree"
BROKEN_TREE = (
    "after its first {} bytes the input is no tree: a tree is a move and then #, = or the replies, as c4c5{{a6a5:b1a1#}}, and at most one line feed, without a carriage return"
)
REFUSED = re.compile(r"refused: (\w+)(?: at (offset|line) (\d+))?\n(?:error: (.*)\n)?", re.S)


class Refused(ValueError):
    """What was given is refused, as the program refuses it.

    `name` is the program's name of the fault, as ``Shape`` or ``Limit``; `sentence`, which is the exception's text too, what it says on
    standard error; `offset`, of a tree's text alone, how many of its first bytes begin some tree; `line`, of a certificate alone, which
    of its lines is refused.
    """

    def __init__(self, name: str, sentence: str, offset: Optional[int] = None, line: Optional[int] = None) -> None:
        super().__init__(name, sentence, offset, line)
        self.name, self.sentence, self.offset, self.line = name, sentence, offset, line

    def __str__(self) -> str:
        return self.sentence

    @property
    def reply(self) -> str:
        """What the program writes on standard output."""
        at = "" if self.offset is None else f" at offset {self.offset}"
        return f"refused: {self.name}" + (at if self.line is None else f" at line {self.line}")


class NoMemory(MemoryError):
    """A request of the library for memory was refused. A solver of fewer slots takes less."""

    name = "NoMemory"
    sentence = SENTENCES["NoMemory"]
    reply = "refused: NoMemory"

    def __str__(self) -> str:
        return self.sentence


def first_line_sentence(certificate: bytes, counts_stale: bool) -> str:
    """What is wrong with the first line of a certificate, as the program says it."""
    known = certificate[:MOST_KNOWN]
    line = known[: known.find(b"\n") + 1] or known
    if line.startswith(b"mate " if counts_stale else b"goal "):
        return f"the first line is an answer for the other goal: {'leave out' if counts_stale else 'add'} --goal stale"
    if line.endswith(b"\r\n"):
        return "the first line ends with a carriage return: end each line with a line feed only"
    if line and len(line) < MOST_KNOWN and not line.endswith(b"\n"):
        return "the first line has no line feed: write one after it"
    return SENTENCES["Answer"].replace("mate 3 c4c5", "goal 1 b1b5") if counts_stale else SENTENCES["Answer"]


def named(name: str, offset: Optional[int] = None) -> Refused:
    """The refusal of this name, with its sentence."""
    if offset is not None:
        return Refused(name, BROKEN_TREE.format(offset) if offset else NO_TREE, offset)
    return Refused(name, SENTENCES.get(name, ""))


def answered(reply: bytes) -> str:
    """The reply as text, where it is none of a refusal."""
    text = reply.decode("utf-8", "backslashreplace")
    found = REFUSED.fullmatch(text)
    if found is None:
        return text
    name, of, count, sentence = found.groups()
    if name == "NoMemory":
        raise NoMemory
    if sentence is not None:
        raise Refused(name, sentence)
    if of == "line":
        raise Refused(name, SENTENCES[name], line=int(count))
    raise named(name, None if count is None else int(count))
