"""Runs the program's commands by the library: `python -m minimate solve --limit 3 'k5/6/2K3/6/6/1R4 w'`.

The output and the status are those of `minimate`: 0 answered, 1 refused, 2 wrong command line, 3 out of memory, 4 a read or a write failed, and
125 if there is no library. There is no `solution`, `certify` or `batch`, and no `--workers`: one thread searches.
"""

import argparse
import os
import re
import signal
import sys
from typing import Callable, Dict, List, Optional, Tuple

import minimate
from minimate import Interrupted, NoMemory, Position, Refused, Solver

# A tree's text has at most as many bytes. More are refused, however many.
MOST_BYTES = 1 << 20
SEARCHES = ("solve", "keys", "tree")
# As the launcher says that there is no program.
NO_LIBRARY = 125


def number(text: str) -> int:
    """A number as the program reads it: digits, perhaps after a plus, below 2^32."""
    if not re.fullmatch(r"\+?[0-9]+|-0+", text) or int(text) >= 2**32:
        raise argparse.ArgumentTypeError(f"{text!r} is no number from 0 to 4294967295")
    return int(text)


class Once(argparse.Action):
    """An option that may stand once."""

    def __call__(self, parser, namespace, values, option_string=None):  # type: ignore[no-untyped-def]
        if option_string in namespace.given:
            parser.error(f"{option_string} is given twice")
        namespace.given.append(option_string)
        setattr(namespace, self.dest, True if self.nargs == 0 else values)


def reader() -> argparse.ArgumentParser:
    words = argparse.ArgumentParser(prog="python -m minimate", description=__doc__, allow_abbrev=False)
    words.formatter_class = argparse.RawDescriptionHelpFormatter
    words.add_argument("--version", action="version", version=f"minimate {minimate.__version__}")
    words.add_argument("command", choices=list(COMMANDS), help="the command; `check` reads a tree on its input, `verify` a certificate")
    words.add_argument("fen", metavar="FEN", nargs="+", help="the position, as one word; for `after` also a move")
    words.add_argument("--limit", metavar="N", type=number, action=Once, help="for a search: the most plies, 1 to 63")
    words.add_argument("--slots", metavar="S", type=number, action=Once, help="for a search: the slots of the table, 1 to 1048576")
    words.add_argument("--goal", choices=["mate", "stale"], action=Once, help="for a search, a check or a certificate: with stale a stalemate counts too")
    words.add_argument("--progress", nargs=0, action=Once, help="for solve and tree: print on standard error the plies without a mate so far")
    words.set_defaults(given=[])
    return words


def read_words(words: List[str]) -> argparse.Namespace:
    """What the words ask. Those that are no command end the process with status 2."""
    parser = reader()
    asked = parser.parse_args(words)
    takes = {"check": ["--goal"], "verify": ["--goal"], "keys": ["--limit", "--slots", "--goal"]}.get(asked.command, [])
    if asked.command in ("solve", "tree"):
        takes = ["--limit", "--slots", "--goal", "--progress"]
    for option in asked.given:
        if option not in takes:
            parser.error(f"{asked.command} takes no {option}")
    fen, *more = asked.fen
    if len(more) != (asked.command == "after"):
        parser.error(f"{asked.command} takes {'a position and a move' if asked.command == 'after' else 'one position'}")
    asked.fen, asked.move = fen, more[0] if more else None
    if asked.command in SEARCHES and asked.limit is None:
        parser.error(f"{asked.command} needs --limit N")
    return asked


def say(text: str) -> None:
    """A line on standard error, where that can be written."""
    try:
        os.write(2, f"{text}\n".encode())
    except OSError:
        pass


def told(plies: int) -> None:
    say(f"none within {plies}")


def searched(asked: argparse.Namespace, position: Position) -> str:
    """What a search writes."""
    solver, goal, none = Solver(asked.slots), asked.goal or "mate", f"none within {asked.limit}"
    progress: Optional[Callable[[int], None]] = told if asked.progress else None
    if asked.command == "keys":
        return "\n".join(map(str, solver.keys(position, asked.limit, goal))) or none
    if asked.command == "solve":
        return str(solver.solve(position, asked.limit, goal, progress))
    return solver.tree_text(position, asked.limit, goal, progress) or none


def checked(asked: argparse.Namespace, position: Position) -> str:
    """What `check` writes of the tree on standard input. Bytes that aren't ASCII are no tree's, so which ones they are is all the same."""
    text = "".join(chr(byte) if byte < 128 else "?" for byte in read_input())
    plies = Solver().check(position, text, asked.goal or "mate")
    return "no" if plies is None else f"yes {plies}"


def verified(asked: argparse.Namespace, position: Position) -> str:
    """What `verify` writes of the certificate on standard input."""
    return str(minimate.verify(position, read_input(None), asked.goal or "mate"))


def read_input(most: Optional[int] = MOST_BYTES) -> bytes:
    """Standard input to its end, or until it has too many bytes."""
    parts: List[bytes] = []
    count = 0
    while most is None or count <= most:
        more = os.read(0, MOST_BYTES)
        if not more:
            break
        parts.append(more)
        count += len(more)
    return b"".join(parts)


def write_output(data: bytes) -> None:
    while data:
        data = data[os.write(1, data):]


def listed(_: argparse.Namespace, position: Position) -> str:
    return "\n".join(position.moves())


def shown(_: argparse.Namespace, position: Position) -> str:
    return str(position)


def played(asked: argparse.Namespace, position: Position) -> str:
    return position.after(asked.move).fen()


COMMANDS: Dict[str, Callable[[argparse.Namespace, Position], str]] = {
    "solve": searched,
    "keys": searched,
    "tree": searched,
    "check": checked,
    "verify": verified,
    "moves": listed,
    "show": shown,
    "after": played,
}


def answer(asked: argparse.Namespace) -> Tuple[str, int]:
    """What is written on standard output, and the status. Standard error has the sentence of a refusal."""
    try:
        return COMMANDS[asked.command](asked, Position(asked.fen)), 0
    except Refused as why:
        say(f"error: {why.sentence}")
        return why.reply, 1
    except MemoryError:
        say(f"error: {NoMemory.sentence}")
        return NoMemory.reply, 3


def main(words: List[str]) -> int:
    """One run of the words; answers the status."""
    try:
        for word in words:
            word.encode()
    except UnicodeEncodeError:
        say("error: a word isn't UTF-8")
        return 2
    asked = read_words(words)
    try:
        minimate.library_path()
    except OSError as why:
        say(f"error: {why}")
        return NO_LIBRARY
    try:
        text, status = answer(asked)
        write_output(f"{text}\n".encode() if text else b"")
    except OSError as why:
        say(f"error: {why}")
        return 4
    return status


if __name__ == "__main__":
    try:
        sys.exit(main(sys.argv[1:]))
    except Interrupted as why:
        # The search's own thread would go on: the process ends as the signal ends the program.
        say(str(why))
        signal.signal(signal.SIGINT, signal.SIG_DFL)
        os.kill(os.getpid(), signal.SIGINT)
