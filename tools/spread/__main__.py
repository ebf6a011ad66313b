"""Solves a problem, or a file of positions, on many processors and machines, by GNU parallel.

The answers, refusals and statuses 0 to 4 are those of `minimate solve`, `minimate tree` (with --tree) and `minimate batch`, byte for
byte. Status 5 says that tasks couldn't be run. Standard error has the reason, or how many runs an answer rests on, and where they were
made.

`solve` plays rounds of 1, 3, 5 plies and so on. In a round of n plies each first move and each reply to it is a task: one call of
`minimate solve` within n - 2 plies, with a table of its own. A reply that escapes ends the tasks of its move; a move that wins ends those
of the moves after it. `batch` cuts the file into chunks of lines, each a task, and prints the answers in the file's order. A task that
fails is tried again, on another machine if there is one.

Without --hosts the tasks run on this machine. An interrupted run with --joblog goes on by the same words and --resume. docs/project/machines.md
says more.
"""

import argparse
import os
import re
import signal
import sys

sys.dont_write_bytecode = True
# Python puts the folder that it runs first on the path. The package's own folder is no place for names such as `parallel`.
sys.path[0] = os.path.dirname(os.path.dirname(os.path.abspath(__file__)))

import programs  # noqa: E402
import tree_parts  # noqa: E402
from spread import batch, parallel, solve, tasks  # noqa: E402

WRITE_FAILED, INTERRUPTED = 4, 130
# Options of the program's, of which each takes a value that doesn't begin with a dash.
OF_PROGRAM = ("--limit", "--mate", "--goal", "--slots", "--workers")
LINES = "--lines means the number of the input's lines in `minimate batch`: write --chunk L for the lines of a task"


class Once(argparse.Action):
    """An option that may occur once, as in the program."""

    def __call__(self, parser, space, value, option=None):
        if self.dest in space.seen:
            parser.error(f"{option} occurs twice")
        space.seen.add(self.dest)
        setattr(space, self.dest, value)


class Refused(argparse.Action):
    """An option that is refused by its help."""

    def __call__(self, parser, *_):
        parser.error(LINES)


def number(text):
    if not re.fullmatch(r"[1-9][0-9]{0,3}", text):
        raise argparse.ArgumentTypeError("a number from 1 to 9999 is wanted")
    return int(text)


def text_word(text):
    """Words are UTF-8, as the program's are."""
    try:
        text.encode()
    except UnicodeEncodeError:
        raise argparse.ArgumentTypeError("it isn't UTF-8") from None
    return text


def parser_of_words():
    how = {"allow_abbrev": False, "formatter_class": argparse.RawDescriptionHelpFormatter}
    parser = argparse.ArgumentParser(prog="python3 tools/spread", description=__doc__, **how)
    commands = parser.add_subparsers(dest="command", required=True, metavar="COMMAND")
    of_solve = commands.add_parser("solve", help="the fewest plies to the goal, as `minimate solve` prints it", **how)
    of_batch = commands.add_parser("batch", help="the same of each line of a file, as `minimate batch` prints it", **how)
    for command in (of_solve, of_batch):
        add_common(command)
    of_solve.add_argument("--tree", action="store_true", help="print the tree, once it is checked here")
    of_solve.add_argument("--tasks", action="store_true", help="run nothing: print the last round's tasks, as the joblog's lines begin")
    of_solve.add_argument("fen", metavar="FEN", type=text_word, help="the position, as one word")
    of_batch.add_argument("--chunk", type=number, default=200, action=Once, metavar="L", help="a task's lines (default %(default)s)")
    of_batch.add_argument("--lines", action=Refused, help=argparse.SUPPRESS)
    of_batch.add_argument("file", metavar="FILE", help="a position on each line")
    return parser


def add_common(command):
    command.set_defaults(seen=set())
    add, within = command.add_argument, command.add_mutually_exclusive_group(required=True)
    within.add_argument("--limit", metavar="N", action=Once, type=text_word, help="plies at most")
    within.add_argument("--mate", metavar="M", action=Once, type=text_word, help="moves at most: 2M-1 plies")
    add("--goal", choices=["mate", "stale"], default="mate", action=Once, help="mate, or mate or stalemate (default %(default)s)")
    add("--slots", metavar="S", default="1048573", action=Once, type=text_word, help="slots of each task's table (default %(default)s)")
    add("--workers", metavar="K", default="1", action=Once, type=text_word, help="workers of each task (default %(default)s)")
    add("--certify", action="store_true", help="verify each task's certificate here, so that no other machine has to be trusted")
    add("--hosts", metavar="FILE", action=Once, help="a line for each machine, as `parallel --sshloginfile` reads it: 8/me@host, or :")
    add("--remote", metavar="PROGRAM", default="minimate", action=Once, help="the program on those machines (default %(default)s)")
    add("--jobs", metavar="J", type=number, action=Once, help="tasks at a time on each machine (default: its processors)")
    add("--retries", metavar="R", type=number, default=3, action=Once, help="tries of a task in all (default %(default)s)")
    add("--joblog", metavar="FILE", action=Once, help="write each answer there as it comes")
    add("--resume", action="store_true", help="go on after the answers in the joblog")
    add("--program", metavar="PATH", action=Once, help="the program here (default: the one that ./minimate builds and runs)")


def words_of_line():
    parser = parser_of_words()
    words = sys.argv[1 : sys.argv.index("--")] if "--" in sys.argv else sys.argv[1:]
    for option, value in zip(words, words[1:]):
        if option in OF_PROGRAM and value.startswith("-"):
            parser.error(f"{option} wants a value")
    options = parser.parse_args()
    if options.resume and not options.joblog:
        parser.error("--resume wants --joblog FILE")
    return options


def interrupt(*_):
    raise KeyboardInterrupt


def answered(options):
    """Returns the bytes for standard output, the status, and the bytes for standard error."""
    work = {"solve": solve.Solve, "batch": batch.Batch}[options.command](options)
    try:
        text = work.answer()
        rests = "" if work.is_listing() else f"spread: this rests on {work.rests_on()}\n"
        return text if isinstance(text, bytes) else text.encode(), 0, rests.encode()
    except tasks.Answered as end:
        return end.output, end.status, end.error
    except (parallel.Fault, tree_parts.Differs, OSError) as fault:
        return b"", tasks.NOT_RUN, f"spread: {fault}\n".encode()
    except KeyboardInterrupt:
        how = "go on by the same words and --resume" if options.joblog else "no answer was kept, since there was no --joblog"
        return b"", INTERRUPTED, f"spread: interrupted; {how}\n".encode()


def main():
    options = words_of_line()
    for what in (signal.SIGTERM, signal.SIGHUP):
        signal.signal(what, interrupt)
    options.program = programs.find(options.program)
    os.environ.update(programs.launched(os.environ))
    output, status, error = answered(options)
    sys.stderr.buffer.write(error)
    sys.stderr.flush()
    try:
        sys.stdout.buffer.write(output)
        sys.stdout.flush()
    except OSError:
        os._exit(WRITE_FAILED)
    return status


if __name__ == "__main__":
    sys.exit(main())
