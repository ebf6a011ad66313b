"""The tasks of a problem and of a file of positions: the program here, the words of a task, and the runs that an answer rests on."""

import collections
import re
import shlex
from pathlib import Path

import programs
from spread import joblog, parallel

# Limits in plies and in moves.
MOST_PLIES, MOST_MOVES = 63, 32
NO_MEMORY, NOT_RUN = 3, 5
STATUSES = range(5)


class Answered(Exception):
    """Bytes that are printed in place of an answer, and the status: a refusal."""

    def __init__(self, output, status, error=b""):
        super().__init__(output, status)
        self.output, self.status, self.error = output, status, error


class Work:
    """The work that the words of a line name."""

    def __init__(self, options):
        self.options, self.program, self.goal = options, options.program, options.goal
        self.log, self.runs = None, collections.Counter()
        self.machines = parallel.Machines(options.hosts, options.jobs, options.retries)

    # The program here

    def words(self, command, within):
        """Returns the words after the program's name, without the position. `within` is a number of plies, or an option."""
        within = f"--limit={within}" if isinstance(within, int) else within
        return [command, within, f"--goal={self.goal}", f"--slots={self.options.slots}", f"--workers={self.options.workers}"]

    def ask_here(self, command, within, *words):
        """Returns the answer of the program here. A refusal ends the work."""
        try:
            ran = programs.run(programs.started(self.program, *self.words(command, within), *words), timeout=None)
        except (OSError, ValueError) as fault:
            raise parallel.Fault(f"{self.program} can't be run: {fault}") from None
        if ran.status != 0:
            raise Answered(ran.output, ran.status if ran.status in STATUSES else NOT_RUN, ran.error)
        self.runs[parallel.HERE] += 1
        return ran.output.decode()

    def limit(self, command, *words):
        """Returns the limit in plies. A limit that isn't searched is the program's to refuse."""
        text, most = (self.options.limit, MOST_PLIES) if self.options.mate is None else (self.options.mate, MOST_MOVES)
        if re.fullmatch(r"\+?[0-9]+", text) and 1 <= int(text) <= most:
            return int(text) if self.options.mate is None else 2 * int(text) - 1
        option = f"--limit={text}" if self.options.mate is None else f"--mate={text}"
        self.ask_here(command, option, *words)
        raise parallel.Fault(f"{self.program} takes {option}")

    def open_log(self):
        look_at_hosts(self.options.hosts)
        self.log = joblog.Joblog(self.options.joblog, self.options.resume)

    # Tasks

    def line(self, command, limit, *words):
        """Returns a task as a shell's line. On other machines the launcher picks the program."""
        task = [*self.words(command, limit), *words]
        return shlex.join([self.options.remote, *task] if self.options.hosts else programs.started(self.program, *task))

    def command(self):
        """Returns the command of a task, which makes an answer or its certificate."""
        return "certify" if self.options.certify else "solve"

    def believed(self):
        """Returns the commands whose answers in the joblog count. An answer that a certificate has proved always counts."""
        return ["certify"] if self.options.certify else ["solve", "certify"]

    def answer_of(self, fen, line, ended):
        """Returns a task's answer. The answer of a certificate is the one that the program here finds proved."""
        if not self.options.certify:
            return ended.output
        first, feed, _ = ended.output.partition("\n")
        words = programs.started(self.program, "verify", f"--goal={self.goal}", "--", fen)
        ran = programs.run(words, ended.output.encode(), timeout=None)
        if (ran.output, ran.status) != ((first + feed).encode(), 0):
            why = (ran.error or ran.output).decode(errors="replace").strip()
            raise parallel.Fault(f"{line}: the certificate that came back from {ended.where()} proves no answer: {why}")
        return first + feed

    def key(self, command, limit, fen):
        return joblog.Key(command, self.goal, str(limit), fen)

    def unanswered(self, line, ended):
        """Returns what ends the work if a task failed each time that it was tried."""
        if ended.status == NO_MEMORY and ended.output == "refused: NoMemory\n":
            return Answered(ended.output.encode(), NO_MEMORY, f"spread: {line}: {ended.why()}\n".encode())
        return parallel.Fault(f"{line}: {ended.why()}")

    def is_listing(self):
        """Whether the work runs no task."""
        return False

    def rests_on(self):
        """Returns which runs were made, and where, as the end of a sentence."""
        where = ", ".join(f"{count} on {host}" for host, count in sorted(self.runs.items()))
        checked = ", whose certificates were verified here" if self.options.certify else ""
        kept = f" and {self.log.kept} answers of {self.options.joblog}" if self.log and self.log.kept else ""
        return f"{sum(self.runs.values())} runs of minimate ({where}){checked}{kept}"


def look_at_hosts(path):
    """Raises Fault unless the file of hosts is there and names one."""
    if path is None:
        return
    try:
        lines = [line.strip() for line in Path(path).read_text(encoding="utf-8").splitlines()]
    except (OSError, UnicodeDecodeError) as fault:
        raise parallel.Fault(f"the file of hosts can't be read: {fault}") from None
    if not [line for line in lines if line and not line.startswith("#")]:
        raise parallel.Fault(f"{path} names no host")
