"""A file of positions, in chunks: the answers are those of `minimate batch`, in the file's order."""

import re
from typing import NamedTuple, Optional

import programs
from spread import parallel, tasks

READ_FAILED = 4
# The bytes that a shell's printf writes as they are; each other byte is written by its number.
PLAIN = set(b"ABCDEFGHIJKLMNOPQRSTUVWXYZabcdefghijklmnopqrstuvwxyz0123456789/ #")
MARK = b"\xef\xbb\xbf"
# No longer line is searched.
MOST_BYTES = 256
# The bytes of a chunk as printf has them, at most: Linux takes 128 KiB in one word, and parallel doubles backslashes, twice for ssh.
MOST_PRINTED = 24 << 10
# A line with a limit of its own, in moves; and a position of FEN's six fields, of which `batch` reads two.
OWN_LIMIT = re.compile(rb"([^;]*) ; dm ([1-9]|[12][0-9]|3[0-2])")
SIX_FIELDS = re.compile(r"([^ ]*/[^ ]* [^ ]+)(?: [^ ]+){4}")


class Question(NamedTuple):
    """The question of a line: its text, the limit in plies, and the limit in moves if the line itself names one."""

    text: bytes
    limit: int
    moves: Optional[int]

    def fen(self):
        """Returns the position of a text that isn't refused."""
        text = self.text.decode(errors="replace")
        six = SIX_FIELDS.fullmatch(text)
        return six[1] if six else text

    def reply(self, answer):
        """Returns the line's reply, given the answer at its position: it ends with whether the line names the moves that the answer
        takes."""
        if self.moves is None:
            return answer
        is_right = answer.split()[1:2] == [str(self.limit)]
        return f"{answer.rstrip()} {'ok' if is_right else 'differs'}\n"


def question_of(line, limit):
    """Returns the question of a line in a batch of this limit."""
    text = line.removesuffix(b"\r")
    own = OWN_LIMIT.fullmatch(text)
    return Question(own[1], 2 * int(own[2]) - 1, int(own[2])) if own else Question(text, limit, None)


class Batch(tasks.Work):
    """The answers to a file's lines, as bytes with their feeds."""

    def answer(self):
        limit = self.limit("batch")
        self.ask_here("batch", limit)
        lines = self.lines()
        self.open_log()
        answers = [None] * len(lines)
        self.answer_here(lines, answers, limit, [place for place, line in enumerate(lines) if not is_searched(line)])
        if self.options.certify:
            self.certify(answers, {place: question_of(line, limit) for place, line in enumerate(lines) if answers[place] is None})
        else:
            self.run_chunks(lines, answers, limit)
        return b"".join(answers)

    def lines(self):
        """Returns the file's lines, without a byte order mark before the first, as `batch` reads them. The last may lack its feed."""
        try:
            with open(self.options.file, "rb") as file:
                return lines_of(file.read().removeprefix(MARK))
        except OSError as fault:
            raise tasks.Answered(b"", READ_FAILED, f"spread: {self.options.file}: {fault.strerror}\n".encode()) from None

    def answer_here(self, lines, answers, limit, places):
        """Answers these lines by the program here. Lines that aren't searched may hold any bytes."""
        text = b"".join(lines[place] + b"\n" for place in places)
        made = lines_of(programs.run(programs.started(self.program, *self.words("batch", limit)), text, timeout=None).output)
        if len(made) != len(places):
            raise parallel.Fault(f"{self.program} batch answered {len(made)} of {len(places)} lines")
        for place, answer in zip(places, made):
            answers[place] = answer + b"\n"

    # Chunks

    def run_chunks(self, lines, answers, limit):
        """Answers the lines from the joblog, and the others in chunks."""
        for place, line in enumerate(lines):
            found = [self.log.answers.get(self.key(command, limit, position_of(line))) for command in self.believed()]
            answers[place] = answers[place] or next((it.encode() for it in found if it), None)
        chunks = self.chunks(lines, [place for place, answer in enumerate(answers) if answer is None])
        program = self.line("batch", limit)
        shell = [f"printf '{printed(lines[place] for place in chunk)}' | {program}" for chunk in chunks]
        if not chunks:
            return
        with parallel.Run(shell, self.machines) as running:
            for number, ended in running:
                chunk, made = chunks[number], ended.output.splitlines(keepends=True)
                if not ended.is_done() or len(made) != len(chunk) or not ended.output.endswith("\n"):
                    raise self.unanswered(f"lines {chunk[0] + 1} to {chunk[-1] + 1}: {program}", ended)
                self.runs[ended.where()] += 1
                for place, answer in zip(chunk, made):
                    answers[place] = answer.encode()
                    self.keep(lines[place], limit, answer, ended)

    def chunks(self, lines, places):
        """Cuts these places of lines into chunks of so many lines, and of so many bytes as a shell's line may have."""
        found, room = [], 0
        for place in places:
            size = len(printed([lines[place]]))
            if not found or len(found[-1]) == self.options.chunk or size > room:
                found.append([])
                room = MOST_PRINTED
            found[-1].append(place)
            room -= size
        return found

    def keep(self, line, limit, answer, ended):
        """Adds an answer to the joblog. A refusal costs nothing to find again."""
        if answer.startswith(("mate ", "goal ", "none ")):
            self.log.add(self.key("solve", limit, position_of(line)), answer, ended)

    # Certificates

    def certify(self, answers, questions):
        """Answers each line by the certificate of its position, within the line's own limit if it has one: from the joblog, or by a task.
        A refused line has no certificate."""
        self.refuse_here(answers, questions)
        wanted = {}
        for place, asked in questions.items():
            kept = self.log.answers.get(self.key("certify", asked.limit, asked.fen()))
            if answers[place] is None and kept:
                answers[place] = asked.reply(kept).encode()
            elif answers[place] is None:
                wanted[place] = asked
        if wanted:
            self.run_certificates(answers, wanted)

    def refuse_here(self, answers, questions):
        """Answers the lines that are refused, and those that one ply answers, by the program here. It is given each position without the
        line's own limit, within which it would search."""
        found = {}
        self.answer_here({place: asked.text for place, asked in questions.items()}, found, 1, list(questions))
        for place, asked in questions.items():
            if found[place].startswith((b"mate ", b"goal ")):
                answers[place] = asked.reply(found[place].decode()).encode()
            elif not found[place].startswith(b"none "):
                answers[place] = found[place]

    def run_certificates(self, answers, questions):
        """Answers each line by a task of its own, whose certificate is verified here."""
        places, asked = list(questions), list(questions.values())
        shell = [self.line("certify", it.limit, "--", it.fen()) for it in asked]
        with parallel.Run(shell, self.machines) as running:
            for number, ended in running:
                if not ended.is_done():
                    raise self.unanswered(shell[number], ended)
                fen = asked[number].fen()
                answer = self.answer_of(fen, shell[number], ended)
                self.runs[ended.where()] += 1
                answers[places[number]] = asked[number].reply(answer).encode()
                self.log.add(self.key("certify", asked[number].limit, fen), answer, ended)


def lines_of(text):
    lines = text.split(b"\n")
    return lines if lines[-1] else lines[:-1]


def position_of(line):
    """Returns a line's text. A line that holds a tab, or bytes that are no text, is no position, and no joblog has it."""
    return line.removesuffix(b"\r").decode(errors="replace")


def is_searched(line):
    return 0 < len(line.removesuffix(b"\r")) and len(line) <= MOST_BYTES and not line.startswith(b"#")


def printed(lines):
    """Returns the text of which printf makes these lines."""
    return "".join("".join(chr(byte) if byte in PLAIN else f"\\{byte:03o}" for byte in line) + "\\n" for line in lines)
