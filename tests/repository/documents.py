"""The pages of the repository as tests read them: prose, names in backquotes, console sessions and diagrams."""

import glob
import os
import re
import shlex

from programs import TOP, started

# A rank of a diagram as `minimate show` draws it, with two spaces between diagrams that stand side by side.
RANK = re.compile(r"(?:^ ?| {2,})([1-6])  ((?:[A-Za-z.] )*[A-Za-z.])(?= {2,}|$)")


def found(*patterns):
    """Returns the files and folders of these patterns, by their paths in the repository."""
    return sorted(it for pattern in patterns for it in glob.glob(pattern, root_dir=TOP, recursive=True))


def is_file(path):
    return os.path.isfile(os.path.join(TOP, path))


def read(path, errors="strict"):
    with open(os.path.join(TOP, path), encoding="utf-8", errors=errors) as file:
        return file.read()


def groups(text):
    """Yields each indented line of a text, after the last line above it that isn't indented."""
    for line in text.strip("\n").splitlines():
        if line.startswith("    "):
            yield name, line[4:]
        name = name if line.startswith("    ") else line


# The texts of all pages by their paths.
PAGES = {path: read(path) for path in found("*.md", "docs/**/*.md")}


def prose(text):
    """Returns the text without its blocks of code."""
    return re.sub(r"^( *)```.*?^\1```$", "", text, flags=re.M | re.S)


def blocks(text, language):
    """Returns the blocks of code of this language; those of none are called ""."""
    return [block for name, block in re.findall(r"^```(\w*)\n(.*?)^```$", text, flags=re.M | re.S) if name == language]


def joined(text):
    """Returns the prose of a text with each paragraph, item and row of a table on one line."""
    return re.sub(r"\n *(?![\s|#]|[-*] |\d+\. )", " ", prose(text))


def quoted(text):
    """Returns what the prose of a text has in backquotes."""
    return re.findall(r"`([^`\n]+)`", joined(text))


def sessions(text):
    """Yields each command of the console sessions, with the output that the text shows."""
    for block in blocks(text, "console"):
        for part in re.split(r"^\$ ", block, flags=re.M)[1:]:
            command, _, output = part.partition("\n")
            here = re.search(r"<<'(\w+)'", command)
            if here:
                given, _, output = output.partition(f"\n{here[1]}\n")
                command += f"\n{given}\n{here[1]}"
            yield command, output


def typed(program, command):
    """Returns a shell command in which the paths of the programs stand for the launcher's name."""
    return re.sub(r"\./minimate (?=(\S*))", lambda it: f"{shlex.quote(started(program, it[1])[0])} ", command)


def diagrams(text):
    """Yields the boards that a text draws: the ranks of each, the last one first, and its whole block if no other board is in that."""
    for block in blocks(text, ""):
        boards = {}
        for line in block.splitlines():
            for rank in RANK.finditer(line):
                place = min((it for it in boards if abs(it - rank.start(1)) < 2), default=rank.start(1))
                boards.setdefault(place, []).append((int(rank[1]), rank[2]))
        for board in boards.values():
            yield board, block if len(boards) == 1 else ""
