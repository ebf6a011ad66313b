"""The certificates of the bench, numbered as its lines and packed by xz, and the answers that they have to prove."""

import lzma
import os

from programs import TOP

# A line has no file there if its certificate takes more bytes than this, packed.
FOLDER, MOST_BYTES = os.path.join(TOP, "bench", "mates", "certificates"), 65536


def path_of(line):
    return os.path.join(FOLDER, f"{line.number:03}.xz")


def packed(text):
    return lzma.compress(text, preset=9 | lzma.PRESET_EXTREME)


def search_of(line):
    return ["--goal", line.goal, "--limit", str(line.limit), "--workers", "1", "--slots", "1048573", line.fen]


def answer_of(line):
    """Returns the output that the table of the bench expects."""
    word = "mate" if line.goal == "mate" else "goal"
    return (f"{word} {line.plies} {line.move}\n" if line.plies else f"none within {line.limit}\n").encode()
