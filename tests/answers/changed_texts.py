"""Positions, trees and command lines changed by lot. `chance` is a random.Random."""

import re

import check_tree
from second_reading import COMMANDS

LETTERS = list("KQRBNPkqrbnp0123456789/ wbx-") + ["é", "\u2028", "王", "\n", "\t", "\x7f"]
TREE_BITS = ["a1", "c4c5", "a6a5", "e1e6q", "g7", "{", "}", ":", ",", "#", "=", "}}", "{}", "##", " ", "\n", "\r\n", "\0", "é"]
# A byte that no text in UTF-8 has, as Python hands it over.
NO_TEXT = "\udcff"
WORDS = """solve moves tree check keys show after batch verify certify solution help --mate --mate=1 --skip --skip=1 --lines=9 --echo --keys
--json --progress --svg --black --unicode --set --tries --figurines --short --first --first=c4c5 c4c5 b1b5 --limit --workers --slots --goal
--limit=1 --limit=3 --limit=0 --limit=64 --limit=-1 --limit= --limit=+1 --limit=001 --limit=4294967295 --limit=4294967296 --limit=x --workers=1
--workers=16 --workers=17 --slots=1 --slots=0 --slots=1048577 --goal=mate --goal=stale --goal=Mate --goal= --goals --lim --help -h --version -V
-- - -1 +1 1 2 3 0 64 63 x mate stale 1.0 1e0 0x1 --limit=1e0 --LIMIT=1 -limit --=1 ---""".split() + ["", " ", "é", NO_TEXT]


def changed_text(chance, text, bits):
    """One change of a text: a part left out, inserted, replaced, repeated or moved, or the end cut off."""
    place, length = chance.randrange(len(text) + 1), chance.choice([1, 1, 1, 2, 5])
    bit, other = chance.choice(bits), chance.randrange(len(text) + 1)
    part = text[place : place + length]
    before, after = text[:place], text[place + length :]
    turned = text.swapcase() if chance.random() < 0.1 else before + text[place : place + 1].swapcase() + text[place + 1 :]
    moved = text[:other] + part + text[other:]
    return chance.choice([before + after, before + bit + part + after, before + bit + after, before + part + part + after, moved, before, turned])


def changed_bytes(chance, text, some):
    """Each change of a byte, with what it is. `some` are the bytes that may be inserted."""
    place, byte = chance.randrange(len(text)), bytes([chance.choice(some)])
    yield "cut", text[:place]
    yield "a byte left out", text[:place] + text[place + 1 :]
    yield "a byte more", text[:place] + byte + text[place:]
    yield "another byte", text[:place] + byte + text[place + 1 :]
    yield "a byte at the end", text + byte


def changed_positions(chance, fen, count):
    """Words that are often no position's, or another position's."""
    yield from (fen[:-1] + "bw"[fen[-1] == "b"], fen.swapcase(), fen[:-2], fen + " - -", "", " ")
    for _ in range(count):
        # A word of a command can't hold every byte, and a dash may begin an option.
        place, letter = chance.randrange(len(fen)), chance.choice("KQRBNPkqrbnp0123456789/ wbx")
        yield from (fen[:place] + fen[place + 1 :], fen[:place] + letter + fen[place:], fen[:place] + letter + fen[place + 1 :])


def changed_run(chance, fen):
    """A run of empty squares written as two runs or with a zero, or one or all filled with units, so that the board keeps its shape."""
    letters = chance.choice(["QRNP", "qrnp", "QRN", "qrn", "QRBNPqrbnp", "QRNk"])

    def filled(count):
        return "".join(chance.choice(letters) for _ in range(count))

    if chance.random() < 0.1:
        return re.sub("[1-6]", lambda run: filled(int(run[0])), fen)
    places = [place for place, letter in enumerate(fen) if letter in "23456"]
    if not places:
        return fen
    place = chance.choice(places)
    length = int(fen[place])
    part = chance.randrange(1, length)
    runs = [f"{part}{length - part}", f"0{length}", f"{length}0", *[filled(length)] * 3]
    return fen[:place] + chance.choice(runs) + fen[place + 1 :]


def changed_units(chance, fen):
    """The text of the position with units moved, taken off, put on or recoloured, sound or not."""
    position = check_tree.read_position(fen.encode())
    units, width = dict(position.units), position.width
    squares = [(file, rank) for file in range(width) for rank in range(width)]
    for _ in range(chance.choice([1, 1, 2, 4])):
        # A king is seldom left out or put under another unit: otherwise nearly every refusal would be `Kings`.
        spared = "" if chance.random() < 0.1 else "Kk"
        square = chance.choice([it for it in squares if units.get(it, "") not in spared or it not in units])
        start = chance.choice([it for it in units if units[it] not in spared] or [square])
        action = chance.choice(["move", "move", "take", "put", "recolour"])
        if action == "put" or start not in units:
            units[square] = chance.choice("QRBNPqrbnp" if width == 5 else "QRNPqrnp")
        elif action == "recolour":
            units[start] = units[start].swapcase()
        else:
            letter = units.pop(start)
            units.update({square: letter} if action == "move" else {})
    return check_tree.fen_text(check_tree.position_of(width, chance.choice("wb"), units))


def options_by_lot(chance, command):
    """Options as the documents allow them, some with numbers outside their limits."""
    choices = {"limit": ["1", "2", "3", "1", "+1", "0", "64"], "mate": ["1", "2", "0", "33"], "workers": ["1", "2", "3", "16", "17"]}
    choices |= {"slots": ["1", "64", "0", "2"], "goal": ["mate", "stale"], "first": ["c4c5", "f1f6", "a1a2"]}
    choices |= {"lines": ["0", "7"], "skip": ["0", "1", "9"]}
    takes, words = COMMANDS[command], []
    limit = chance.choice(["limit", "limit", "limit", "mate"])
    for name in sorted(takes.values):
        if name == limit or (name not in ("limit", "mate") and chance.random() < 0.3):
            value = chance.choice(choices[name])
            words += chance.choice([[f"--{name}", value], [f"--{name}={value}"]])
    return words + [f"--{name}" for name in sorted(takes.flags - {"progress"}) if chance.random() < 0.2]


def whole_line(chance, command, fen):
    words = options_by_lot(chance, command)
    others = {0: [], 1: [fen], 2: [fen, chance.choice(["c4c5", "f1f6", "b1b5", "a1a2"])]}[COMMANDS[command].words]
    return [command, *others, *words] if chance.random() < 0.3 else [command, *words, *others]


def changed_words(chance, words):
    words = list(words)
    for _ in range(chance.choice([1, 1, 2, 3])):
        place = chance.randrange(len(words)) if words else 0
        action = chance.choice(["drop", "repeat", "insert", "insert", "replace", "swap", "letters", "join"])
        if action == "insert" or not words:
            words.insert(place, chance.choice(WORDS))
        elif action == "drop":
            del words[place]
        elif action == "repeat":
            words.insert(chance.randrange(len(words) + 1), words[place])
        elif action == "replace":
            words[place] = chance.choice(WORDS)
        elif action == "swap":
            other = chance.randrange(len(words))
            words[place], words[other] = words[other], words[place]
        elif action == "letters":
            words[place] = changed_text(chance, words[place], [*LETTERS, "=", "--", NO_TEXT])
        else:
            words[place : place + 2] = [chance.choice(["=", " ", ""]).join(words[place : place + 2])]
    return words
