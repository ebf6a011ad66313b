"""What a user does whom a sentence of the program tells what to write, and texts with one change that the program refuses."""

import re

import check_tree
import second_reading
from changed_texts import LETTERS as STRANGE_LETTERS
from changed_texts import NO_TEXT, WORDS, changed_text

# Sentences that name no change, or say that one isn't enough: a text with these faults is to be written anew.
NO_CHANGE = re.compile(
    "a board of 8 ranks is ordinary chess|a board has six ranks of six squares or five of five|; the board has a fault too$|this line is missing, isn't a claim"
)
# How many texts that a sentence leaves the choice between are followed further.
MOST_CHOICES = 24
BLANKS = "[\t-\r ]"
LETTERS = "KQRBNPkqrbnp123456"


# What a sentence says is done


def fen_of(width, side, units):
    return check_tree.fen_text(check_tree.position_of(width, side, units))


def read(text):
    """The bytes that a sentence shows so, a letter each. The sentence's own letters are its bytes."""
    return text.encode("latin-1").decode("unicode_escape")


def choices(text, sentence, changes):
    """What a user may write who has read the sentence. A text's letters are its bytes."""
    for pattern, change in changes:
        found = re.search(pattern, sentence, re.S)
        if found:
            return list(change(text, *found.groups()))
    return []


def parts(text):
    """The ranks of a text, and what follows the board."""
    board, blank, rest = text.partition(" ")
    return board.split("/"), blank + rest


def joined_blanks(text):
    words = re.split(f"{BLANKS}+", text.strip())
    yield from ("".join(words[:count]) + "".join(" " + word for word in words[count:]) for count in range(len(words), 1, -1))


def slashed_blanks(text):
    words = re.split(f"{BLANKS}+", text.strip())
    yield from ("/".join(words[:count]) + "".join(" " + word for word in words[count:]) for count in range(len(words), 1, -1))


def without_slash(text, place):
    board, blank, rest = text.partition(" ")
    changed = {"at the beginning": board.removeprefix("/"), "at the end": board.removesuffix("/"), "between two ranks": board.replace("//", "/", 1)}
    yield changed[place] + blank + rest


def without_end(text, end):
    if text.endswith(read(end)):
        yield text.removesuffix(read(end))


def other_character(text, place, letters):
    at, count = int(place) - 1, len(read(letters))
    for letter in LETTERS + "/ wb":
        yield text[:at] + letter + text[at + count :]


def without_character(text, place, letters):
    at, count = int(place) - 1, len(read(letters))
    yield text[:at] + text[at + count :]


def other_ranks(text, ranks, width, _):
    rows, rest = parts(text)
    missing = int(width) - int(ranks)
    for place in range(len(rows) + 1):
        changed = [*rows[:place], *[width] * missing, *rows[place:]] if missing > 0 else [*rows[:place], *rows[place - missing :]]
        yield "/".join(changed) + rest


def other_rank(text, ranks, *uneven):
    """The ranks of these numbers with one change each, by which they have as many squares as there are ranks."""
    rows, rest = parts(text)
    width, boards = int(ranks), [rows]
    for place in (width - int(rank) for rank in uneven if rank):
        boards = [[*board[:place], row, *board[place + 1 :]] for board in boards for row in rows_of_width(board[place], width)]
    yield from ("/".join(board) + rest for board in boards)


def rows_of_width(row, width):
    edits = [row[:i] + bit + row[i + cut :] for i in range(len(row) + 1) for cut in (0, 1) for bit in ["", *"123456"]]
    edits = [it for it in dict.fromkeys(edits) if check_tree.row_width(it.encode("latin-1")) == width and not re.search("0|[0-9][0-9]", it)]
    return [*edits, str(width)]


def other_letter(text, rank, letter, units):
    rows, rest = parts(text)
    place = len(rows) - int(rank)
    for unit in units.replace(" ", "") + units.replace(" ", "").lower():
        yield "/".join([*rows[:place], rows[place].replace(read(letter), unit, 1), *rows[place + 1 :]]) + rest


def whole_runs(text):
    rows, rest = parts(text)
    yield "/".join(re.sub("[0-9]+", lambda run: str(sum(map(int, run[0]))).replace("0", ""), row) for row in rows) + rest


def other_sides(text):
    yield from (f"{text.split(' ')[0]} {side}" for side in "wb")


def units_by_square(text):
    rows, rest = parts(text)
    return check_tree.units_of([row.encode() for row in rows]), len(rows), rest.strip()


def other_kings(text):
    units, width, side = units_by_square(text)
    squares = [(file, rank) for file in range(width) for rank in range(width)]
    boards = [units]
    for king in "Kk":
        held = [square for square in units if units[square] == king]
        if not held:
            boards = [{**board, square: king} for board in boards for square in squares if board.get(square, "") not in ("K", "k")]
        else:
            boards = [{at: unit for at, unit in board.items() if unit != king or at == one} for board in boards for one in held]
    yield from (fen_of(width, side, board) for board in boards)


def fewer_units(text, most, whites, blacks):
    units, width, side = units_by_square(text)
    for is_side, count in ((str.isupper, int(whites)), (str.islower, int(blacks))):
        surplus = [square for square in units if is_side(units[square]) and units[square] not in "Kk"][: max(0, count - int(most))]
        units = {square: unit for square, unit in units.items() if square not in surplus}
    yield fen_of(width, side, units)


def other_pawns(text, rank):
    units, width, side = units_by_square(text)
    yield fen_of(width, side, {at: unit for at, unit in units.items() if at[1] != int(rank) - 1 or unit not in "Pp"})


def moved_kings(text, of_both=True):
    units, width, side = units_by_square(text)
    for king in ("K", "k") if of_both else ("k" if side == "w" else "K"):
        rest = {square: unit for square, unit in units.items() if unit != king}
        free = [(file, rank) for file in range(width) for rank in range(width) if (file, rank) not in rest]
        yield from (fen_of(width, side, {**rest, square: king}) for square in free)


def ended_check(text):
    """The king of the side that isn't to move elsewhere, or one unit less that may check it."""
    yield from moved_kings(text, False)
    units, width, side = units_by_square(text)
    yield from (fen_of(width, side, {at: it for at, it in units.items() if at != one}) for one in units if units[one] not in "Kk")


CHANGES = [
    (r"a line has its moves after its position: write '(.*)' in place of '(.*)'", lambda text, new, old: [text.removesuffix(read(old)) + new]),
    (r"after ; dm a line has its number of moves", lambda text: [re.sub(r"\d+$", "2", text)]),
    (r"there is no position: write one, as (.*)", lambda text, fen: [fen]),
    (r"begins with a byte order mark: leave out these three", lambda text: [text[3:]]),
    (r"character (\d+) is not ASCII: leave out '(.*)'", without_character),
    (r"character (\d+) is not ASCII: write a letter, a digit, / or a space for '(.*)'", other_character),
    (r"there are blanks inside the board: leave them out", joined_blanks),
    (r"blanks separate the ranks: write / between the ranks instead", slashed_blanks),
    (r"the board has one / too many ([a-z ]+): leave it out", without_slash),
    (r"(?:around|after) the (?:position|board): write '(.*)'", lambda text, new: [read(new)]),
    (r"here is one; write ' w' or ' b' after the board", lambda text: [text.strip("\t\n\v\f\r ") + end for end in (" w", " b")]),
    (r"; leave out '(.*)'", without_end),
    (r"the side to move is w or b: leave out '(.*)' after it", without_end),
    (r"the side to move is w or b: write ([wb]) in place of '(.*)'", lambda text, side, old: [text.removesuffix(read(old)) + side]),
    (r"the side to move is w or b: here is '(?:.*)'", other_sides),
    (r"here are (\d+) ranks of (\d+) squares: write (\d+) ranks", other_ranks),
    (r"a board of (\d+) ranks has \d+ squares in each: here rank (\d+) has \d+(?:, and rank (\d+) has \d+)?", other_rank),
    (r"rank (\d+) has '(.*)': the units of .* are ([A-Z ]+), and", other_letter),
    (r"rank \d+ has '\d+': write each run of empty squares as one digit", whole_runs),
    (r"each side has one king", other_kings),
    (r"a side has at most (\d+) units in .*: here White has (\d+) and Black (\d+)", fewer_units),
    (r"rank (\d) has a pawn", other_pawns),
    (r"is to move: write ([wb]) for the side", lambda text, side: [text[:-1] + side]),
    (r"the kings are next to each other", moved_kings),
    (r"both kings are in check: move the king", ended_check),
]


# What a sentence on words says is done


def without(words, goes):
    """The words without those that are named, wherever they stand."""
    for at in range(1, len(words)):
        for count in (1, 2):
            if " ".join(words[at : at + count]) == goes and at + count <= len(words):
                yield [*words[:at], *words[at + count :]]


def in_place(words, old, *new):
    """The words with others in place of one; of an option with a value in one word the option alone is another."""
    for at, word in enumerate(words):
        name, equals, value = word.partition("=")
        if at and word == old:
            yield [*words[:at], *new, *words[at + 1 :]]
        elif at and equals and name == old:
            yield [*words[:at], *new[:1], *new[1:], *words[at + 1 :]] if len(new) > 1 else [*words[:at], f"{new[0]}={value}", *words[at + 1 :]]


def another_number(words, option, number, value):
    for at, word in enumerate(words):
        if word == option and words[at + 1 : at + 2] == [value]:
            yield [*words[: at + 1], number, *words[at + 2 :]]
        if word == f"{option}={value}":
            yield [*words[:at], f"{option}={number}", *words[at + 1 :]]


def number_behind(words, option, number):
    yield from ([*words[: at + 1], number, *words[at + 1 :]] for at, word in enumerate(words) if word == option)


def quoted(words, fen):
    board, _, side = fen.rpartition(" ")
    yield from ([*words[:at], fen, *words[at + 2 :]] for at in range(len(words)) if words[at : at + 2] == [board, side])


def command_first(words, _):
    at = next(at for at, word in enumerate(words) if word in second_reading.COMMANDS)
    yield [words[at], *words[:at], *words[at + 1 :]]


def without_search(words, command):
    """The words without the options of a search that the command doesn't take, and without the numbers after them."""
    kept, rest, takes = [], list(words), second_reading.COMMANDS[command].values
    while rest:
        word = rest.pop(0)
        name, equals, _ = word.removeprefix("--").partition("=")
        if word.startswith("--") and name in second_reading.SEARCH | {"progress"} and name not in takes:
            if not equals and name != "progress" and rest and not rest[0].startswith("-") and "/" not in rest[0]:
                rest.pop(0)
        else:
            kept.append(word)
    yield kept


WORD_CHANGES = [
    (r"a position is one word, so quote it: '(.*)'$", quoted),
    (r"(\w+) is a command: write it without dashes", lambda words, name: [[name, *words[1:]]]),
    (r"options come after the command: write it before (.*)$", command_first),
    (r"write (--\w+) (\w+) in place of (--?\w+)$", lambda words, name, value, old: in_place(words, old, name, value)),
    (r"write (--\w+) in place of (--?\w+)$", lambda words, name, old: in_place(words, old, name)),
    (r"(--\w+) is a number from .*: write (\d+) in place of '(.*)'$", another_number),
    (r"(--\w+) is a number from .*: write (\d+) after it", number_behind),
    (r"(?:--\w+) is there already: leave out (.*)$", without),
    (r"(?:--\w+) is an option of .*: leave out (.*)$", without),
    (r"(\w+) makes no search: leave out .*, and the other options of a search", without_search),
    (r"(?:\w+) makes no search: leave out (.*)$", without),
    (r"write solve in place of batch", lambda words: [["solve", *words[1:]]]),
    (r"write '< .*' in place of '(.*)'$", without),
    (r"write '--limit (.*)' in place of '(.*)'$", lambda words, number, old: in_place(words, old, "--limit", number)),
    (r"add --limit 3, in plies, or --mate 2", lambda words: [[*words, "--limit", "3"], [*words, "--mate", "2"]]),
    (r"--limit and --mate say the same: leave one", lambda words: [it for name in ("--limit", "--mate") for it in without_option(words, name)]),
    (r"--goal is mate or stale: write one of these", lambda words: [it for goal in ("mate", "stale") for it in another_goal(words, goal)]),
]


def without_option(words, name):
    for at, word in enumerate(words):
        if word.partition("=")[0] == name:
            yield [*words[:at], *words[at + (1 if "=" in word else 2) :]]


def another_goal(words, goal):
    for at, word in enumerate(words):
        if word == "--goal":
            yield [*words[: at + 1], goal, *words[at + 2 :]]
        if word.startswith("--goal="):
            yield [*words[:at], f"--goal={goal}", *words[at + 1 :]]


PROOF_CHANGES = [
    (r"for the other goal: add --goal stale", lambda asked: [([*asked[0], "--goal", "stale"], asked[1])]),
    (r"for the other goal: leave out --goal stale", lambda asked: [([asked[0][0], asked[0][-1]], asked[1])]),
    (r"ends with a carriage return: end each line with a line feed only", lambda asked: [(asked[0], asked[1].replace(b"\r\n", b"\n"))]),
    (r"the first line has no line feed: write one after it", lambda asked: [(asked[0], asked[1] + b"\n")]),
]


# Following advice


def follow(text, told, is_taken, changes):
    """Whether the advice on a text that is refused leads anywhere, and the way: each text with its sentence."""
    way, texts = [], [text]
    for _ in range(2):
        following = []
        for one in texts[:MOST_CHOICES]:
            sentence = told(one)
            way.append((one, sentence))
            if sentence is None or NO_CHANGE.search(sentence):
                return True, way
            new = choices(one, sentence, changes)
            if any(is_taken(it) for it in new):
                return True, way
            following += new
        texts = following
    return any(told(one) is None for one in texts[:MOST_CHOICES]), way


def is_position(text):
    try:
        check_tree.read_position(text.encode("latin-1"))
    except check_tree.Refused:
        return False
    return True


def is_line(words):
    return second_reading.read_words([word.encode() for word in words]) is not None


# What is changed


def changed_run(chance, fen):
    """A run of empty squares in two, with a zero, or with a unit in it."""
    places = [place for place, letter in enumerate(fen) if letter in "23456"]
    if not places:
        return fen
    place = chance.choice(places)
    length = int(fen[place])
    part = chance.randrange(1, length)
    unit = f"{part}{chance.choice('QRBNPqrbnpKk')}{length - part - 1 or ''}"
    return fen[:place] + chance.choice([f"{part}{length - part}", f"0{length}", f"{length}0", unit]) + fen[place + 1 :]


def changed_unit(chance, fen):
    """One unit moved, taken off, put on or recoloured, or the other side to move."""
    position = check_tree.read_position(fen.encode())
    units, width, side = dict(position.units), position.width, position.side
    square, start = (chance.randrange(width), chance.randrange(width)), chance.choice(list(units))
    action = chance.choice(["move", "take", "put", "recolour", "side"])
    if action == "put":
        units[square] = chance.choice("KQRBNPkqrbnp")
    elif action == "recolour":
        units[start] = units[start].swapcase()
    elif action == "side":
        side = check_tree.other(side)
    else:
        letter = units.pop(start)
        units.update({square: letter} if action == "move" else {})
    return fen_of(width, side, units)


LETTERS_PUT = [letter.encode().decode("latin-1") for letter in [*STRANGE_LETTERS, "\u2654"]]
# Words that are put in: those of the second reading but the ones that ask for help, and some that users write.
WORDS_PUT = [it for it in WORDS if it not in ("--help", "-h", "--version", "-V", "help", NO_TEXT)]
WORDS_PUT += "--moves --threads --lim --moves=2 --worker positions --skip".split()


def changed_words(chance, words):
    """One change of a command line: a word left out, said twice, put in or put elsewhere, a position cut in two, or a letter."""
    place, other = chance.randrange(len(words)), chance.randrange(len(words))
    action = chance.choice(["drop", "repeat", "insert", "replace", "swap", "letters", "cut", "join"])
    words = list(words)
    if action == "drop":
        del words[place]
    elif action == "repeat":
        words.insert(other, words[place])
    elif action == "insert":
        words.insert(place, chance.choice(WORDS_PUT))
    elif action == "replace":
        words[place] = chance.choice(WORDS_PUT)
    elif action == "swap":
        words[place], words[other] = words[other], words[place]
    elif action == "letters":
        words[place] = changed_text(chance, words[place], [*"KQRBNPkqrbnp0123456789/ wbx-", "=", "--"])
    elif action == "cut":
        words[place : place + 1] = words[place].split(" ")
    else:
        words[place : place + 2] = [chance.choice(["=", " ", ""]).join(words[place : place + 2])]
    return words


def changed_moves(chance, fen):
    """A position followed by its moves, written in another way than a batch reads them, or with too many of them."""
    moves = chance.choice(["1", "2", "02", "32", "002"])
    tail = chance.choice([";dm {}", " ;dm {}", " ; dm {} ", " ; dm  {}", " dm {};", " - - dm {};", "; dm {};", " ;  dm {}", " ; dm{}"])
    return fen + chance.choice([tail.format(moves), tail.format(moves), f" ; dm {chance.choice(['0', '33', '64', '99'])}"])
