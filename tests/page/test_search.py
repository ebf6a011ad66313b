"""Solves, stops and continues searches, and reads keys and trees."""

import re
import time

import check_tree
import pytest
from programs import tool
from drive import DONE, FIVE, KINGS, LONG, ONE_PAWN, TEXT, THIRD, VALUE, lawful_moves
from short_moves import SHORT

SHOW_TREE = tool("show_tree")
LINES = "[...document.querySelectorAll('.line')].map((one) => [...one.querySelectorAll('.move')].map((it) => it.textContent).join(' '))"
DEPTHS = """[...document.querySelectorAll('.line')].map((one) => {
let depth = 0; for (let up = one; (up = up.parentElement.closest('li')); ) depth += 1; return depth; })"""
PLIES = r"\d+ pl(?:y|ies) \(\d+ moves?\)"
# Lends the page's way of writing moves to this tool.
WRITER = """Promise.all([import('./rules.js'), import('./library.js'), import('./notation.js')])
.then(async ([{ Rules }, { Library, compiled, moduleName }, { moveWritten }]) => {
const rules = new Rules(new Library(await compiled(moduleName())));
window.written = (fen, move) => moveWritten(rules, fen, move); })"""
# Keeps all that is said of the search from then on.
OBSERVED = """(() => { const state = document.getElementById('state'); window.told = [];
new MutationObserver(() => told.push(state.textContent)).observe(state, { childList: true }); })()"""
RUNS = "!document.getElementById('stop').disabled"


def test_a_problem_is_solved(drive):
    """The answer, the tree and the keys."""
    drive.go(THIRD)
    drive.solve()
    drive.expect("the answer", "answer", "Mate in 2 moves (3 plies): 1.Kc5")
    drive.same("the tree", drive.texts(".move"), ["1.Kc5", "1...Ka5", "2.Ra1#"])
    drive.shot("solved")
    drive.solve("keys")
    drive.same("the keys", drive.texts("#keylist button"), ["1.Kc5 in 2 moves"])
    drive.expect("their number", "answer", "Mate in 2 moves (3 plies): 1.Kc5. One key")
    drive.go("1r4/6/6/2k3/6/K5 b")
    drive.solve()
    drive.expect("Black's answer", "answer", "Mate in 2 moves (3 plies): 1...Kc2")
    drive.same("Black's tree", drive.texts(".move"), ["1...Kc2", "2.Ka2", "Ra6#"])
    label = "document.querySelector('.move:last-child').getAttribute('aria-label')"
    drive.same("as it is read out", drive.tab.value(label.replace("last-child", "nth-child(3)")), "Black Ra6, mate")


def test_the_position_after_moves_is_solved(drive):
    """What the board shows is solved, the line that led there stays, and there is a way back."""
    drive.go(THIRD)
    drive.play("c4c5", "a6a5")
    drive.solve()
    drive.expect("the answer there", "answer", "Mate in 1 move (1 ply): 2.Ra1#")
    drive.expect("it is told where", "about", "After 1.Kc5 Ka5")
    drive.same("the line stays", drive.line(), "1.Kc5 Ka5 |")
    drive.same("the problem stays", drive.fen(), THIRD)
    drive.solve("keys")
    drive.same("the keys there", drive.texts("#keylist button"), ["2.Ra1# in 1 move", "2.Rb4 in 2 moves"])
    drive.press("#keylist button")
    drive.expect("a key is played", "turn", "Black is mated")
    drive.waited(f"!({RUNS})", "its tree is there")
    drive.press("#first")
    drive.same("back at the problem", (drive.label("c4"), drive.line()), ("c4 white king", "1.Kc5 Ka5 2.Ra1#"))
    drive.expect("the answer is still told", "answer", "Mate in 1 move (1 ply): 2.Ra1#. 2 keys")
    drive.press("#there")
    drive.same("and to the answer's position", drive.line(), "1.Kc5 Ka5 | 2.Ra1#")
    drive.tab.write("#fen", KINGS)
    drive.expect("of another position", "about", f"This is the answer of {THIRD}, after 1.Kc5 Ka5")
    drive.press("#there")
    drive.same("its problem is back", (drive.fen(), drive.line()), (THIRD, "1.Kc5 Ka5 |"))
    drive.shot("behind_moves")


def test_a_press_on_a_key_shows_its_tree(drive):
    """A press on a key shows its tree. Each solution is read again by the second checker's rules, and wins."""
    drive.go(ONE_PAWN, limit=1)
    drive.solve("keys")
    drive.same("arrows of both keys", drive.arrows(), ["hand c4c5q"])
    drive.press("#keylist button:nth-child(2)")
    drive.waited("document.querySelector('.tree')", "the tree of the second key")
    drive.same("it is the key's", (drive.texts(".move"), drive.label("c5")), (["1.c5=R#"], "c5 white rook, last move"))
    drive.same("the key is marked", drive.texts('#keylist [aria-pressed="true"]'), ["1.c5=R# in 1 move"])
    drive.go(FIVE, limit=5)
    drive.solve("keys")
    drive.same("two keys", drive.texts("#keylist button"), ["1.Qxc5 in 3 moves", "1.Nxc5+ in 3 moves"])
    drive.comes("an arrow each", drive.arrows, ["hand c1c5", "key d3c5"])
    for number, first in ((2, "1.Nxc5+"), (1, "1.Qxc5")):
        drive.press(f"#keylist button:nth-child({number})")
        drive.comes("its tree comes", lambda: drive.texts(".move")[:1], [first])
        drive.waited("document.getElementById('stop').disabled", "the search for it has ended")
        drive.press("#unfold")
        drive.comes("all is unfolded", lambda: drive.tab.value("document.getElementById('unfold').disabled"), True)
        drive.same(f"the tree of {first} wins", height_of(FIVE, drive.tab.value(LINES), drive.tab.value(DEPTHS)), 5)
    drive.shot("key_tree")


class Written:
    """A tree's lines as the page writes them, each with its depth, and where the reading stands."""

    def __init__(self, rows):
        self.rows, self.at = rows, 0

    def tree(self, here, words):
        """The tree whose attacker's move is the last of these words, with the lines below it."""
        depth = self.rows[self.at][0]
        self.at += 1
        move, then = named(here, words[-1])
        replies = []
        while self.at < len(self.rows) and self.rows[self.at][0] > depth:
            inner = moves_of(self.rows[self.at][1])
            reply, after = named(then, inner[0])
            replies.append((reply, self.tree(after, inner)))
        return check_tree.Tree(move, "" if replies else words[-1][-1], replies)


def named(here, word):
    """The one lawful move that is written so, as text, and the position after it."""
    (move,) = [move for move in check_tree.lawful(here) if SHOW_TREE.short(here, move) == word.rstrip("+#=")]
    return check_tree.move_text(move), check_tree.after(here, move)


def height_of(fen, lines, depths):
    """The plies within which the tree wins that is written so, by the rules of check_tree and the names of show_tree."""
    position = check_tree.read_position(fen.encode())
    tree = Written(list(zip(depths, lines))).tree(position, moves_of(lines[0]))
    return check_tree.height(position, tree, "mate")


def moves_of(line):
    """The moves of a line without their numbers."""
    return [re.sub(r"^\d+\.(\.\.)?", "", word) for word in line.split()]


def test_arrows_show_the_suggested_moves(drive):
    """The arrow of the answer's move, of the tree's next one, and of the line's; each from its square to the other, flipped too."""
    drive.go(THIRD)
    drive.same("none before an answer", drive.arrows(), [])
    drive.solve()
    drive.same("the answer's move", drive.arrows(), ["hand c4c5"])
    for _ in range(2):
        box, start, end = drive.box(".arrow"), drive.tab.middle('[data-square="c4"]'), drive.tab.middle('[data-square="c5"]')
        middle = [(box[0] + box[2]) / 2, (box[1] + box[3]) / 2]
        wanted = [(a + b) / 2 for a, b in zip(start, end)]
        drive.note(all(abs(a - b) < 9 for a, b in zip(middle, wanted)), f"the arrow lies at {middle}, between {start} and {end}")
        drive.press("#flip")
    drive.press("#next")
    drive.same("at the defender's turn none of the tree", drive.arrows(), [])
    drive.press("#next")
    drive.same("the move that meets the reply", drive.arrows(), ["hand b1a1"])
    drive.press("#first")
    drive.square("b1")
    drive.square("b2")
    drive.press("#back")
    drive.same("the line's next move beside the answer's", drive.arrows(), ["hand c4c5", "next b1b2"])
    drive.shot("arrows")


def test_lines_fold_and_unfold(drive):
    """Lines of the tree fold and unfold, one by one and all, and their number is told."""
    tab = drive.tab
    drive.go(FIVE, limit=5)
    drive.solve()
    seen = "[...document.querySelectorAll('.tree .move')].filter((one) => one.offsetParent !== null).length"
    open_moves = tab.value(seen)
    drive.press(".tree .fold")
    drive.same("folded, its first move alone is seen", (tab.value(seen), open_moves > 1), (1, True))
    drive.press(".tree .fold")
    drive.same("unfolded, as many as before", tab.value(seen), open_moves)
    told = int(re.fullmatch(r"Unfold all (\d+) lines", drive.said("unfold"))[1])
    drive.press("#unfold")
    lines = "[...document.querySelectorAll('.tree li')].filter((one) => one.offsetParent !== null).length"
    drive.comes("all lines are there", lambda: tab.value(lines), told)
    drive.shot("unfolded")
    drive.press("#fold")
    drive.same("folded again", tab.value(seen), open_moves)
    drive.press(".tree .move")
    for key, folds in (("-", 1), ("+", open_moves)):
        tab.key(key, 0, key)
        drive.same(f"by the key {key}", tab.value(seen), folds)
    drive.go("1K1k1/qR3/5/5/5 w", limit=7)
    drive.solve()
    told = int(re.fullmatch(r"Unfold all (\d+) lines", drive.said("unfold"))[1])
    drive.press("#unfold")
    drive.comes("all lines of four moves", lambda: tab.value("document.querySelectorAll('.tree li').length"), told)
    drive.same("their tree wins", height_of("1K1k1/qR3/5/5/5 w", tab.value(LINES), tab.value(DEPTHS)), 7)


def test_the_arrow_keys_walk_the_line(drive):
    """The arrow keys walk the line wherever the focus is, and go on by the tree; in a field they stay the field's own."""
    tab = drive.tab
    drive.go(THIRD)
    drive.solve()
    tab.value("document.activeElement.blur()")
    lines = ["1.Kc5 |", "1.Kc5 Ka5 |", "1.Kc5 Ka5 2.Ra1# |"]
    for line in lines:
        tab.key("ArrowRight", 39)
        drive.same("right goes on", drive.line(), line)
    tab.key("ArrowRight", 39)
    drive.same("and ends", drive.line(), lines[-1])
    tab.key("ArrowLeft", 37)
    drive.same("left goes back", drive.line(), "1.Kc5 Ka5 | 2.Ra1#")
    for where in ("#flip", "#flip", '[data-square="d3"]', ".move[data-path='c4c5']", "#solve"):
        if where == "#solve":
            tab.value("document.getElementById('solve').focus()")
        else:
            drive.press(where)
        tab.key("ArrowRight", 39)
        tab.key("ArrowLeft", 37)
        at = "1.Kc5 | Ka5 2.Ra1#" if where.startswith(".move") or where == "#solve" else "1.Kc5 Ka5 | 2.Ra1#"
        drive.same(f"to and fro from {where}", drive.line(), at)
    tab.value("document.getElementById('fen').focus()")
    tab.key("ArrowLeft", 37)
    drive.same("not from the text of the position", drive.line(), "1.Kc5 | Ka5 2.Ra1#")
    tab.value("document.activeElement.blur()")


def test_the_page_offers_to_search_deeper(drive):
    """Where nothing is forced within the limit, the page offers to go on."""
    drive.go(KINGS, limit=1)
    drive.solve()
    drive.expect("nothing within a ply", "answer", "No mate within 1 ply (1 move)")
    offers = ["Go on: within 3 plies (2 moves)", "Go on: within 7 plies (4 moves)", "Go on: within 63 plies (32 moves)"]
    drive.same("the offers", drive.texts("#onward button"), offers)
    drive.shot("onward")
    drive.press("#onward button")
    drive.waited(DONE, "a further answer")
    drive.expect("nothing within three", "answer", "No mate within 3 plies (2 moves)")
    drive.same("the limit is the new one", drive.tab.value(VALUE.format("limit")), "3")
    drive.go(THIRD, limit=2)
    drive.solve()
    drive.expect("nothing within two", "answer", "No mate within 2 plies (1 move)")
    drive.press("#onward button")
    drive.waited(DONE, "the answer behind them")
    drive.expect("found by going on", "answer", "Mate in 2 moves (3 plies): 1.Kc5")
    drive.same("no more offers", drive.texts("#onward button"), [])
    drive.go("k5/1Q4/1K4/6/6/6 b", limit=1)
    drive.solve()
    drive.expect("a side that is mated", "turn", "Black is mated")
    drive.same("has nothing to go on to", drive.texts("#onward button"), [])


def test_a_long_search_says_what_is_known(drive):
    """A long search says in words what is searched and known, with its button in view. Presses on the board don't end it."""
    tab = drive.tab
    drive.go(LONG, limit=63)
    drive.press("#solve")
    known = rf"{lawful_moves(LONG)} first moves to try. None within {PLIES}. The limit is 63 plies \(32 moves\)"
    pattern = f"Searching mate within {PLIES}, {known}"
    drive.comes("what is searched is told", lambda: bool(re.fullmatch(pattern, drive.said("state"))), True)
    drive.shot("searching")
    drive.same("the button as it is read out", list(tab.spoken("#stop")), ["button", "Stop"])
    left, top, right, bottom = drive.box("#stop")
    is_clear = drive.hand == "mouse" or (top >= drive.box("#stage")[3] and min(right - left, bottom - top) >= 43.5)
    drive.note(is_clear and bottom <= tab.value("innerHeight"), f"the button is in view: {top} to {bottom}")
    drive.same("no wheel turns", tab.value("document.getAnimations().length"), 0)
    drive.play("d6e6")
    drive.square("b4")
    drive.mode("set")
    drive.square("f6")
    time.sleep(0.3)
    drive.note(tab.value(RUNS), "presses on the board don't end it")
    drive.note(re.match(r"Searching mate within \d+ plies", drive.said("state")), "it is still told")
    drive.mode("play")
    drive.press("#stop")


def test_a_stopped_search_can_go_on(drive):
    """Escape and Stop end a search, and what is known of it is gone on with."""
    tab = drive.tab
    drive.go(LONG, limit=63)
    drive.press("#solve")
    drive.waited(TEXT.format("time") + ".startsWith('2')", "two seconds are over")
    tab.key("Escape", 27)
    said = rf"Stopped after \d+ seconds?. It is known that there is no mate within {PLIES}"
    drive.note(re.fullmatch(said, drive.said("state")), f"Escape stops it: {drive.said('state')}")
    drive.note(not tab.value(RUNS), "no more to stop")
    drive.same("what it would go on with", len(drive.texts("#onward button")), 3)
    known = int(re.search(r"within (\d+)", drive.said("state"))[1])
    tab.value(OBSERVED)
    drive.press("#onward button:last-child")
    time.sleep(1)
    tried = [int(found[1]) for found in (re.match(r"Searching mate within (\d+)", words) for words in tab.value("told")) if found]
    drive.note(tried and min(tried) > known, f"it goes on behind {known} plies, not from the beginning: {tried}")
    drive.press("#stop")
    drive.note(drive.said("state").startswith("Stopped after "), "the button stops it")


def test_a_new_search_takes_the_place_of_another(drive):
    """A search takes the place of another that is under way, and of one that was stopped."""
    tab = drive.tab
    drive.go(LONG, limit=63)
    drive.press("#solve")
    drive.comes("it searches again", lambda: "None within" in drive.said("state"), True)
    drive.press("#keys")
    drive.note(tab.value(RUNS), "another search in the place of one can be stopped")
    drive.same("and nothing is offered beside it", drive.texts("#onward button"), [])
    tab.key("Escape", 27)
    drive.go(THIRD)
    drive.solve()
    drive.expect("another search after it", "answer", "Mate in 2 moves (3 plies): 1.Kc5")


@pytest.mark.parametrize("drive", ["mouse"], indirect=True)
def test_the_page_answers_during_the_longest_search(drive):
    """63 plies of two bare kings: no trap, and the page goes on answering."""
    drive.go(KINGS, limit=63)
    drive.press("#solve")
    slowest, late = 0, time.monotonic() + 300
    while drive.said("answer") == "" and time.monotonic() < late:
        begun = time.monotonic()
        drive.tab.value("1")
        slowest = max(slowest, time.monotonic() - begun)
    drive.expect("two bare kings", "answer", "No mate within 63 plies (32 moves)")
    drive.same("nothing to go on to", drive.texts("#onward button"), [])
    drive.note(slowest < 0.5, f"the page answers while it searches, at the slowest within {slowest:.2f} s")
    drive.shot("two_bare_kings")


@pytest.mark.parametrize("drive", ["mouse"], indirect=True)
def test_moves_are_written_as_show_tree_writes_them(drive):
    """Moves are written as tools/show_tree writes them, whose table was made by hand."""
    drive.tab.value(WRITER)
    for fen, move, wanted in SHORT:
        drive.same(f"{move} of {fen}", drive.tab.value(f"written('{fen}', '{move}')").rstrip("+#"), wanted)
    marked = [(THIRD, "b1a1", "Ra1+"), (THIRD, "b1b5", "Rb5="), (ONE_PAWN, "c4c5q", "c5=Q#"), (THIRD, "c4c5", "Kc5")]
    for fen, move, wanted in marked:
        drive.same(f"{move} of {fen} with its mark", drive.tab.value(f"written('{fen}', '{move}')"), wanted)


@pytest.mark.parametrize("drive", ["mouse"], indirect=True)
def test_the_module_with_32_bit_memory_answers(drive):
    """The module with 32-bit memory answers here too."""
    call = "new Library(code).search('tree', 'k5/6/2K3/6/6/1R4 w', false, 3, 64)"
    words = f"import('./library.js').then(({{ Library, compiled }}) => compiled('out/minimate32.wasm').then((code) => {call}))"
    drive.same("32-bit memory", drive.tab.value(words), "c4c5{a6a5:b1a1#}\n")
