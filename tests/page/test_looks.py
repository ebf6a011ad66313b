"""How the page looks in each size, what a thumb presses, and what a screen reader reads out."""

import pytest
from browser import Tab
from drive import FIVE, KINGS, SIZES, THIRD

BOARD = "Board: arrow keys go from square to square, Enter picks and plays"
TREE = "Tree of moves: up and down go from move to move, left and right walk the line, plus and minus unfold and fold, Enter plays"
# Each control with its role and its name, by hand.
SPOKEN = [
    ("#board", "grid", BOARD),
    ("#first", "button", "Back to the problem"),
    ("#back", "button", "One move back"),
    ("#next", "button", "One move on"),
    ("#undo", "button", "Undo"),
    ("#redo", "button", "Redo"),
    ("#flip", "button", "Flip the board"),
    ('input[value="play"]', "radio", "Play"),
    ('input[value="set"]', "radio", "Set up"),
    ('#tray input[value="R"]', "radio", "white rook"),
    ('#tray input[value="n"]', "radio", "black knight"),
    ('#tray input[value=""]', "radio", "empty square"),
    ("#game", "combobox", "Game"),
    ("#side", "combobox", "To move"),
    ("#clear", "button", "Clear"),
    ("#fen", "textbox", "Position"),
    ("#problems", "combobox", "Problems"),
    ("#goal", "combobox", "Goal"),
    ("#limit", "spinbutton", "Within plies"),
    ("#solve", "button", "Solve"),
    ("#keys", "button", "All keys"),
    ("#tree", "group", TREE),
    ("#link", "button", "Copy link"),
    ("#copytext", "button", "Copy solution"),
    ("#savetext", "button", "Solution as text"),
    ("#svg", "button", "Diagram as SVG"),
    ("#png", "button", "Diagram as PNG"),
    ("#print", "button", "Print"),
    ("#verify", "button", "Verify a certificate"),
    ("#told", "region", "Answer"),
    ("#keylist", "group", "Keys: a press shows the tree"),
    ("#tree .fold", "button", "1 reply"),
    ('.move[data-path="c4c5"]', "button", "White Kc5"),
    ('.move[data-path="c4c5 a6a5 b1a1"]', "button", "White Ra1, mate"),
    (".ply", "button", "1.Kc5"),
    ('[data-square="c5"]', "gridcell", "c5 white king, last move"),
    ('[data-square="e5"]', "gridcell", "e5 empty"),
]
# What tells by itself: how it is read out, and how soon.
LIVE = {"turn": "status", "state": "status", "about": "status", "answer": "status", "fault": "alert"}
PRESSED = {"button", "gridcell", "textbox", "combobox", "spinbutton", "radio", "grid", "radiogroup"}
TARGETS = """[...document.querySelectorAll('button, input:not([type=radio]), select, .choice span, #tray label > :last-child, [data-square]')]
.filter((one) => one.getClientRects().length).map((one) => { const { left, top, right, bottom } = one.getBoundingClientRect();
return { name: one.id || one.dataset.square || one.textContent, box: [left, top, right, bottom], stage: Boolean(one.closest('#stage')) }; })"""
READ = """['turn', 'state', 'time', 'about', 'answer', 'fault', 'within'].map((name) => document.getElementById(name))
.filter((one) => one.textContent && one.getClientRects().length)
.map((one) => { const { left, top, right, bottom } = one.getBoundingClientRect();
return { name: one.id, box: [left, top, right, bottom], stage: Boolean(one.closest('#stage')) }; })"""
TWICE = "[...document.querySelectorAll('[id]')].map((one) => one.id).filter((id, index, all) => all.indexOf(id) !== index)"
DANGLING = """['aria-controls', 'aria-describedby', 'for'].flatMap((kind) => [...document.querySelectorAll(`[${kind}]`)]
.flatMap((one) => one.getAttribute(kind).split(' '))).filter((id) => !document.getElementById(id))"""
PAGE = """[document.documentElement.lang, document.title,
[...document.querySelectorAll('[tabindex]')].filter((one) => one.tabIndex > 0).length]"""
# The controls that are seen, by name.
CONTROLS = """[...document.querySelectorAll('button[id], input[id], select[id]')].filter((one) => one.getClientRects().length).map((one) => '#' + one.id)"""


def test_nothing_is_too_wide_in_light_and_dark(drive):
    """Light and dark, with nothing outside the window's width."""
    tab = drive.tab
    drive.go(FIVE, limit=5)
    drive.solve("keys")
    drive.press("#keylist button")
    drive.waited("document.querySelector('.tree')", "a larger tree comes")
    width, height = SIZES[drive.hand]
    for scheme in ("light", "dark"):
        tab.scheme(scheme)
        tab.value("scrollTo(0, 0)")
        drive.note(tab.value("document.documentElement.scrollWidth") <= width, f"nothing is too wide in {scheme}")
        drive.shot(f"solved_{scheme}")
        tab.value("document.getElementById('answer').scrollIntoView()")
        drive.shot(f"answer_{scheme}")
        drive.mode("set")
        drive.shot(f"set_up_{scheme}")
        drive.mode("play")
    if drive.hand == "finger":
        tab.size(320, 700, True)
        for mode in ("play", "set"):
            drive.mode(mode)
            drive.note(tab.value("document.documentElement.scrollWidth") <= 320, f"nothing is too wide for 320 pixels in {mode}")
        drive.mode("play")
        tab.size(width, height, True)
    tab.scheme("light")


def test_answer_and_board_stay_in_view(drive):
    """The answer comes into view, and a press on the tree leaves the board in view."""
    tab = drive.tab
    drive.go(FIVE, limit=5)
    tab.value("scrollTo(0, 0)")
    drive.solve()
    height = tab.value("innerHeight")
    _, top, _, bottom = drive.box("#answer")
    stage = drive.box("#stage")[3]
    is_clear = drive.hand == "mouse" or top >= stage
    drive.note(is_clear and 0 <= top and bottom <= height, f"the answer is in view: {top} to {bottom} of {height}, the board ends at {stage}")
    drive.press("#unfold")
    drive.tab.wait("document.getElementById('unfold').disabled")
    moves = tab.value("document.querySelectorAll('.move').length")
    for number in (1, moves // 2, moves - 1):
        path = tab.value(f"document.querySelectorAll('.move')[{number}].dataset.path")
        drive.press(f'.move[data-path="{path}"]')
        both_seen(drive, f"move {number}")
    drive.same("the move on the board is its own", tab.value("document.querySelector('.move[aria-current]').dataset.path"), path)
    tab.key("ArrowUp", 38)
    tab.key("Enter", 13, "\r")
    both_seen(drive, "the move above")
    tab.key("ArrowLeft", 37)
    both_seen(drive, "a step back")
    drive.press("#fold")


def both_seen(drive, what):
    """The board, and the move of the tree that it shows."""
    height = drive.tab.value("innerHeight")
    _, top, _, bottom = drive.box("#board")
    drive.note(top >= 0 and bottom <= height, f"the board is in view at {what}: {top} to {bottom}")
    _, top, _, bottom = drive.box('.move[aria-current="true"]')
    stage = drive.box("#stage")[3]
    is_clear = drive.hand == "mouse" or top >= stage - 1
    drive.note(is_clear and bottom <= height + 1, f"and so is {what}: {top} to {bottom}, the board ends at {stage}")


def meet(one, other):
    """Whether two boxes share more than a pixel each way. What scrolls below the board doesn't meet what stands with it."""
    (left, above, right, below), (left2, above2, right2, below2) = one["box"], other["box"]
    is_shared = min(right, right2) - max(left, left2) > 1 and min(below, below2) - max(above, above2) > 1
    return is_shared and one["stage"] == other["stage"]


def test_targets_fit_a_thumb(drive):
    """On a phone each target has 44 pixels each way, none lies on another, and none on what is read."""
    if drive.hand == "mouse":
        return
    tab = drive.tab
    drive.go(THIRD)
    drive.solve("keys")
    drive.press("#keylist button")
    drive.waited("document.querySelector('.tree')", "the tree of the key")
    check_targets(drive, "solved")
    drive.mode("set")
    check_targets(drive, "setting up")
    drive.go(KINGS, limit=1)
    drive.solve()
    check_targets(drive, "with offers")
    tab.value("scrollTo(0, 0)")


def check_targets(drive, what):
    targets, read = drive.tab.value(TARGETS), drive.tab.value(READ)
    # Half a pixel is the browser's own rounding.
    small = [(it["name"], it["box"]) for it in targets if min(it["box"][2] - it["box"][0], it["box"][3] - it["box"][1]) < 43.5]
    drive.same(f"{what}: targets that are too small", small, [])
    pairs = [(a["name"], b["name"]) for i, a in enumerate(targets) for b in targets[i + 1 :] if meet(a, b)]
    drive.same(f"{what}: targets on each other", pairs, [])
    hidden = [(a["name"], b["name"]) for a in targets for b in read if meet(a, b)]
    drive.same(f"{what}: targets on what is read", hidden, [])
    drive.note(len(targets) > 50 and len(read) > 1, f"{what}: {len(targets)} targets, {len(read)} texts")


def test_a_screen_reader_reads_each_control_out(drive):
    """What a screen reader meets: each control by its role and name, each square, and what tells by itself."""
    tab = drive.tab
    drive.go(THIRD)
    drive.solve("keys")
    drive.press("#keylist button")
    drive.waited("document.querySelector('.tree')", "the tree of the key")
    drive.mode("set")
    for selector, role, name in (SPOKEN):
        drive.same(f"{selector} as it is read out", list(tab.spoken(selector)), [role, name])
    drive.mode("play")
    for name, role in (LIVE.items()):
        drive.same(f"{name} tells by itself", tab.value(f"document.getElementById('{name}').getAttribute('role')"), role)
    nodes = tab.ask("Accessibility.getFullAXTree")["nodes"]
    met = [(node["role"]["value"], node.get("name", {}).get("value", "")) for node in nodes if node.get("role", {}).get("value") in PRESSED]
    drive.same("nothing without a name", [role for role, name in met if not name], [])
    drive.same("the squares", sum(role == "gridcell" for role, _ in met), 36)
    drive.same("names of parts that stand twice", tab.value(TWICE), [])
    drive.same("parts that are named and aren't there", tab.value(DANGLING), [])
    drive.same("a language, a title and no order of its own", tab.value(PAGE), ["en", "minimate", 0])
    known = {selector for selector, _, _ in SPOKEN}
    drive.same("controls that the list forgets", sorted(set(tab.value(CONTROLS)) - known - {"#there", "#unfold", "#fold"}), [])


@pytest.mark.parametrize("drive", ["mouse"], indirect=True)
def test_everything_works_by_the_keyboard(drive):
    """Setting up, solving and playing without a hand: from control to control by the tabulator key."""
    tab = drive.tab
    drive.go(KINGS)
    drive.go(THIRD)
    tab.value("document.querySelector('[data-square][tabindex=\"0\"]').focus()")
    met = []
    for _ in range(24):
        tab.key("Tab", 9)
        met.append(tab.value("document.activeElement.id || document.activeElement.value || document.activeElement.className"))
    wanted = ["undo", "flip", "play", "fen", "problems", "goal", "limit", "solve", "keys", "link", "copytext", "savetext", "svg", "png", "print"]
    met = [name for name in met if name in wanted]
    drive.same("what the tabulator key meets, in order", met[: len(wanted)], wanted)
    tab.value("document.getElementById('fen').focus()")
    tab.key("Enter", 13, "\r")
    drive.waited("document.querySelector('.tree')", "Enter in the position solves")
    tab.value("document.querySelector('.move').focus()")
    tab.key("Enter", 13, "\r")
    drive.same("Enter plays a move of the tree", drive.line(), "1.Kc5 |")
    tab.value("document.querySelector('[data-square][tabindex=\"0\"]').focus()")
    drive.same("a square has the focus", tab.value("document.activeElement.dataset.square.length"), 2)
    place = tab.value("document.activeElement.dataset.square")
    tab.key("ArrowRight", 39)
    reached = tab.value("document.activeElement.dataset.square")
    drive.note(reached != place and drive.line() == "1.Kc5 |", "by the keyboard the arrows go from square to square")
    tab.value("document.activeElement.blur()")
