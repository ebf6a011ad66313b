"""Sets positions up, plays through lines, promotes pawns, and writes texts that are refused."""

from drive import ONE_PAWN, THIRD, VALUE, address


def test_a_position_is_set_up_by_dragging(drive):
    """A position by dragging: three units from the tray, and one of them moved on."""
    drive.mode("set")
    drive.press("#clear")
    for letter, square in (("k", "a6"), ("K", "c4"), ("R", "e3")):
        drive.drag(f'#tray label:has(input[value="{letter}"])', f'[data-square="{square}"]')
    drive.same("a unit from the tray", drive.label("e3"), "e3 white rook")
    drive.drag('[data-square="e3"]', '[data-square="b1"]')
    drive.same("the text of the board", drive.fen(), THIRD)
    drive.expect("no fault", "fault", "")
    drive.shot("set_up_by_dragging")
    drive.drag('[data-square="b1"]', "#turn")
    drive.same("a unit dragged off the board", drive.label("b1"), "b1 empty")
    drive.drag('#tray label:has(input[value="R"])', '[data-square="b1"]')
    drive.same("and one put back", drive.label("b1"), "b1 white rook")
    drive.press('#tray label:has(input[value=""])')
    drive.square("a6")
    drive.same("a square emptied by a press", drive.label("a6"), "a6 empty")
    drive.press('#tray label:has(input[value="k"])')
    drive.square("a6")
    drive.same("and filled by one", drive.fen(), THIRD)


def test_the_square_under_a_dragged_unit_is_marked(drive):
    """While a unit is dragged, the square that it would go to is marked, and a finger doesn't cover the unit."""
    drive.go(THIRD)
    drive.mode("set")
    place, there = drive.tab.middle('[data-square="b1"]'), drive.tab.middle('[data-square="b3"]')
    if drive.hand == "finger":
        drive.tab.touch("touchStart", [place])
        drive.tab.touch("touchMove", [there])
    else:
        drive.tab.mouse("mousePressed", place, button="left", clickCount=1)
        drive.tab.mouse("mouseMoved", there, button="left", buttons=1)
    marked = "[...document.querySelectorAll('.target')].map((one) => one.dataset.square)"
    drive.comes("the square is marked", lambda: drive.tab.value(marked), ["b3"])
    _, top, _, bottom = drive.box(".ghost")
    drive.note(top < there[1] and (drive.hand == "mouse" or (top + bottom) / 2 < there[1] - 20), f"the unit is seen: {top} to {bottom} at {there[1]}")
    if drive.hand == "finger":
        drive.tab.touch("touchEnd", [])
    else:
        drive.tab.mouse("mouseReleased", there, button="left", clickCount=1)
    drive.comes("it goes there", lambda: drive.label("b3"), "b3 white rook")
    drive.same("no mark is left", drive.tab.value(marked), [])
    drive.mode("play")


def test_a_tree_is_played_through(drive):
    """The tree by hand and by keyboard, the line to and fro, and lawful moves by dots."""
    tab = drive.tab
    drive.go(THIRD)
    drive.solve()
    drive.press('.move[data-path="c4c5"]')
    drive.same("the king has moved", drive.label("c5"), "c5 white king, last move")
    for key, code in (("ArrowDown", 40), ("ArrowDown", 40)):
        tab.key(key, code)
    tab.key("Enter", 13, "\r")
    drive.expect("mate", "turn", "Black is mated")
    drive.same("the rook has moved", drive.label("a1"), "a1 white rook, last move")
    drive.same("the line in full", drive.line(), "1.Kc5 Ka5 2.Ra1# |")
    drive.shot("played_through")
    drive.press("#first")
    drive.expect("back at the problem", "turn", "White to move")
    drive.press("#next")
    drive.expect("one move on", "turn", "Black to move")
    drive.same("the line stays", drive.line(), "1.Kc5 | Ka5 2.Ra1#")
    drive.press(".ply:nth-child(2)")
    drive.same("a press on a move of the line", (drive.line(), drive.label("a5")), ("1.Kc5 Ka5 | 2.Ra1#", "a5 black king, last move"))
    drive.press("#first")
    drive.square("b1")
    drive.same("dots for the rook's moves", tab.value("document.querySelectorAll('#board .dot, #board .ring').length"), 10)
    drive.shot("lawful_moves")
    tab.key("ArrowUp", 38)
    tab.key("Enter", 13, "\r")
    drive.same("a move by the keyboard", drive.label("b2"), "b2 white rook, last move")
    drive.same("another line from there", drive.line(), "1.Rb2 |")
    drive.drag('[data-square="a6"]', '[data-square="a5"]')
    drive.same("a move by a drag", drive.line(), "1.Rb2 Ka5 |")


def test_a_pawn_becomes_what_is_chosen(drive):
    """A pawn becomes what is chosen, a unit is taken, and the line goes back and on over both."""
    tab = drive.tab
    drive.mode("play")
    drive.go("k5/2P3/6/6/6/5K w")
    for chosen, text, letter in (("queen", "1.c6=Q+ |", 1), ("knight", "1.c6=N |", 3)):
        drive.square("c5")
        drive.square("c6")
        drive.same("what the pawn may become", drive.texts("dialog button"), ["queen", "rook", "knight"])
        drive.press(f"dialog button:nth-child({letter})")
        drive.same(f"a {chosen} is made", (drive.label("c5"), drive.label("c6")), ("c5 empty, last move", f"c6 white {chosen}, last move"))
        drive.same("the line", drive.line(), text)
        drive.press("#back")
        drive.same("the pawn is back", (drive.label("c5"), drive.label("c6")), ("c5 white pawn", "c6 empty"))
    drive.go("k5/6/2K3/1p4/6/1R4 w")
    drive.square("b1")
    drive.same("what can be taken", drive.label("b3"), "b3 black pawn, can be reached")
    drive.square("b3")
    drive.same("it is taken", (drive.label("b3"), drive.line()), ("b3 white rook, last move", "1.Rxb3 |"))
    drive.press("#back")
    drive.same("it is back", drive.label("b3"), "b3 black pawn")
    drive.press("#next")
    drive.same("and taken again", drive.label("b3"), "b3 white rook, last move")
    drive.go("5r/6/6/1k4/6/K5 b")
    drive.play("f6f1")
    drive.same("Black's first move", drive.line(), "1...Rf1# |")
    drive.same("nothing was thrown", tab.faults(), [])


def test_side_goal_and_game_are_changed(drive):
    """The side, the goal and the game are changed, and Gardner's tray has bishops."""
    tab = drive.tab
    drive.go(THIRD)
    drive.mode("set")
    letters = "[...document.querySelectorAll('#tray input')].map((one) => one.value).join('')"
    drive.same("the tray of Los Alamos", sorted(tab.value(letters)), sorted("KQRNPkqrnp"))
    drive.chosen("side", "b")
    drive.same("the other side moves", drive.fen(), THIRD[:-1] + "b")
    drive.expect("it is told", "turn", "Black to move")
    drive.chosen("side", "w")
    drive.chosen("goal", "stale")
    tab.write("#limit", "1")
    drive.note("goal=stale&limit=1" in tab.value("location.hash"), "the address has the goal and the limit")
    drive.expect("the limit in moves", "within", "= 1 move")
    drive.solve()
    drive.expect("stalemate is as good", "answer", "Mate or stalemate in 1 move (1 ply): 1.Rb5=")
    drive.same("the board is in Play again", tab.value("document.querySelector('input[name=\"mode\"]:checked').value"), "play")
    drive.note(tab.value("document.getElementById('setting').hidden"), "the tray is away")
    drive.mode("set")
    drive.go(ONE_PAWN)
    drive.same("a board of 25 squares", tab.value("document.querySelectorAll('[data-square]').length"), 25)
    drive.same("Gardner's tray", sorted(tab.value(letters)), sorted("KQRBNPkqrbnp"))
    drive.press('#tray label:has(input[value="b"])')
    drive.square("c2")
    drive.same("a bishop from it", drive.label("c2"), "c2 black bishop")
    drive.shot("gardner_tray")
    drive.mode("play")


def test_the_board_after_a_move_is_set_up(drive):
    """The board after a move can be set up as it is, with the same side to move; Undo gives the problem and its line back."""
    drive.go(THIRD)
    drive.play("c4c5")
    drive.mode("set")
    drive.same("Black is to move", drive.tab.value(VALUE.format("side")), "b")
    drive.press('#tray label:has(input[value="N"])')
    drive.square("f1")
    drive.same("the board with a knight", (drive.fen(), drive.line()), ("k5/2K3/6/6/6/1R3N b", ""))
    drive.press("#undo")
    drive.comes("the problem and its line", lambda: (drive.fen(), drive.line()), (THIRD, "1.Kc5 |"))
    drive.mode("play")


def test_a_listed_problem_has_its_position_goal_and_limit(drive):
    """A problem of the list brings its position, goal and limit. Queen and rook mate on the fifth rank, the only others don't."""
    tab = drive.tab
    drive.chosen("problems", "2")
    values = [tab.value(VALUE.format(name)) for name in ("fen", "goal", "limit")]
    drive.same("a listed problem", values, [ONE_PAWN, "mate", "1"])
    drive.solve("keys")
    drive.same("its two keys", drive.texts("#keylist button"), ["1.c5=Q# in 1 move", "1.c5=R# in 1 move"])
    named = VALUE.format("problems")
    drive.same("the list names it", tab.value(named), "2")
    tab.write("#fen", "k5/6/1K4/6/6/4R1 w")
    drive.same("and not another position", tab.value(named), "")


def test_a_refused_text_says_why(drive):
    """Texts that are refused say why, and the lawful ones that follow are taken again."""
    tab = drive.tab
    tab.write("#fen", "6/6/1K4/6/6/K4R w")
    drive.expect("a refused text", "fault", "Refused, Kings: each side has one king, K and k: here are 2 K and 0 k.")
    drive.shot("refused")
    tab.write("#fen", "k4R/6/1K4/6/6/6 w")
    told = "Refused, OtherInCheck: Black is in check, and White is to move: write b for the side, or move a unit."
    drive.expect("a check out of turn", "fault", told)
    drive.press("#solve")
    drive.expect("no search of it", "state", "The position is refused: mend it first")
    tab.write("#fen", THIRD)
    drive.expect("a sound text again", "fault", "")
    six_fields(drive)
    tab.write("#limit", "64")
    drive.press("#solve")
    drive.expect("no search within so many plies", "state", "The plies are a whole number from 1 to 63")
    tab.write("#limit", "3")


def six_fields(drive):
    """A text of FEN's six fields is the problem of its first two: in the field, which shows these once it is left, and in the address. Five are refused."""
    tab = drive.tab
    tab.write("#fen", f"{ONE_PAWN} - - 0")
    drive.note(drive.said("fault").startswith("Refused, Fields: "), f"five fields are refused: {drive.said('fault')}")
    tab.write("#fen", f"{ONE_PAWN} - - 0 1")
    drive.expect("six fields", "fault", "")
    tab.value("document.getElementById('limit').focus()")
    drive.same("the field that is left has two", drive.fen(), ONE_PAWN)
    tab.value(f"location.hash = '{address(f'{THIRD} KQkq e3 12 30')}'")
    drive.waited(f"{VALUE.format('fen')} === '{THIRD}' && location.hash === '{address(THIRD)}'", "an address of six fields gives two")


def test_the_board_is_flipped(drive):
    """The board from Black's side: what is seen, what is pressed, and where the keys go."""
    tab = drive.tab
    drive.go(THIRD)
    left, top, right, bottom = drive.box("#board")
    drive.press("#flip")
    drive.same("it is told", tab.value("document.getElementById('flip').getAttribute('aria-pressed')"), "true")
    x, y = tab.middle('[data-square="a1"]')
    drive.note(x > (left + right) / 2 and y < (top + bottom) / 2, f"a1 stands above at the right: {x} {y}")
    drive.same("the first square that is read", tab.value("document.querySelector('[data-square]').dataset.square"), "f1")
    edges = tab.value("[...document.querySelectorAll('.edge')].map((one) => one.textContent).join('')")
    drive.same("files and ranks at the edges", edges, "123456fedcba")
    drive.play("c4c5")
    drive.same("a move there", drive.label("c5"), "c5 white king, last move")
    drive.square("a6")
    tab.key("ArrowUp", 38)
    tab.key("Enter", 13, "\r")
    drive.same("up on the window is down the ranks", drive.label("a5"), "a5 black king, last move")
    drive.shot("flipped")
    drive.press("#flip")
    x, y = tab.middle('[data-square="a1"]')
    drive.note(x < (left + right) / 2 and y > (top + bottom) / 2, "and back again")
