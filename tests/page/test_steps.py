"""Undoes and redoes, by the buttons, the keyboard and the browser's Back; another game keeps what fits."""

import pytest
from browser import CONTROL, SHIFT
from drive import HARD, KINGS, ONE_PAWN, THIRD, VALUE


def shown(drive):
    """The problem and its line."""
    return drive.fen(), drive.line()


def test_each_step_is_undone_and_redone(drive):
    """Setting up, playing, a problem of the list, the goal and the limit, each undone and done again."""
    tab = drive.tab
    drive.go(THIRD)
    steps = [shown(drive)]
    drive.mode("set")
    drive.drag('[data-square="b1"]', '[data-square="d3"]')
    steps.append(shown(drive))
    drive.press('#tray label:has(input[value="N"])')
    drive.square("f1")
    steps.append(shown(drive))
    drive.press("#clear")
    steps.append(shown(drive))
    drive.same("what was done", [fen for fen, _ in steps], [THIRD, "k5/6/2K3/3R2/6/6 w", "k5/6/2K3/3R2/6/5N w", "6/6/6/6/6/6 w"])
    for step in reversed(steps[:-1]):
        drive.press("#undo")
        drive.comes("undone", lambda: shown(drive), step)
    for step in steps[1:]:
        drive.press("#redo")
        drive.comes("done again", lambda: shown(drive), step)
    drive.same("no more to do again", tab.value("document.getElementById('redo').disabled"), True)
    for step in reversed(steps[:-1]):
        tab.step(-1)
        drive.comes("the browser's Back", lambda: shown(drive), step)
    tab.step(1)
    drive.comes("its Forward", lambda: shown(drive), steps[1])
    tab.step(-1)
    drive.comes("and Back", lambda: shown(drive), steps[0])


def test_moves_of_a_line_are_undone(drive):
    """Moves of a line, also where another one took their place, and by the keyboard."""
    tab = drive.tab
    drive.go(THIRD)
    drive.play("c4c5", "a6a5")
    drive.press("#first")
    drive.play("b1b2")
    drive.same("another line", drive.line(), "1.Rb2 |")
    tab.key("z", 90, modifiers=CONTROL)
    drive.comes("the first line is back", drive.line, "1.Kc5 Ka5")
    tab.key("z", 90, modifiers=CONTROL)
    drive.comes("one move less", drive.line, "1.Kc5 |")
    tab.key("z", 90, modifiers=CONTROL | SHIFT)
    drive.comes("and again", drive.line, "1.Kc5 Ka5")
    tab.key("y", 89, modifiers=CONTROL)
    drive.comes("and the other line", drive.line, "1.Rb2 |")
    drive.chosen("problems", "2")
    drive.same("a listed problem", shown(drive), (ONE_PAWN, ""))
    drive.press("#undo")
    drive.comes("the problem before it, with its line", lambda: shown(drive), (THIRD, "1.Rb2 |"))
    drive.chosen("goal", "stale")
    drive.press("#undo")
    drive.comes("the goal before", lambda: tab.value(VALUE.format("goal")), "mate")
    tab.write("#limit", "9")
    drive.press("#undo")
    drive.comes("the limit before", lambda: tab.value(VALUE.format("limit")), "3")
    drive.press("#redo")
    drive.comes("and the one after", lambda: tab.value(VALUE.format("limit")), "9")


def test_a_written_text_is_one_step(drive):
    """A text that is written letter by letter is one step, and so is a walk through the tree."""
    tab = drive.tab
    drive.go(HARD)
    tab.value("document.getElementById('fen').focus()")
    tab.value("document.getElementById('fen').select()")
    for letter in KINGS:
        tab.ask("Input.insertText", text=letter)
    drive.same("written", drive.fen(), KINGS)
    tab.value("document.activeElement.blur()")
    drive.press("#undo")
    drive.comes("undone at once", drive.fen, HARD)
    drive.go(THIRD)
    drive.solve()
    for _ in range(3):
        drive.press("#next")
    drive.same("walked through the tree", drive.line(), "1.Kc5 Ka5 2.Ra1# |")
    drive.press("#undo")
    drive.comes("undone at once", drive.line, "")
    drive.expect("the answer is still there", "answer", "Mate in 2 moves (3 plies): 1.Kc5")


def test_another_game_keeps_what_fits(drive):
    """Another game keeps what fits: squares by name, no bishop in Los Alamos chess, no pawn on an end."""
    drive.go("k4r/P3P1/2K3/4p1/1Q4/1R4 w")
    drive.mode("set")
    drive.chosen("game", "5")
    drive.same("what fits on 25 squares", drive.fen(), "5/2K2/4p/1Q3/1R3 w")
    drive.press("#undo")
    drive.comes("undone", drive.fen, "k4r/P3P1/2K3/4p1/1Q4/1R4 w")
    drive.go("k2b1/2P2/1K3/1B3/5 w")
    drive.chosen("game", "6")
    drive.same("what fits on 36 squares", drive.fen(), "6/k5/2P3/1K4/6/6 w")
    drive.press("#undo")
    drive.comes("undone too", drive.fen, "k2b1/2P2/1K3/1B3/5 w")
    drive.mode("play")


@pytest.mark.parametrize("drive", ["mouse"], indirect=True)
def test_as_many_steps_are_undone_as_the_browser_keeps(drive):
    """As many steps are undone as the browser keeps, fifty with the page's own beginning, and no undo leaves the page."""
    drive.go(THIRD)
    drive.mode("set")
    fens = []
    for letter in "NQR":
        drive.press(f'#tray label:has(input[value="{letter}"])')
        for square in (f"{file}{rank}" for rank in "123" for file in "abcdef"):
            drive.square(square)
            fens.append(drive.fen())
    drive.same("each was a step", len(set(fens)) >= 52, True)
    fens = list(dict.fromkeys(fens))
    met = []
    while not drive.tab.value("document.getElementById('undo').disabled") and len(met) < 60:
        fen = drive.fen()
        drive.press("#undo")
        drive.tab.wait(f"document.getElementById('fen')?.value !== '{fen}'", 2)
        met.append(drive.fen())
    drive.same("undone in order", met[:48], fens[-2:-50:-1])
    drive.note(48 <= len(met) <= 49, f"{len(met)} steps were undone")
    drive.mode("play")


def test_a_reload_finds_the_problem_with_its_line(drive):
    """A reload, and coming back from elsewhere, find the problem with its line."""
    tab = drive.tab
    drive.go(THIRD)
    drive.play("c4c5")
    tab.ask("Page.reload")
    tab.wait("document.readyState === 'complete' && document.documentElement.dataset.ready")
    drive.comes("after a reload", lambda: shown(drive), (THIRD, "1.Kc5 |"))
    tab.ask("Page.navigate", url="about:blank")
    tab.wait("location.href === 'about:blank'")
    tab.step(-1)
    tab.wait("document.documentElement?.dataset.ready")
    drive.comes("after coming back", lambda: shown(drive), (THIRD, "1.Kc5 |"))
