"""A tab of the page in web/, driven by a mouse on a wide window or by a finger on a phone's, and assertions on it."""

import json
import os
import time

import check_tree
from browser import Tab
from programs import TOP

THIRD = "k5/6/2K3/6/6/1R4 w"
HARD = "6/R5/1k4/6/6/K5 w"
# A search of many seconds.
LONG = "3R2/K5/6/2PR1P/1rk3/1r4 w"
KINGS = "k5/6/6/6/6/5K w"
FIVE = "2qK1/3B1/1k1NQ/3b1/r1Q2 w"
ONE_PAWN = "k4/2P2/1K3/5/5 w"
TEXT = "document.getElementById('{}').textContent"
VALUE = "document.getElementById('{}').value"
DONE = "document.getElementById('stop').disabled && document.getElementById('answer').textContent"
SIZES = {"mouse": (1200, 900), "finger": (390, 844)}


def address(fen, goal="mate", limit=3, line=""):
    return f"#fen={fen.replace(' ', '_')}&goal={goal}&limit={limit}{line}"


class Drive:
    """The hand is `mouse` or `finger`, and the window has the size that goes with it. SHOTS names a folder for pictures."""

    def __init__(self, driver, url, hand):
        self.driver, self.url, self.hand, self.shots = driver, url, hand, os.environ.get("SHOTS")
        self.tab = self.opened("")
        permissions = ["clipboardReadWrite", "clipboardSanitizedWrite"]
        self.tab.ask("Browser.grantPermissions", origin=url.rstrip("/"), permissions=permissions)

    def opened(self, words):
        """Returns a tab of the page at this address."""
        tab = Tab(self.driver)
        width, height = SIZES[self.hand]
        tab.size(width, height, self.hand == "finger")
        tab.fingers(self.hand == "finger")
        tab.ask("Page.navigate", url=self.url + words)
        assert tab.wait("document.documentElement?.dataset.ready"), f"the page isn't ready at {words}"
        return tab

    # What the hand does

    def press(self, selector):
        (self.tab.tap if self.hand == "finger" else self.tab.click)(selector)

    def drag(self, start, end):
        (self.tab.draw if self.hand == "finger" else self.tab.drag)(start, end)

    def square(self, name):
        self.press(f'[data-square="{name}"]')

    def mode(self, name):
        """`play` or `set`."""
        self.press(f'input[value="{name}"] + span')

    def chosen(self, name, value):
        """Chooses a value of a list, as a hand does."""
        told = "list.dispatchEvent(new Event('change', { bubbles: true }))"
        self.tab.value(f"(() => {{ const list = document.getElementById('{name}'); list.value = '{value}'; {told}; }})()")

    def go(self, fen, goal="mate", limit=3, line=""):
        """Another problem, by the address."""
        words = address(fen, goal, limit, line)
        self.tab.value(f"location.hash = '{words}'")
        self.waited(f"{VALUE.format('fen')} === '{fen}' && location.hash === {json.dumps(words)}", f"the address gives {fen}")

    def solve(self, button="solve"):
        """Asks, and waits for the end."""
        self.press(f"#{button}")
        self.waited(DONE, f"an answer by {button}")

    def play(self, *moves):
        """Moves by pressing two squares each."""
        self.mode("play")
        for move in moves:
            self.square(move[:2])
            self.square(move[2:4])

    # What is there

    def said(self, name):
        return self.tab.value(TEXT.format(name))

    def label(self, square):
        return self.tab.value(f"""document.querySelector('[data-square="{square}"]').getAttribute('aria-label')""")

    def fen(self):
        return self.tab.value(VALUE.format("fen"))

    def texts(self, selector):
        """The texts of all such elements that are seen."""
        seen = "filter((one) => one.offsetParent !== null).map((one) => one.textContent)"
        return self.tab.value(f"[...document.querySelectorAll({json.dumps(selector)})].{seen}")

    def line(self):
        """The line with a bar behind the move that is on the board."""
        words = "map((one) => one.textContent + (one.hasAttribute('aria-current') ? ' |' : '')).join(' ')"
        return self.tab.value(f"[...document.querySelectorAll('.ply')].{words}")

    def arrows(self):
        """Each arrow, as its kind and its move."""
        return sorted(self.tab.value("[...document.querySelectorAll('.arrow')].map((one) => one.classList[1] + ' ' + one.dataset.move)"))

    def box(self, selector):
        """Left, top, right and bottom in the window."""
        found = f"document.querySelector({json.dumps(selector)}).getBoundingClientRect()"
        return self.tab.value(f"(({{ left, top, right, bottom }}) => [left, top, right, bottom])({found})")

    # What is checked

    def note(self, is_well, what):
        assert is_well, what

    def same(self, what, got, wanted):
        assert got == wanted, what

    def expect(self, what, name, wanted):
        """The text of the element of this name."""
        self.same(what, self.said(name), wanted)

    def waited(self, expression, what, seconds=30):
        self.note(self.tab.wait(expression, seconds), what)

    def comes(self, what, look, wanted, seconds=10):
        """What a look answers, once it is what is wanted."""
        late = time.monotonic() + seconds
        while look() != wanted and time.monotonic() < late:
            time.sleep(0.05)
        self.same(what, look(), wanted)

    def shot(self, name):
        if self.shots:
            self.tab.shot(os.path.join(self.shots, f"{name}_{SIZES[self.hand][0]}.png"))


def lawful_moves(fen):
    """How many there are by the rules of tools/check_tree.py."""
    return len(check_tree.lawful(check_tree.read_position(fen.encode())))


def top():
    return os.path.join(TOP, "web")
