"""Takes links, diagrams and solutions out of the page; the page without a network, from a file and on paper."""

import base64
import json
import os
import re
import struct
import tempfile
import time
import zlib

import check_tree
import diagrams as pictures
import pytest
from browser import Server, Tab
from programs import tool
from drive import ONE_PAWN, TEXT, THIRD, VALUE, address, top

SHOW_TREE = tool("show_tree")
ONE_FILE = tool(os.path.join(top(), "one_file.py"))


# What a paste hands over.
PASTE = """(() => { const held = new DataTransfer(); held.setData("text/plain", {});
document.body.dispatchEvent(new ClipboardEvent("paste", { clipboardData: held, bubbles: true, cancelable: true })); })()"""


def test_a_pasted_certificate_is_checked(drive):
    """A certificate that is pasted is checked, and one that is cut off is refused."""
    whole = "mate 3 c4c5\np.\naaaaaaaa-aaaaaa\n\n"
    for text, told in ((whole, "Certificate: mate 3 c4c5, checked in your browser"), (whole[:-1], "Certificate refused: Claim at line 4")):
        drive.go(THIRD)
        drive.tab.value(PASTE.replace("{}", json.dumps(text)))
        drive.comes("what the certificate proves", lambda told=told: drive.said("proved")[: len(told)], told)


def test_a_copied_link_opens_the_problem_and_its_line(drive):
    """The address has the problem and the line, its link is copied, and opens what was there."""
    drive.go(ONE_PAWN, "stale", 5)
    words = drive.tab.value("location.hash")
    drive.same("the address", words, address(ONE_PAWN, "stale", 5))
    drive.go(THIRD)
    drive.play("c4c5", "a6a5")
    drive.press("#back")
    drive.press("#link")
    drive.comes("it is told", lambda: drive.said("state"), "The link is copied")
    link = drive.tab.value("navigator.clipboard.readText()")
    drive.same("the link", link, drive.url + address(THIRD, "mate", 3, "&line=c4c5_a6a5&at=1"))
    first, drive.tab = drive.tab, drive.opened(link.removeprefix(drive.url))
    drive.same("the link's problem", [drive.tab.value(VALUE.format(name)) for name in ("fen", "goal", "limit")], [THIRD, "mate", "3"])
    drive.same("the link's line", drive.line(), "1.Kc5 | Ka5")
    drive.press("#next")
    drive.solve()
    drive.expect("it is solved from there", "answer", "Mate in 1 move (1 ply): 2.Ra1#")
    drive.same("no fault of the second tab", drive.tab.faults(), [])
    drive.tab = first
    drive.tab.ask("Page.bringToFront")


def saved(drive, folder, button):
    """The file that a button saves."""
    before = set(os.listdir(folder))
    drive.press(f"#{button}")
    late = time.monotonic() + 20
    while time.monotonic() < late:
        new = [name for name in set(os.listdir(folder)) - before if not name.endswith(".crdownload")]
        if new:
            with open(os.path.join(folder, new[0]), "rb") as file:
                data = file.read()
            os.remove(os.path.join(folder, new[0]))
            return new[0], data
        time.sleep(0.05)
    return "", b""


def pixels(data):
    """Width, height and a look-up of the colours of a PNG of 8 bits for each of red, green, blue and opacity."""
    at, parts, head = 8, b"", None
    while at < len(data):
        length, kind = struct.unpack(">I4s", data[at : at + 8])
        body = data[at + 8 : at + 8 + length]
        head = body if kind == b"IHDR" else head
        parts += body if kind == b"IDAT" else b""
        at += 12 + length
    width, height, depth, colours = struct.unpack(">IIBB", head[:10])
    size = {2: 3, 6: 4}[colours]
    rows, last = [], bytes(width * size)
    raw = zlib.decompress(parts)
    for start in range(0, len(raw), width * size + 1):
        last = unfiltered(raw[start], raw[start + 1 : start + 1 + width * size], last, size)
        rows.append(last)
    return width, height, lambda x, y: tuple(rows[int(y)][int(x) * size : int(x) * size + 3])


def unfiltered(how, line, above, size):
    """A row of a PNG, of which each byte is written as the difference to what its neighbours foretell."""
    made = bytearray(line)
    for i, byte in enumerate(line):
        left, up = (made[i - size] if i >= size else 0), above[i]
        corner = above[i - size] if i >= size else 0
        guess = (0, left, up, (left + up) // 2, nearest(left, up, corner))[how]
        made[i] = (byte + guess) & 255
    return bytes(made)


def nearest(left, up, corner):
    """Of three neighbours the one that is nearest to left + up - corner."""
    aim = left + up - corner
    return min((left, up, corner), key=lambda it: abs(aim - it))


def test_diagrams_are_saved(drive):
    """SVG and PNG of what the board shows: where which unit stands, which squares are dark; flipped too."""
    drive.go(THIRD)
    with tempfile.TemporaryDirectory() as folder:
        drive.tab.ask("Browser.setDownloadBehavior", behavior="allow", downloadPath=folder)
        for is_flipped in (False, True):
            check_svg(drive, saved(drive, folder, "svg"), is_flipped)
            check_png(drive, saved(drive, folder, "png"), is_flipped)
            drive.press("#flip")


def seen_at(square, is_flipped):
    """Column and row of a square of 36, as they are seen."""
    column, row = "abcdef".index(square[0]), 6 - int(square[1])
    return (5 - column, 5 - row) if is_flipped else (column, row)


def check_svg(drive, file, is_flipped):
    name, data = file
    drive.same("the file's name", name, "minimate-k5-6-2K3-6-6-1R4-w.svg")
    drive.same("the picture", data.decode(), pictures.svg(check_tree.read_position(THIRD.encode()), is_flipped))


def check_png(drive, file, is_flipped):
    name, data = file
    drive.same("the picture's name", (name, data[:8]), ("minimate-k5-6-2K3-6-6-1R4-w.png", b"\x89PNG\r\n\x1a\n"))
    width, height, colour = pixels(data)
    drive.same("its size", (width, height), (777, 777))
    for square, wanted in (("a1", (201, 207, 191)), ("b2", (201, 207, 191)), ("a2", (255, 255, 255)), ("f1", (255, 255, 255))):
        column, row = seen_at(square, is_flipped)
        drive.same(f"the colour of {square}", colour((44 + 100 * column + 12) * 1.2, (4 + 100 * row + 12) * 1.2), wanted)
    column, row = seen_at("a6", is_flipped)
    dark = colour((44 + 100 * column + 50) * 1.2, (4 + 100 * row + 80) * 1.2)
    drive.note(max(dark) < 90, f"the black king's foot is dark: {dark}")


def test_a_solution_is_saved_and_copied(drive):
    """The solution as text is that of tools/show_tree, into a file and into the clipboard."""
    drive.go(THIRD)
    drive.press("#first") if not drive.tab.value("document.getElementById('first').disabled") else None
    wanted, _ = SHOW_TREE.shown(THIRD.encode(), b"c4c5{a6a5:b1a1#}\n", False)
    drive.solve()
    with tempfile.TemporaryDirectory() as folder:
        drive.tab.ask("Browser.setDownloadBehavior", behavior="allow", downloadPath=folder)
        name, data = saved(drive, folder, "savetext")
        drive.same("the solution", (name, data.decode()), ("minimate-k5-6-2K3-6-6-1R4-w.txt", wanted))
        drive.press("#copytext")
        drive.comes("it is told", lambda: drive.said("state"), "The solution is copied")
        drive.same("the copy", drive.tab.value("navigator.clipboard.readText()"), wanted)
        black = "1r4/6/6/2k3/6/K5 b"
        drive.go(black)
        drive.solve()
        _, data = saved(drive, folder, "savetext")
        drive.same("Black's solution", data.decode(), SHOW_TREE.shown(black.encode(), b"c3c2{a1a2:b6a6#}\n", False)[0])
        drive.go(ONE_PAWN, limit=1)
        drive.solve("keys")
        drive.press("#copytext")
        drive.comes("none before the tree", lambda: drive.said("state"), "There is no solution yet: solve first")
        drive.press("#keylist button")
        drive.waited("document.querySelector('.tree')", "the key's tree")
        _, data = saved(drive, folder, "savetext")
        lines = data.decode().split("\n\n")
        drive.same("keys and solution", lines[1:], ["White to move: mate in 1 move (1 ply)\nKeys: 1.c5=Q# in 1 move, 1.c5=R# in 1 move", "1.c5=Q#\n"])


@pytest.mark.parametrize("drive", ["mouse"], indirect=True)
def test_the_page_opens_without_its_server(drive):
    """Once the page was loaded it opens and solves without its server."""
    server = Server(top())
    url, drive.url = drive.url, server.url
    first, drive.tab = drive.tab, drive.opened("")
    drive.waited("navigator.serviceWorker.controller", "the page is kept")
    server.end()
    drive.tab.ask("Page.navigate", url=server.url + "?again" + address(THIRD))
    drive.waited("location.search === '?again' && document.documentElement?.dataset.ready", "the page opens without its server")
    drive.solve()
    drive.expect("it solves", "answer", "Mate in 2 moves (3 plies): 1.Kc5")
    drive.same("its style is there", drive.tab.value("getComputedStyle(document.getElementById('board')).touchAction"), "none")
    drive.tab, drive.url = first, url
    drive.tab.ask("Page.bringToFront")


@pytest.mark.parametrize("drive", ["mouse"], indirect=True)
def test_every_file_of_the_page_is_kept_for_offline_use(drive):
    """All files of the page are kept: none is forgotten in the list."""
    names = [name for name in os.listdir(top()) if name.rsplit(".", 1)[-1] in ("html", "css", "js") and name != "offline.js"]
    wanted = sorted(["./", *names, "out/minimate32.wasm", "out/minimate64.wasm"])
    with open(os.path.join(top(), "offline.js"), encoding="ascii") as file:
        listed = re.findall(r'^  "([^"]+)",$', file.read(), flags=re.M)
    drive.same("the files that are kept", sorted(listed), wanted)


@pytest.mark.parametrize("drive", ["mouse"], indirect=True)
def test_the_page_in_one_file_opens_without_a_server(drive):
    """Opened as a file the page says what is wanted, and the page that is one file solves."""
    tab = Tab(drive.driver, f"file://{os.path.join(top(), 'index.html')}")
    tab.wait("document.getElementById('state')?.textContent")
    said = tab.value(TEXT.format("state"))
    drive.note("out/minimate.html" in said and "python3 -m http.server --directory web" in said, f"a file says: {said}")
    # A browser doesn't load the scripts of a file.
    assert all("file:///" in it for it in tab.faults())
    tab.close()
    with tempfile.TemporaryDirectory() as folder:
        path = os.path.join(folder, "minimate.html")
        with open(path, "w", encoding="utf-8") as file:
            modules = [os.path.join(top(), "out", name) for name in ("minimate64.wasm", "minimate32.wasm")]
            file.write(ONE_FILE.page(top(), modules))
        first, url = drive.tab, drive.url
        drive.url = f"file://{path}"
        drive.tab = drive.opened(address(THIRD))
        drive.solve()
        drive.expect("one file solves", "answer", "Mate in 2 moves (3 plies): 1.Kc5")
        drive.press(".move")
        drive.same("and plays", drive.line(), "1.Kc5 |")
        drive.press("#undo")
        drive.comes("and undoes", drive.line, "")
        drive.same("no fault of it", drive.tab.faults(), [])
        drive.tab.close()
    drive.tab, drive.url = first, url
    drive.tab.ask("Page.bringToFront")


def test_print_shows_the_problem_and_nothing_to_press(drive):
    """In print: the board, the position, the answer and the tree, in light colours, and nothing to press."""
    tab = drive.tab
    drive.go(THIRD)
    drive.solve()
    tab.scheme("dark", "print")
    seen = "(id) => document.getElementById(id).offsetParent !== null || document.getElementById(id).getClientRects().length > 0"
    shown = [name for name in ("board", "paper", "answer", "tree") if not tab.value(f"({seen})('{name}')")]
    drive.same("what is missing on paper", shown, [])
    left = [name for name in ("solve", "link", "undo", "flip", "unfold", "fen") if tab.value(f"({seen})('{name}')")]
    drive.same("what is no use on paper", left, [])
    drive.same("the position in words", drive.said("paper"), f"{THIRD}, mate within 3 plies")
    colours = tab.value("[getComputedStyle(document.body).backgroundColor, getComputedStyle(document.body).color]")
    drive.same("light though the system is dark", colours, ["rgb(255, 255, 255)", "rgb(35, 37, 31)"])
    drive.shot("print")
    made = base64.b64decode(tab.ask("Page.printToPDF")["data"])
    drive.same("it can be printed", made[:5], b"%PDF-")
    tab.scheme("light")
