"""A headless Chromium, driven by Selenium, and a server of files for it."""

import base64
import functools
import http.server
import json
import os
import threading
import time

from selenium import webdriver
from selenium.webdriver.chrome.service import Service

LEFT = {"button": "left", "clickCount": 1}
CONTROL, SHIFT = 2, 8
# The longest that one call in the page may take.
PATIENCE = 1000
REACH = """((one) => { const { x, y, width, height } = one.getBoundingClientRect();
const there = document.elementFromPoint(x + width / 2, y + height / 2);
if (!there || !one.contains(there)) one.scrollIntoView({ block: 'nearest' }); })(document.querySelector(%s))"""


class Quiet(http.server.SimpleHTTPRequestHandler):
    """A plain server of files, which logs nothing."""

    extensions_map = {**http.server.SimpleHTTPRequestHandler.extensions_map, ".wasm": "application/wasm", ".js": "text/javascript"}

    def log_message(self, *_):
        pass


class Server:
    """Serves a folder on a free port of this machine until it is ended or this process ends."""

    def __init__(self, folder):
        self.server = http.server.ThreadingHTTPServer(("127.0.0.1", 0), functools.partial(Quiet, directory=folder))
        threading.Thread(target=self.server.serve_forever, daemon=True).start()
        self.url = f"http://127.0.0.1:{self.server.server_address[1]}/"

    def end(self):
        self.server.shutdown()
        self.server.server_close()


def chromium():
    """Starts a browser. Chromium's own sandbox can't be used by root."""
    options = webdriver.ChromeOptions()
    options.binary_location = "/usr/bin/chromium"
    for word in ["--headless=new", "--disable-gpu", "--hide-scrollbars", "--no-first-run", *["--no-sandbox"] * (os.geteuid() == 0)]:
        options.add_argument(word)
    options.set_capability("goog:loggingPrefs", {"browser": "ALL"})
    driver = webdriver.Chrome(service=Service("/usr/bin/chromedriver"), options=options)
    driver.command_executor.set_timeout(PATIENCE)
    driver.set_script_timeout(PATIENCE)
    return driver


class Tab:
    """One page of the browser."""

    def __init__(self, driver, url="about:blank"):
        self.driver = driver
        driver.switch_to.new_window("tab")
        self.handle = driver.current_window_handle
        if url != "about:blank":
            self.ask("Page.navigate", url=url)

    def ask(self, method, **values):
        """Sends a command of Chromium's debugging protocol to this page."""
        if self.driver.current_window_handle != self.handle:
            self.driver.switch_to.window(self.handle)
        return self.driver.execute_cdp_cmd(method, values)

    def close(self):
        self.driver.switch_to.window(self.handle)
        self.driver.close()
        self.driver.switch_to.window(self.driver.window_handles[0])

    def value(self, expression):
        """Returns the value of an expression in the page, awaited."""
        got = self.ask("Runtime.evaluate", expression=expression, returnByValue=True, awaitPromise=True)
        if "exceptionDetails" in got:
            raise RuntimeError(f"{expression}: {got['exceptionDetails']}")
        return got["result"].get("value")

    def wait(self, expression, seconds=30):
        """Waits until an expression is true, and returns whether it became true."""
        late = time.monotonic() + seconds
        while not self.value(f"Boolean({expression})"):
            if time.monotonic() > late:
                return False
            time.sleep(0.05)
        return True

    def size(self, width, height, is_phone=False):
        self.ask("Emulation.setDeviceMetricsOverride", width=width, height=height, deviceScaleFactor=1, mobile=is_phone)

    def fingers(self, is_on):
        """Sets whether the screen takes fingers."""
        self.ask("Emulation.setTouchEmulationEnabled", enabled=is_on, maxTouchPoints=1)

    def scheme(self, name, media=""):
        self.ask("Emulation.setEmulatedMedia", media=media, features=[{"name": "prefers-color-scheme", "value": name}])

    def step(self, by):
        """Makes the browser's own step Back, by -1, or Forward, by 1."""
        history = self.ask("Page.getNavigationHistory")
        self.ask("Page.navigateToHistoryEntry", entryId=history["entries"][history["currentIndex"] + by]["id"])

    def shot(self, path):
        got = self.ask("Page.captureScreenshot", format="png", captureBeyondViewport=False)
        with open(path, "wb") as picture:
            picture.write(base64.b64decode(got["data"]))

    def reach(self, selector):
        """Scrolls an element into view if its middle can't be pressed yet."""
        self.value(REACH % json.dumps(selector))

    def middle(self, selector):
        """Returns the middle of an element."""
        box = f"document.querySelector({json.dumps(selector)}).getBoundingClientRect()"
        return self.value(f"(({{ x, y, width, height }}) => [x + width / 2, y + height / 2])({box})")

    def mouse(self, kind, place, **more):
        self.ask("Input.dispatchMouseEvent", type=kind, x=place[0], y=place[1], **more)

    def click(self, selector):
        self.reach(selector)
        place = self.middle(selector)
        self.mouse("mousePressed", place, **LEFT)
        self.mouse("mouseReleased", place, **LEFT)

    def drag(self, start, end):
        """Drags from one element to another, over the way between them."""
        self.reach(end)
        self.reach(start)
        first, last = self.middle(start), self.middle(end)
        self.mouse("mousePressed", first, **LEFT)
        for part in (0.3, 0.6, 1):
            self.mouse("mouseMoved", [a + (b - a) * part for a, b in zip(first, last)], button="left", buttons=1)
        self.mouse("mouseReleased", last, **LEFT)

    def touch(self, kind, places):
        self.ask("Input.dispatchTouchEvent", type=kind, touchPoints=[{"x": x, "y": y} for x, y in places])

    def tap(self, selector):
        self.reach(selector)
        self.touch("touchStart", [self.middle(selector)])
        self.touch("touchEnd", [])

    def draw(self, start, end):
        """Moves a finger from one element to another."""
        self.reach(end)
        self.reach(start)
        first, last = self.middle(start), self.middle(end)
        self.touch("touchStart", [first])
        for part in (0.3, 0.6, 1):
            self.touch("touchMove", [[a + (b - a) * part for a, b in zip(first, last)]])
        self.touch("touchEnd", [])

    def key(self, name, code=0, text="", modifiers=0):
        words = {"key": name, "windowsVirtualKeyCode": code, "modifiers": modifiers}
        self.ask("Input.dispatchKeyEvent", type="keyDown", **words, **({"text": text} if text else {}))
        self.ask("Input.dispatchKeyEvent", type="keyUp", **words)

    def write(self, selector, text):
        """Replaces the text of a field."""
        self.value(f"document.querySelector({json.dumps(selector)}).select()")
        self.ask("Input.insertText", text=text)

    def spoken(self, selector):
        """Returns the role and the name by which a screen reader reads an element out."""
        root = self.ask("DOM.getDocument")["root"]["nodeId"]
        found = self.ask("DOM.querySelector", nodeId=root, selector=selector)["nodeId"]
        node = self.ask("Accessibility.getPartialAXTree", nodeId=found, fetchRelatives=False)["nodes"][0]
        return node.get("role", {}).get("value"), node.get("name", {}).get("value")

    def faults(self):
        """Returns what the pages have thrown or reported as an error since the last call."""
        return [it["message"] for it in self.driver.get_log("browser") if it["level"] == "SEVERE"]
