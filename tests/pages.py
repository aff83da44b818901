#!/usr/bin/env python3
"""Tries the pages of `timeline --html` in a browser without a window: pages.py TIMELINE ..

Headless Chromium shows the page of a shipped run, with no network. The list, the search, the picking of lines by
pointer and by keyboard, and the zooming and dragging of the picture are tried there. Without Chromium they are skipped.
The last line is `N passed, N failed, N skipped`; the status is 0 where none failed.
"""
import json
import os
import pathlib
import select
import shutil
import subprocess
import sys
import tempfile
import time

from tally import Tally

EXAMPLES = pathlib.Path(__file__).resolve().parent.parent / "examples"
RUN = "four_handshakes"
SECONDS = 60
PATIENCE = 10
NAMES = ("chromium", "chromium-browser", "google-chrome")
FLAGS = ["--headless=new", "--no-sandbox", "--disable-gpu", "--disable-dev-shm-usage", "--no-first-run"]
FLAGS += ["--host-resolver-rules=MAP * ~NOTFOUND", "--remote-debugging-pipe", "--window-size=1300,800"]
KEYS = {"ArrowDown": 40, "ArrowUp": 38, "ArrowLeft": 37, "ArrowRight": 39, "Home": 36, "End": 35, "Enter": 13, "Tab": 9}


class Browser:
    """A browser that is told what to do through a pipe, with one page."""

    def __init__(self, name, folder):
        to_read, self.to = os.pipe()
        self.back, to_write = os.pipe()

        def handed():
            """The browser reads its commands at 3 and writes what comes of them at 4."""
            kept = os.dup(to_write), os.dup(to_read)
            os.dup2(kept[1], 3)
            os.dup2(kept[0], 4)

        words = [name, *FLAGS, f"--user-data-dir={folder}", "about:blank"]
        devices = dict.fromkeys(("stdin", "stdout", "stderr"), subprocess.DEVNULL)
        self.process = subprocess.Popen(words, close_fds=False, preexec_fn=handed, **devices)
        os.close(to_read)
        os.close(to_write)
        self.number, self.rest, self.session, self.asked, self.is_loaded = 0, b"", None, [], False
        target = self.call("Target.createTarget", url="about:blank")["targetId"]
        self.session = self.call("Target.attachToTarget", targetId=target, flatten=True)["sessionId"]
        for part in ("Page", "Network", "Runtime"):
            self.call(f"{part}.enable")

    def message(self):
        while b"\0" not in self.rest:
            ready, _, _ = select.select([self.back], [], [], SECONDS)
            more = os.read(self.back, 1 << 16) if ready else b""
            if not more:
                raise EOFError("the browser says nothing")
            self.rest += more
        one, self.rest = self.rest.split(b"\0", 1)
        said = json.loads(one)
        if said.get("method") == "Network.requestWillBeSent":
            self.asked.append(said["params"]["request"]["url"])
        self.is_loaded |= said.get("method") == "Page.loadEventFired"
        return said

    def call(self, method, **params):
        self.number += 1
        asks = {"id": self.number, "method": method, "params": params}
        if self.session:
            asks["sessionId"] = self.session
        os.write(self.to, json.dumps(asks).encode() + b"\0")
        while True:
            said = self.message()
            if said.get("id") == self.number:
                if "error" in said:
                    raise RuntimeError(f"{method}: {said['error']}")
                return said["result"]

    def show(self, url):
        self.is_loaded = False
        self.call("Page.navigate", url=url)
        while not self.is_loaded:
            self.message()

    def value(self, code):
        said = self.call("Runtime.evaluate", expression=code, returnByValue=True)
        if "exceptionDetails" in said:
            raise RuntimeError(said["exceptionDetails"])
        return said["result"].get("value")

    def until(self, is_wanted, code):
        """The value of the code once it is as wanted, or as it is after some seconds: a busy browser draws late."""
        end = time.monotonic() + PATIENCE
        while True:
            found = self.value(code)
            if is_wanted(found) or time.monotonic() > end:
                return found
            time.sleep(0.05)

    def key(self, key, text=None, shift=False):
        known = {"key": key, "code": key, "windowsVirtualKeyCode": KEYS.get(key, ord(key[0]))}
        if text:
            known["text"] = text
        if shift:
            known["modifiers"] = 8
        self.call("Input.dispatchKeyEvent", type="keyDown", **known)
        self.call("Input.dispatchKeyEvent", type="keyUp", **known)

    def typed(self, text):
        self.call("Input.insertText", text=text)

    def mouse(self, kind, x, y, **more):
        self.call("Input.dispatchMouseEvent", type=kind, x=x, y=y, **more)

    def drawn(self):
        """Waits until what the page is now is on the screen, since a pointer meets what is drawn."""
        frames = "new Promise(done => requestAnimationFrame(() => requestAnimationFrame(done)))"
        self.call("Runtime.evaluate", expression=frames, awaitPromise=True)

    def click(self, what):
        """Clicks the middle of an element."""
        self.drawn()
        x, y = middle(self, what)
        self.mouse("mousePressed", x, y, button="left", clickCount=1)
        self.mouse("mouseReleased", x, y, button="left", clickCount=1)

    def end(self):
        self.process.terminate()
        self.process.wait()
        os.close(self.to)
        os.close(self.back)


class Tried:
    """What is tried on a page, with the tally that counts it."""

    def __init__(self, tally):
        self.tally = tally

    def judge(self, name, found, wanted):
        self.tally.judge(name, () if found == wanted else f"{found!r}, and not {wanted!r}")

    def sees(self, name, browser, code, wanted):
        """Judges the value that the code comes to."""
        self.judge(name, browser.until(lambda it: it == wanted, code), wanted)

    def finds(self, name, browser, code, is_wanted):
        """Judges by a test the value that the code comes to."""
        found = browser.until(is_wanted, code)
        self.judge(f"{name} ({found!r})", is_wanted(found), True)


PICKED = "(document.querySelector('#lines [aria-selected=true]') || {id: ''}).id"
SHOWN = "document.querySelectorAll('#lines li:not([hidden])').length"
BOX = "document.querySelector('#view svg').getAttribute('viewBox').split(' ').map(Number)"
CURSOR = "Number(document.getElementById('cursor').getAttribute('x')) + 7"


def stands_at(x):
    """Whether a picture's box has this place in its middle."""
    return lambda box: abs(box[0] + box[2] / 2 - x) < 2


def middle(browser, what):
    """The middle of an element on the screen."""
    of_box = "(e => { const r = e.getBoundingClientRect(); return [r.x + r.width / 2, r.y + r.height / 2] })"
    return browser.value(f"{of_box}(document.querySelector({what!r}))")


def list_and_search(browser, tried, lines, answers):
    tried.sees("a row for each line", browser, SHOWN, len(lines))
    text = browser.value("document.getElementById('item20').textContent")
    tried.judge("a row has number, line and answer", text.split(), ["20", *lines[19].split(), *answers[19].split()])
    browser.click("#search")
    browser.typed("refused")
    refused = [n for n, answer in enumerate(answers, 1) if answer.startswith("refused")]
    tried.sees("a search leaves what has the word", browser, SHOWN, len(refused))
    count = f"{len(refused)} of {len(lines)} lines"
    tried.sees("and says how many", browser, "document.getElementById('found').textContent", count)
    browser.key("Enter", "\r")
    tried.sees("enter picks the first", browser, PICKED, f"item{refused[0]}")
    browser.key("ArrowDown")
    tried.sees("down picks the next that is found", browser, PICKED, f"item{refused[1]}")
    browser.value("document.getElementById('search').value = ''; document.getElementById('search').oninput()")
    browser.key("End")
    tried.sees("end picks the last", browser, PICKED, f"item{len(lines)}")
    browser.key("ArrowUp")
    tried.sees("up picks the one before", browser, PICKED, f"item{len(lines) - 1}")
    browser.key("Home")
    tried.sees("home picks the first", browser, PICKED, "item1")


def picking(browser, tried):
    browser.value("document.getElementById('item30').scrollIntoView()")
    browser.click("#item30")
    tried.sees("a click picks a line", browser, PICKED, "item30")
    x = browser.value("Number(document.querySelector('#line30 use').getAttribute('x'))")
    tried.sees("which is shown in the picture", browser, CURSOR, x)
    tried.finds("and stands in the middle of it", browser, BOX, stands_at(x))
    browser.click("#line31 use")
    tried.sees("a click on a mark picks its line", browser, PICKED, "item31")


FOCUSED = "document.activeElement.id"


def keyboard(browser, tried, lines, answers):
    """All of it without a pointer, from the page as it comes: tab leads from the search to list and picture."""
    browser.key("Tab")
    tried.sees("tab leads to the search", browser, FOCUSED, "search")
    for letter in "told":
        browser.key(letter, letter)
    told = [n for n, (line, answer) in enumerate(zip(lines, answers), 1) if "told" in f"{line} {answer}".lower()]
    tried.sees("typed letters search", browser, SHOWN, len(told))
    browser.key("Tab")
    tried.sees("tab leads to the list", browser, FOCUSED, "lines")
    browser.key("ArrowDown")
    tried.sees("down picks the first that is found", browser, PICKED, f"item{told[0]}")
    browser.key("ArrowDown")
    x = browser.value(f"Number(document.querySelector('#line{told[1]} use').getAttribute('x'))")
    both = [f"item{told[1]}", x]
    tried.sees("down again the second, which the picture shows", browser, f"[{PICKED}, {CURSOR}]", both)
    tried.finds("in its middle", browser, BOX, stands_at(x))
    boxes = "const r = e.getBoundingClientRect(), l = e.parentNode.getBoundingClientRect()"
    is_inside = f"(e => {{ {boxes}; return r.top >= l.top - 1 && r.bottom <= l.bottom + 1 }})"
    row = f"document.getElementById('item{told[1]}')"
    tried.sees("and the list shows its row", browser, f"{is_inside}({row})", True)
    browser.key("End")
    tried.sees("end picks the last that is found", browser, PICKED, f"item{told[-1]}")
    browser.key("Tab")
    tried.sees("tab leads to the picture", browser, FOCUSED, "view")
    browser.key("1", "1")
    width = browser.value("document.getElementById('view').clientWidth")
    shown = "Math.round(document.querySelector('#view svg').viewBox.baseVal.width)"
    tried.sees("1 shows a pixel as a pixel", browser, shown, width)
    for key, axis, sign in (("ArrowRight", 0, 1), ("ArrowLeft", 0, -1), ("ArrowDown", 1, 1), ("ArrowUp", 1, -1)):
        before = browser.value(BOX)
        browser.key(key)
        tried.finds(f"{key} moves the picture, from {before}", browser, BOX,
                    lambda now: sign * (now[axis] - before[axis]) > 0 and now[1 - axis] == before[1 - axis])
    for key, is_nearer in (("+", True), ("-", False)):
        before = browser.value(BOX)
        browser.key(key, key)
        is_so = lambda now: now[2] != before[2] and (now[2] < before[2]) == is_nearer
        tried.finds(f"{key} zooms, from {before}", browser, BOX, is_so)
    browser.key("Tab", shift=True)
    tried.sees("shift and tab lead back to the list", browser, FOCUSED, "lines")


def moving(browser, tried):
    browser.value("document.getElementById('view').focus()")
    browser.key("0", "0")
    tried.finds("0 shows all", browser, BOX, lambda now: now[2] >= 1200)
    before = browser.value(BOX)
    browser.key("+", "+")
    tried.finds(f"plus zooms, from {before}", browser, BOX, lambda now: now[2] < before[2])
    before = browser.value(BOX)
    browser.key("ArrowRight")
    tried.finds(f"an arrow moves, from {before}", browser, BOX, lambda now: now[0] > before[0])
    browser.drawn()
    x, y = middle(browser, "#view")
    before = browser.value(BOX)
    browser.mouse("mouseWheel", x, y, deltaX=0, deltaY=-200)
    tried.finds(f"the wheel zooms, from {before}", browser, BOX, lambda now: now[2] < before[2])
    before = browser.value(BOX)
    browser.mouse("mousePressed", x, y, button="left", clickCount=1)
    browser.mouse("mouseMoved", x - 90, y, button="left", buttons=1)
    browser.mouse("mouseReleased", x - 90, y, button="left", clickCount=1)
    tried.finds(f"the pointer drags, from {before}", browser, BOX, lambda now: now[0] > before[0])


def page_of(timeline, folder):
    """The page of the run, in the folder."""
    page = pathlib.Path(folder) / "run.html"
    with open(EXAMPLES / f"{RUN}.lines", "rb") as given:
        drawn = subprocess.run([timeline, "--html"], stdin=given, capture_output=True, check=True, timeout=SECONDS)
    page.write_bytes(drawn.stdout)
    return page


def by_name(browser, tried, page):
    browser.show("about:blank")
    browser.show(page.as_uri() + "#line12")
    tried.sees("a line behind the page's name is picked", browser, PICKED, "item12")
    asked = {url.split("#")[0] for url in browser.asked}
    tried.judge("nothing was asked for but the page", asked, {page.as_uri()})


def tested(timeline, name, tried):
    lines = (EXAMPLES / f"{RUN}.lines").read_text().splitlines()
    answers = (EXAMPLES / f"{RUN}.out").read_text().splitlines()
    # (a process of the browser may still write into its profile while the folder is removed)
    with tempfile.TemporaryDirectory(ignore_cleanup_errors=True) as folder:
        page = page_of(timeline, folder)
        browser = Browser(name, f"{folder}/profile")
        try:
            browser.show(page.as_uri())
            list_and_search(browser, tried, lines, answers)
            picking(browser, tried)
            moving(browser, tried)
            browser.show("about:blank")
            browser.show(page.as_uri())
            keyboard(browser, tried, lines, answers)
            by_name(browser, tried, page)
        finally:
            browser.end()


PARTS = ("the list and the search", "picking", "moving", "the keyboard alone", "a line behind the page's name")


def main(paths):
    if not paths:
        sys.exit("pages.py TIMELINE ..")
    tally = Tally()
    name = next(filter(None, map(shutil.which, NAMES)), None)
    for path in map(os.path.abspath, paths):
        if name:
            tested(path, name, Tried(tally))
            continue
        for part in PARTS:
            tally.skip(f"the page of {os.path.basename(path)} in a browser: {part}", "there is no Chromium")
    return tally.end()


if __name__ == "__main__":
    sys.exit(main(sys.argv[1:]))
