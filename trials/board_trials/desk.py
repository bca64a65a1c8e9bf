"""A page with the board, and the hands and eyes of the person before it."""

import contextlib
import json
import os
import time

from shared import TOP
from board_trials.chromium import CONTROL, SHIFT, Broken

CLOCK = os.path.join(os.path.dirname(os.path.abspath(__file__)), "clock.js")
PICTURES = os.path.join(TOP, "out", "board")
# How long a board may take until it has bars, on a machine with other work.
LOADED = 60
SETTINGS = {"name": "ANNA", "zone": "", "theme": "night", "rows": "normal"}


def wait(what, holds, patience=30.0):
    """Waits until this holds, and gives what it then is."""
    until = time.monotonic() + patience
    while True:
        with contextlib.suppress(Broken):
            found = holds()
            if found:
                return found
        assert time.monotonic() < until, f"after {patience} s it is not so: {what}"
        time.sleep(0.03)


def waiting_item(visit):
    """The selector of a visit's first part in the list of those that wait."""
    return f'.wait[data-key="{visit}.1"]'


def bar_of(visit, part=1):
    return f'[id="p{visit}.{part}"]'


class Desk:
    """A board in a page of its own. Its clock runs ahead of the machine's, if it is given how far; a fresh one has no settings yet."""

    def __init__(self, page, origin, ahead=None, is_fresh=False, **settings):
        self.page, self.origin, self.context = page, origin, None
        if ahead is not None:
            with open(CLOCK) as file:
                page.before_scripts(file.read().replace("AHEAD", str(round(1000 * ahead))))
        kept = json.dumps(json.dumps({**SETTINGS, **settings}))
        if not is_fresh:
            page.before_scripts(f"try {{ if (!localStorage.getItem('apron / settings')) localStorage.setItem('apron / settings', {kept}); }} catch {{}}")

    def open(self, query="", bars=True):
        self.page.go(f"{self.origin}/{query}")
        if bars:
            wait("the board has bars", lambda: self.count(".bar"), LOADED)
        return self

    def reload(self, bars=True):
        self.run("globalThis.isBeforeReload = true")
        self.page.reload()
        wait("the page is loaded again", lambda: self.run("return globalThis.isBeforeReload === undefined && document.readyState === 'complete'"))
        if bars:
            wait("the board has bars", lambda: self.count(".bar"), LOADED)

    def run(self, script, *words):
        return self.page.run(script, *words)

    def move(self, seconds):
        """Moves the page's clock on."""
        self.run("moveClock(args[0])", 1000 * seconds)

    # ---- eyes

    def count(self, selector):
        return self.run("return document.querySelectorAll(args[0]).length", selector)

    def shown(self, selector):
        """How many elements are there and can be seen."""
        return self.run("return [...document.querySelectorAll(args[0])].filter((it) => it.checkVisibility({ visibilityProperty: true })).length", selector)

    def one(self, selector, patience=30.0):
        wait(f"there is {selector}", lambda: self.count(selector), patience)

    def text(self, selector="body"):
        return self.run("return document.querySelector(args[0])?.textContent ?? ''", selector)

    def texts(self, selector):
        return self.run("return [...document.querySelectorAll(args[0])].map((it) => it.textContent)", selector)

    def key_of(self, selector):
        """The visit and the part that an element is of."""
        return wait(f"there is {selector}", lambda: self.run("return document.querySelector(args[0])?.dataset.key", selector))

    def attribute(self, selector, name):
        return self.run("return document.querySelector(args[0])?.getAttribute(args[1]) ?? null", selector, name)

    def place_of(self, selector):
        """Where an element is in the window, in pixels."""
        self.one(selector)
        return self.run("return document.querySelector(args[0]).getBoundingClientRect().toJSON()", selector)

    def middle(self, selector):
        """The middle of what is in sight of an element, after it is brought there."""
        self.page.front()
        self.one(selector)
        return self.run("""
            const it = document.querySelector(args[0]);
            it.scrollIntoView({ block: "nearest", inline: "nearest" });
            await new Promise((go) => requestAnimationFrame(() => requestAnimationFrame(go)));
            const box = document.querySelector(args[0]).getBoundingClientRect(); const side = document.querySelector("#s0, .stand")?.getBoundingClientRect();
            const chart = document.getElementById("chart").getBoundingClientRect(); const inside = document.querySelector(args[0]).closest("#rows") !== null;
            const left = inside ? Math.max(box.left, side.right) : box.left; const right = inside ? Math.min(box.right, chart.right) : box.right;
            return [(left + Math.max(right, left + 2)) / 2, box.top + box.height / 2];
        """, selector)

    def row_of(self, stand):
        """The place of a stand's name in the window, after it is brought there."""
        self.page.front()
        return self.run("""
            const find = () => [...document.querySelectorAll(".row")].find((row) => row.querySelector(".stand b")?.textContent === args[0]);
            const chart = document.getElementById("chart");
            for (let top = 0; !find() && top < chart.scrollHeight; top += 200) {
              chart.scrollTop = top;
              await new Promise((go) => requestAnimationFrame(() => requestAnimationFrame(go)));
            }
            // In the middle: a drag near an edge scrolls.
            find().scrollIntoView({ block: "center" });
            await new Promise((go) => requestAnimationFrame(() => requestAnimationFrame(go)));
            const box = find().querySelector(".stand").getBoundingClientRect();
            return [box.left + box.width / 2, box.top + box.height / 2];
        """, stand)

    # ---- hands

    def click(self, selector, modifiers=0, clicks=1):
        self.page.click_at(*self.middle(selector), modifiers=modifiers, clicks=clicks)

    def keys(self, *keys):
        for key in keys:
            self.page.key(key)

    def control(self, key):
        self.page.key(key, CONTROL)

    def shift(self, key):
        self.page.key(key, SHIFT)

    def fill(self, selector, text):
        """Types a text into a field in place of what it had."""
        self.one(selector)
        self.run("const it = document.querySelector(args[0]); it.focus(); it.select?.()", selector)
        self.page.type(text)

    def drag(self, source, stand):
        """Drags an element to the row of a stand, by where that is while the element is held."""
        self.row_of(stand)
        begin = self.middle(source)
        if self.run("return document.querySelector(args[0]).closest('#rows') === null", source):
            self.row_of(stand)
        self.page.press(*begin)
        self.page.mouse("mouseMoved", begin[0] + 9, begin[1] + 9, "left")
        for aside in (60, 0, 0):
            x, y = self.run("""
                const row = [...document.querySelectorAll(".row")].find((row) => row.querySelector(".stand b")?.textContent === args[0]);
                const box = row.querySelector(".stand").getBoundingClientRect(); return [box.left + box.width / 2, box.top + box.height / 2];""", stand)
            self.page.mouse("mouseMoved", x + aside, y, "left")
        self.page.release(x, y)

    def leave(self):
        """Closes a dialogue, also one that asks since it has typed text."""
        self.keys("Escape")
        wait("it is closed, or asks", lambda: not self.count("#dialog[open]") or self.shown("#drop-typed"), 5)
        if self.shown("#drop-typed"):
            self.click("#drop-typed button:last-child")
        wait("no dialogue is open", lambda: not self.count("#dialog[open]"), 5)

    def publish(self):
        """Publishes the draft by keys: a notice that comes just then moves no button away."""
        self.control("Enter")

    def picture(self, name):
        os.makedirs(PICTURES, exist_ok=True)
        self.page.picture(os.path.join(PICTURES, f"{name}.png"))

    def close(self):
        self.page.close()
