"""The core of the board in Firefox: load, follow, a drag, a draft that is published, midnight; by WebDriver BiDi on Firefox's own port."""

import contextlib
import json
import os
import shutil
import subprocess

from shared import served
import websocket
from board_trials.chromium import Broken
from board_trials.desk import CLOCK, wait, waiting_item
from board_trials.night import NOW_AT
from board_trials.plan import DAY, NOW

PATIENCE = 90
PREFERENCES = 'user_pref("remote.active-protocols", 1);\nuser_pref("browser.shell.checkDefaultBrowser", false);\nuser_pref("toolkit.telemetry.enabled", false);\n' \
    'user_pref("datareporting.policy.dataSubmissionEnabled", false);\nuser_pref("app.update.enabled", false);\nuser_pref("network.captive-portal-service.enabled", false);\n'


class Firefox:
    """A browser without a window, with a profile of its own and one page."""

    def __init__(self, profile):
        os.makedirs(profile)
        with open(os.path.join(profile, "user.js"), "w") as file:
            file.write(PREFERENCES)
        port, self.count = served.free_port(), 0
        words = [shutil.which("firefox-esr"), "--headless", "--no-remote", "--profile", profile, "--remote-debugging-port", str(port), "--width", "1920", "--height", "1080", "about:blank"]
        self.process = subprocess.Popen(words, stdin=subprocess.DEVNULL, stdout=subprocess.DEVNULL, stderr=subprocess.DEVNULL, env={**os.environ, "HOME": profile, "MOZ_HEADLESS_WIDTH": "1920", "MOZ_HEADLESS_HEIGHT": "1080"})
        wait("firefox listens", lambda: served.listens_at(port), PATIENCE)
        self.socket = websocket.create_connection(f"ws://127.0.0.1:{port}/session", timeout=PATIENCE, suppress_origin=True)
        self.call("session.new", capabilities={"alwaysMatch": {"acceptInsecureCerts": True, "unhandledPromptBehavior": {"default": "accept"}}})
        self.page = self.call("browsingContext.getTree")["contexts"][0]["context"]

    def call(self, method, **words):
        """The result of a command."""
        self.count += 1
        number = self.count
        self.socket.send(json.dumps({"id": number, "method": method, "params": words}))
        while True:
            got = json.loads(self.socket.recv())
            if got.get("id") == number:
                if got["type"] == "error":
                    raise Broken(f"{method}: {got['error']}: {got['message']}")
                return got["result"]

    def before_scripts(self, script):
        self.call("script.addPreloadScript", functionDeclaration=f"() => {{ {script} }}")

    def go(self, address):
        self.call("browsingContext.navigate", context=self.page, url=address, wait="complete")

    def run(self, script, *words):
        """What a function's body gives with these arguments."""
        source = f"(async () => {{ const args = {json.dumps(list(words))}; return JSON.stringify(await (async () => {{ {script} }})() ?? null); }})()"
        got = self.call("script.evaluate", expression=source, target={"context": self.page}, awaitPromise=True, resultOwnership="none")
        if got["type"] == "exception":
            raise Broken(got["exceptionDetails"]["text"])
        return json.loads(got["result"]["value"])

    def drag(self, places):
        moves = [{"type": "pointerMove", "x": round(x), "y": round(y), "duration": 60} for x, y in places]
        steps = [moves[0], {"type": "pointerDown", "button": 0}, *moves[1:], {"type": "pointerUp", "button": 0}]
        self.call("input.performActions", context=self.page, actions=[{"type": "pointer", "id": "mouse", "parameters": {"pointerType": "mouse"}, "actions": steps}])

    def click(self, place):
        self.drag([place])

    def end(self):
        with contextlib.suppress(Exception):
            self.call("browser.close")
        with contextlib.suppress(Exception):
            self.socket.close()
        try:
            self.process.wait(20)
        except subprocess.TimeoutExpired:
            self.process.kill()
            self.process.wait(PATIENCE)


def middle(browser, selector):
    return browser.run("""
      const it = document.querySelector(args[0]); it.scrollIntoView({ block: "nearest" });
      const box = it.getBoundingClientRect(); return [box.left + box.width / 2, box.top + box.height / 2];""", selector)


def row(browser, stand):
    """The middle of a stand's name, after its row is brought into sight."""
    return browser.run("""
      const find = () => [...document.querySelectorAll(".row")].find((row) => row.querySelector(".stand b")?.textContent === args[0]);
      find().scrollIntoView({ block: "center" }); const box = find().querySelector(".stand").getBoundingClientRect();
      return [box.left + box.width / 2, box.top + box.height / 2];""", stand)


def count(browser, selector):
    return browser.run("return document.querySelectorAll(args[0]).length", selector)


def is_third(browser):
    at = browser.run(NOW_AT)
    return at is not None and abs(at - 1 / 3) < 0.04


def firefox(room):
    """In Firefox: the board loads, follows the server and the present minute, an unallocated part is dragged and its draft published, and midnight passes without a hand."""
    browser = Firefox(os.path.join(room.folder, "firefox"))
    try:
        with open(CLOCK) as file:
            browser.before_scripts(file.read().replace("AHEAD", str(round(1000 * room.ahead))))
        browser.go(room.proxy.origin + "/")
        wait("the board has bars", lambda: count(browser, ".bar"), PATIENCE)
        room.entry()
        version = room.version()
        wait("it follows the server", lambda: f"version {version}" in browser.run("return document.getElementById('link').textContent"))
        wait("the present minute is at a third", lambda: is_third(browser))
        visit, stand = room.placeable()
        end, begin = row(browser, stand), middle(browser, waiting_item(visit["visit"]))
        browser.drag([begin, (begin[0] + 9, begin[1] + 9), (end[0] + 60, end[1]), end, end])
        wait("the draft has it", lambda: count(browser, "#draft li"))
        browser.click(middle(browser, "#send"))
        wait("the server has it", lambda: room.stand_of(visit["visit"]) == stand)
        wait("the draft is empty", lambda: not count(browser, "#draft li"))
        for minutes in (DAY * 1440 - NOW - 10, 20):
            room.proxy.clock.ahead += 60 * minutes
            browser.run("moveClock(args[0])", 60000 * minutes)
            wait("the present minute is at a third", lambda: is_third(browser))
        wait("the clock is after midnight", lambda: browser.run("return document.getElementById('utc').textContent").startswith("00:"))
        wait("it is the new day", lambda: "3" in browser.run("return document.getElementById('date').textContent"))
    finally:
        browser.end()


TRIALS = (firefox,)
