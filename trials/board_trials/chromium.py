"""Chromium without a window, led by its debugging protocol over one websocket: a browser, and its pages, each with what it keeps apart."""

import base64
import contextlib
import json
import os
import shutil
import subprocess
import time

import websocket

PATIENCE = 60
WORDS = ("--headless=new", "--no-sandbox", "--disable-gpu", "--disable-dev-shm-usage", "--no-first-run", "--ignore-certificate-errors",
         "--remote-debugging-port=0", "--disable-background-networking", "--disable-features=Translate,HttpsUpgrades,HttpsFirstBalancedModeAutoEnable",
         "--autoplay-policy=no-user-gesture-required", "--disable-background-timer-throttling", "--enable-precise-memory-info")
KEYS = {"Enter": (13, "\r"), "Escape": (27, ""), "Tab": (9, ""), " ": (32, " "), "ArrowUp": (38, ""), "ArrowDown": (40, ""), "ArrowLeft": (37, ""),
        "ArrowRight": (39, ""), "Delete": (46, ""), "Home": (36, ""), "End": (35, ""), "PageUp": (33, ""), "PageDown": (34, ""), "Backspace": (8, "")}
ALT, CONTROL, SHIFT = 1, 2, 8


class Broken(Exception):
    """The browser, or a script in a page, did not do what it was asked."""


class Chromium:
    """A browser with a profile of its own."""

    def __init__(self, program, profile):
        self.count, self.events, self.process, self.ahead = 0, [], None, None
        os.makedirs(profile, exist_ok=True)
        port = os.path.join(profile, "DevToolsActivePort")
        with contextlib.suppress(FileNotFoundError):
            os.remove(port)
        self.process = subprocess.Popen([program, *WORDS, f"--user-data-dir={profile}", "about:blank"], stdin=subprocess.DEVNULL,
                                        stdout=subprocess.DEVNULL, stderr=subprocess.DEVNULL)
        until = time.monotonic() + PATIENCE
        text = ""
        while text.count("\n") < 1 or not text.strip().split("\n")[-1].startswith("/"):
            if self.process.poll() is not None or time.monotonic() > until:
                raise Broken("chromium does not start")
            time.sleep(0.05)
            with contextlib.suppress(FileNotFoundError), open(port) as file:
                text = file.read()
        number, path = text.strip().split("\n")
        self.socket = websocket.create_connection(f"ws://127.0.0.1:{number}{path}", timeout=5 * PATIENCE, suppress_origin=True)

    def call(self, method, session=None, patience=PATIENCE, **words):
        """The result of a command to the browser, or to a page by its session."""
        self.count += 1
        number = self.count
        message = {"id": number, "method": method, "params": words, **({"sessionId": session} if session else {})}
        self.socket.send(json.dumps(message))
        until = time.monotonic() + patience
        while True:
            if time.monotonic() > until:
                raise Broken(f"{method} has no answer after {patience} s")
            got = json.loads(self.socket.recv())
            if got.get("id") == number:
                if "error" in got:
                    raise Broken(f"{method}: {got['error'].get('message')}")
                return got["result"]
            if "method" in got:
                self.happened(got)

    def happened(self, event):
        """Keeps an event. A question of a page is answered with yes, since the page waits for that."""
        self.events.append(event)
        if event["method"] == "Page.javascriptDialogOpening":
            self.count += 1
            words = {"id": self.count, "method": "Page.handleJavaScriptDialog", "params": {"accept": True}, "sessionId": event["sessionId"]}
            self.socket.send(json.dumps(words))

    def context(self):
        """What pages share that keep their things apart from other pages."""
        return self.call("Target.createBrowserContext", disposeOnDetach=False)["browserContextId"]

    def page(self, context=None, size=(1920, 1080)):
        words = {"browserContextId": context} if context else {"newWindow": True}
        target = self.call("Target.createTarget", url="about:blank", width=size[0], height=size[1], **words)["targetId"]
        return Page(self, target, size)

    def targets(self, context):
        """The pages of a context."""
        return [it for it in self.call("Target.getTargets")["targetInfos"] if it["type"] == "page" and it.get("browserContextId") == context]

    def kill(self):
        """Ends it at once, as a crash does."""
        self.process.kill()
        self.process.wait(PATIENCE)
        self.socket.close()

    def end(self):
        with contextlib.suppress(Exception):
            self.call("Browser.close")
        with contextlib.suppress(Exception):
            self.socket.close()
        if self.process is not None:
            try:
                self.process.wait(10)
            except subprocess.TimeoutExpired:
                self.process.kill()
                self.process.wait(PATIENCE)


class Page:
    """A page of a browser."""

    def __init__(self, browser, target, size=None):
        self.browser, self.target = browser, target
        self.session = browser.call("Target.attachToTarget", targetId=target, flatten=True)["sessionId"]
        for domain in ("Page", "Runtime"):
            self.call(f"{domain}.enable")
        if size is not None:
            self.size(size)
        self.at, self.held = (0, 0), 0

    def call(self, method, **words):
        return self.browser.call(method, self.session, **words)

    def size(self, size, is_phone=False):
        self.call("Emulation.setDeviceMetricsOverride", width=size[0], height=size[1], deviceScaleFactor=1, mobile=is_phone)
        if is_phone:
            self.call("Emulation.setTouchEmulationEnabled", enabled=True)

    def before_scripts(self, script):
        """A script that each further document runs before its own."""
        self.call("Page.addScriptToEvaluateOnNewDocument", source=script)

    def go(self, address):
        got = self.call("Page.navigate", url=address)
        if got.get("errorText"):
            raise Broken(f"{address}: {got['errorText']}")

    def reload(self):
        self.call("Page.reload")

    def run(self, script, *words, patience=PATIENCE):
        """What a function's body gives with these arguments, after it has waited for what it waits for."""
        source = f"(async () => {{ const args = {json.dumps(list(words))}; {script} }})()"
        got = self.call("Runtime.evaluate", expression=source, awaitPromise=True, returnByValue=True, patience=patience)
        if "exceptionDetails" in got:
            told = got["exceptionDetails"]
            raise Broken(f"a script in the page: {told.get('exception', {}).get('description') or told.get('text')}")
        return got["result"].get("value")

    def seen(self, method):
        """The events of this page of a kind."""
        return [it["params"] for it in self.browser.events if it["method"] == method and it.get("sessionId") == self.session]

    def faults(self):
        """What scripts of the page threw and nobody caught."""
        told = [it["exceptionDetails"] for it in self.seen("Runtime.exceptionThrown")]
        return [(it.get("exception", {}).get("description") or it["text"]).split("\n")[0] for it in told]

    # ---- hands

    def front(self):
        """Brings the page before the others of its window: one behind them takes no input, and draws nothing."""
        if self.browser.ahead is not self:
            self.call("Page.bringToFront")
            self.browser.ahead = self

    def mouse(self, kind, x, y, button="none", clicks=0, modifiers=0, **more):
        self.front()
        held = {"left": 1, "right": 2}.get(button, 0) if kind != "mouseReleased" else 0
        self.call("Input.dispatchMouseEvent", type=kind, x=x, y=y, button=button, buttons=held, clickCount=clicks, modifiers=modifiers, **more)
        self.at = (x, y)

    def press(self, x, y, modifiers=0):
        self.mouse("mouseMoved", x, y, modifiers=modifiers)
        self.mouse("mousePressed", x, y, "left", 1, modifiers)

    def release(self, x, y, modifiers=0):
        self.mouse("mouseReleased", x, y, "left", 1, modifiers)

    def click_at(self, x, y, modifiers=0, clicks=1, button="left"):
        for count in range(1, clicks + 1):
            self.mouse("mouseMoved", x, y, modifiers=modifiers)
            self.mouse("mousePressed", x, y, button, count, modifiers)
            self.mouse("mouseReleased", x, y, button, count, modifiers)

    def drag_through(self, places, modifiers=0):
        """Presses at the first place, goes through the others, and lets go at the last."""
        self.press(*places[0], modifiers)
        for x, y in places[1:]:
            self.mouse("mouseMoved", x, y, "left", modifiers=modifiers)
        self.release(*places[-1], modifiers)

    def wheel(self, x, y, across=0, down=0, modifiers=0):
        self.call("Input.dispatchMouseEvent", type="mouseWheel", x=x, y=y, deltaX=across, deltaY=down, modifiers=modifiers)

    def key(self, key, modifiers=0):
        """One key, down and up: a letter as a key with this letter on it gives it, also in capitals."""
        self.front()
        if key in KEYS:
            code, text = KEYS[key]
            name = "Space" if key == " " else key
        else:
            code, text, name = ord(key.upper()), key, f"Key{key.upper()}" if key.isalpha() else ""
        if modifiers & (CONTROL | ALT):
            text = ""
        words = {"key": key, "code": name, "windowsVirtualKeyCode": code, "nativeVirtualKeyCode": code, "modifiers": modifiers}
        self.call("Input.dispatchKeyEvent", type="keyDown" if text else "rawKeyDown", **words, **({"text": text, "unmodifiedText": text} if text else {}))
        self.call("Input.dispatchKeyEvent", type="keyUp", **words)

    def type(self, text):
        self.call("Input.insertText", text=text)

    # ---- what is looked at

    def picture(self, path):
        with open(path, "wb") as file:
            file.write(base64.b64decode(self.call("Page.captureScreenshot", format="png")["data"]))

    def printed(self):
        """The bytes of the page as it is printed."""
        return base64.b64decode(self.call("Page.printToPDF", preferCSSPageSize=True, printBackground=True)["data"])

    def metrics(self):
        """What the browser measured of the page, in seconds of the processor."""
        self.call("Performance.enable", timeDomain="threadTicks")
        return {it["name"]: it["value"] for it in self.call("Performance.getMetrics")["metrics"]}

    def heap(self):
        """The bytes that the page's scripts hold, and its nodes and listeners, after what is no longer used is gone."""
        for _ in range(2):
            self.call("HeapProfiler.collectGarbage")
        return self.call("Runtime.getHeapUsage")["usedSize"], self.call("Memory.getDOMCounters")

    def close(self):
        with contextlib.suppress(Broken):
            self.browser.call("Target.closeTarget", targetId=self.target)


def found():
    """The path of Debian's chromium, or None."""
    return shutil.which("chromium")
