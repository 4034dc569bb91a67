"""Chromium without a window, driven over its debugging pipe, and a page that is open in it.

    python3 -m tests.chromium    writes the pictures of the page in docs/, on the built program"""
import base64
import json
import os
import select
import subprocess
import tempfile
import time

from tests.support import SECONDS, TOP, Server, wait_until

# The sizes of windows, in pixels.
WIDE = (1500, 1000)
NARROW = (390, 844)
# The sizes of a stage in docs/.
STAGES = {"stage": (1024, 768), "stage-large": (1920, 1080), "stage-narrow": NARROW}
# A made-up name that the browser looks for on the loopback.
OTHER_NAME = "museum.example"


class Chromium:
    """A headless Chromium with a profile of its own, started by a command and with further words. Each message is JSON,
    ended by a NUL: what it reads on its descriptor 3, and what it writes on 4."""

    # No call waits for its result after this moment, which a test may set.
    late = float("inf")

    def __init__(self, by=(), *words):
        self.profile = tempfile.TemporaryDirectory(ignore_cleanup_errors=True)
        reads, self.out = os.pipe()
        self.come, writes = os.pipe()

        def descriptors():
            os.dup2(reads, 103)
            os.dup2(writes, 104)
            os.dup2(103, 3)
            os.dup2(104, 4)

        call = [*by, "chromium", "--headless=new", "--disable-gpu", "--remote-debugging-pipe", "--hide-scrollbars",
                f"--host-resolver-rules=MAP {OTHER_NAME} 127.0.0.1", f"--user-data-dir={self.profile.name}", *words]
        call += ["--no-sandbox"] if os.geteuid() == 0 else []
        quiet = {"stdin": subprocess.DEVNULL, "stdout": subprocess.DEVNULL, "stderr": subprocess.DEVNULL}
        self.process = subprocess.Popen(call, pass_fds=(3, 4), preexec_fn=descriptors, **quiet)
        os.close(reads)
        os.close(writes)
        self.number, self.rest, self.events = 0, b"", []

    def call(self, method, session=None, **params):
        """The result of a call, once it has come."""
        return self.call_all(method, session, params)[0]

    def call_all(self, method, session, *asked):
        """The results of calls with these parameters, once all have come. The browser has all of them at once, so
        nothing that the caller waits for is between two of them."""
        first, messages, results = self.number + 1, [], {}
        for params in asked:
            self.number += 1
            message = {"id": self.number, "method": method, "params": params}
            if session:
                message["sessionId"] = session
            messages.append(json.dumps(message).encode() + b"\0")
        late = min(time.monotonic() + SECONDS, self.late)
        if time.monotonic() > late:
            raise TimeoutError(f"{method}: the test has taken too long")
        os.write(self.out, b"".join(messages))
        while len(results) < len(asked):
            answered = self.read(late - time.monotonic())
            if answered is None:
                raise TimeoutError(method)
            if first <= answered.get("id", 0) <= self.number:
                if "error" in answered:
                    raise RuntimeError(f"{method}: {answered['error']}")
                results[answered["id"]] = answered["result"]
            elif "method" in answered:
                self.events.append(answered)
        return [results[number] for number in sorted(results)]

    def read(self, seconds):
        """The next message, or None if none comes within this time."""
        while b"\0" not in self.rest:
            if not select.select([self.come], [], [], max(0, seconds))[0]:
                return None
            more = os.read(self.come, 1 << 20)
            if not more:
                raise EOFError("the browser has ended")
            self.rest += more
        message, _, self.rest = self.rest.partition(b"\0")
        return json.loads(message)

    def end(self):
        """Ends the browser."""
        self.process.terminate()
        try:
            self.process.wait(SECONDS)
        except subprocess.TimeoutExpired:
            self.process.kill()
            self.process.wait()
        os.close(self.out)
        os.close(self.come)
        self.profile.cleanup()


class Page:
    """A page that is open in the browser."""

    def __init__(self, browser, address, size=WIDE):
        self.browser = browser
        self.target = browser.call("Target.createTarget", url="about:blank")["targetId"]
        self.session = browser.call("Target.attachToTarget", targetId=self.target, flatten=True)["sessionId"]
        for part in "Page", "Runtime", "Log", "DOM":
            self.call(f"{part}.enable")
        self.call("Emulation.setFocusEmulationEnabled", enabled=True)
        self.resize(size)
        self.call("Page.navigate", url=address)

    def call(self, method, **params):
        """A call for this page."""
        return self.browser.call(method, self.session, **params)

    def close(self):
        """Closes the page."""
        self.browser.call("Target.closeTarget", targetId=self.target)

    def resize(self, size):
        """Gives the window another size."""
        width, height = size
        self.call("Emulation.setDeviceMetricsOverride", width=width, height=height, deviceScaleFactor=1, mobile=False)

    def value(self, expression):
        """The value of an expression of JavaScript in the page; of a promise, once it is kept."""
        asked = {"expression": expression, "awaitPromise": True, "returnByValue": True}
        found = self.call("Runtime.evaluate", **asked)
        if "exceptionDetails" in found:
            return f"exception: {found['exceptionDetails'].get('exception', {}).get('description')}"
        return found["result"].get("value")

    def until(self, expression, wanted=True, seconds=SECONDS):
        """The value of an expression once it is the wanted one, or the last one within this time."""
        found = []

        def is_wanted():
            found[:] = [self.value(expression)]
            return found == [wanted]

        wait_until(is_wanted, seconds)
        return found[0]

    def is_ready(self):
        """Waits until the page has seen the machine and the guide has begun, and returns whether that is so."""
        seen = "typeof view === 'object' && view.picture !== null && view.link === 'fine' && guide.state !== 'off'"
        return self.until(seen) is True

    def click(self, element):
        """Presses a button of the page."""
        self.value(f"document.getElementById('{element}').click()")

    def mouse(self, element, held=None):
        """Moves the mouse to an element, as a visitor who scrolls to it, and presses. What is pressed has to be the
        element, and not something over it; False if it isn't. `held` is called before the button is released."""
        at = self.value(f"""(element => {{
            element.scrollIntoView({{block: 'nearest', behavior: 'instant'}});
            const box = element.getBoundingClientRect(), x = box.x + box.width / 2, y = box.y + box.height / 2;
            return [x, y, element.contains(document.elementFromPoint(x, y))];
        }})(document.getElementById('{element}'))""")
        if not isinstance(at, list) or not at[2]:
            return False
        place, button = {"x": at[0], "y": at[1]}, {"button": "left", "clickCount": 1}
        events = [{"type": "mouseMoved", **place}, {"type": "mousePressed", **place, **button}]
        if held:
            self.browser.call_all("Input.dispatchMouseEvent", self.session, *events)
            held()
            events.clear()
        events.append({"type": "mouseReleased", **place, **button})
        self.browser.call_all("Input.dispatchMouseEvent", self.session, *events)
        return True

    def tab_to(self, element, most=150):
        """Presses Tab until an element has the focus; False if it doesn't come to it."""
        for _ in range(most):
            if self.value("document.activeElement.id") == element:
                return True
            self.press("Tab")
        return False

    def press(self, key, code=None, held=0):
        """Presses a key of the keyboard, with others held: 1 for Alt, 8 for Shift."""
        codes = {"Tab": 9, "Enter": 13, "Escape": 27, " ": 32, "ArrowUp": 38, "ArrowDown": 40, "ArrowRight": 39}
        number = codes.get(key, ord(key.upper()[0]))
        asked = {"key": key, "code": code or key, "modifiers": held, "windowsVirtualKeyCode": number}
        if key in ("Enter", " "):
            asked["text"] = "\r" if key == "Enter" else " "
        self.call("Input.dispatchKeyEvent", type="keyDown", **asked)
        asked.pop("text", None)
        self.call("Input.dispatchKeyEvent", type="keyUp", **asked)

    def write(self, text):
        """Writes a text where the keyboard's focus is."""
        self.call("Input.insertText", text=text)

    def picture(self, path):
        """Writes a picture of the whole page to a file."""
        shot = self.call("Page.captureScreenshot", captureBeyondViewport=True)["data"]
        path.write_bytes(base64.b64decode(shot))

    def complaints(self):
        """What the page has written to the browser's console: its errors and its warnings. That the networks of the host
        have changed is none of them."""
        found = []
        for event in self.browser.events:
            params = event.get("params", {})
            if event.get("sessionId") != self.session:
                continue
            if event["method"] == "Runtime.exceptionThrown":
                found.append(params["exceptionDetails"].get("exception", {}).get("description", "exception"))
            elif event["method"] == "Log.entryAdded":
                found.append(params["entry"]["text"] + " " + params["entry"].get("url", ""))
            elif event["method"] == "Runtime.consoleAPICalled":
                found.append(str([each.get("value") for each in params["args"]]))
        return [each for each in found if "net::ERR_NETWORK_CHANGED" not in each]


def write_stages(browser):
    """Writes pictures of a stage, with a visitor's name on the paper."""
    room = Server("serve", seats=1, pages=True, consoles=False)
    try:
        page = Page(browser, f"{room.address()}/#exhibit&name=IBM+1401")
        page.is_ready()
        page.value("feedChosen().then(pressLoad).then(pressStep).then(pressRun)")
        page.value("byId('name').value = 'ADA LOVELACE', feedName().then(() => delay(500)).then(pressLoad)")
        page.value("(async () => { for (let n = 0; n < 6; n++) await pressStep(); })()")
        for name, size in STAGES.items():
            page.resize(size)
            page.until("document.getAnimations().length < 2", True)
            page.picture(TOP / f"docs/page-{name}.png")
    finally:
        room.kill()


def write_pictures():
    """Writes pictures of the page at two widths, in the middle of a program, and of a stage."""
    room, browser = Server("serve", seats=8, pages=True, consoles=False), Chromium()
    try:
        page = Page(browser, room.address())
        page.is_ready()
        page.value("guide.press(), byId('program').value = 'listing', drawProgram(), feedProgram()")
        for line in "SWITCH A ON", "SWITCH F ON", "LOAD", "RUN 214":
            page.value(f"say('{line}')")
        page.value("choose(404), tell(TEXTS.said.load), tellDeck('')")
        page.click("step-key")
        for name, size in ("wide", WIDE), ("narrow", NARROW):
            page.resize(size)
            page.until("view.link === 'fine' && document.getAnimations().length", 0)
            page.picture(TOP / f"docs/page-{name}.png")
        page.close()
        write_stages(browser)
    finally:
        room.kill()
        browser.end()


if __name__ == "__main__":
    write_pictures()
