"""Drives a browser without a window by its devtools protocol, over a pair of pipes.

Messages are JSON, each followed by a byte 0: the browser reads them from file 3 and writes to file 4.
"""
import base64
import fcntl
import json
import os
import select
import shutil
import subprocess
import sys
import tempfile
import time
from pathlib import Path

NAMES = ["chromium", "chromium-browser", "google-chrome", "chrome"]
FLAGS = ["--headless", "--no-sandbox", "--disable-gpu", "--no-first-run", "--disable-extensions"]
LIMIT = 60  # seconds in which the browser must answer
FREE = 10  # the least file number that is taken for a pipe's end, so that 3 and 4 stay free
START = """import os, sys
os.dup2(int(sys.argv[1]), 3)
os.dup2(int(sys.argv[2]), 4)
os.execv(sys.argv[3], sys.argv[3:])
"""


def program():
    """The path of a browser, or None."""
    return next((path for path in map(shutil.which, NAMES) if path), None)


class Failed(Exception):
    """What the browser says that it can't do, or a script of the page that fails."""


class Browser:
    """A browser with one page."""

    def __init__(self, path, width=1400, height=1100):
        self.profile = tempfile.TemporaryDirectory(prefix="view-", ignore_cleanup_errors=True)
        orders, self.out = self.pipe()
        self.into, answers = self.pipe()
        flags = [*FLAGS, f"--user-data-dir={self.profile.name}", "--remote-debugging-pipe"]
        start = [sys.executable, "-c", START, str(orders), str(answers)]
        self.process = subprocess.Popen(
            [*start, path, *flags, f"--window-size={width},{height}"],
            pass_fds=(orders, answers),
            stdout=subprocess.DEVNULL,
            stderr=subprocess.DEVNULL,
        )
        os.close(orders)
        os.close(answers)
        self.count, self.rest, self.events, self.session = 0, b"", [], None
        target = self.call("Target.createTarget", url="about:blank")["targetId"]
        asked = {"targetId": target, "flatten": True}
        self.session = self.call("Target.attachToTarget", **asked)["sessionId"]
        for domain in ("Page", "Runtime", "Network", "Accessibility"):
            self.call(f"{domain}.enable")

    def pipe(self):
        """A pipe's ends for reading and writing, both with high numbers."""
        ends = os.pipe()
        high = [fcntl.fcntl(end, fcntl.F_DUPFD_CLOEXEC, FREE) for end in ends]
        for end in ends:
            os.close(end)
        return high

    def read(self):
        """The next message."""
        while b"\0" not in self.rest:
            if not select.select([self.into], [], [], LIMIT)[0]:
                raise Failed(f"the browser says nothing for {LIMIT} seconds")
            more = os.read(self.into, 1 << 20)
            if not more:
                raise Failed("the browser ended")
            self.rest += more
        text, _, self.rest = self.rest.partition(b"\0")
        return json.loads(text)

    def call(self, method, **params):
        """The result of a method; events that come meanwhile are kept."""
        self.count += 1
        message = {"id": self.count, "method": method, "params": params}
        if self.session:
            message["sessionId"] = self.session
        os.write(self.out, json.dumps(message).encode() + b"\0")
        while (answer := self.read()).get("id") != self.count:
            self.events.append(answer)
        if "error" in answer:
            raise Failed(f"{method}: {answer['error']['message']}")
        return answer["result"]

    def open(self, address):
        """Opens a page; the seconds until its load event."""
        self.events.clear()
        begun = time.monotonic()
        self.call("Page.navigate", url="about:blank")
        self.call("Page.navigate", url=address)
        while not self.evaluate("document.readyState === 'complete' && location.protocol !== "
                                "'about:'"):
            time.sleep(0.02)
        return time.monotonic() - begun

    def evaluate(self, script):
        """The value of an expression in the page."""
        asked = {"expression": script, "returnByValue": True, "awaitPromise": True}
        found = self.call("Runtime.evaluate", **asked)
        if "exceptionDetails" in found:
            raise Failed(json.dumps(found["exceptionDetails"])[:300])
        return found["result"].get("value")

    def complaints(self):
        """The errors that the page threw, and the requests that it made, but for itself."""
        for event in self.events:
            if event.get("method") == "Runtime.exceptionThrown":
                yield event["params"]["exceptionDetails"]["text"]
            if event.get("method") == "Network.requestWillBeSent":
                url = event["params"]["request"]["url"]
                if not url.startswith(("about:", "file:", "data:")):
                    yield f"asks for {url}"

    def press(self, key, code):
        """Presses a key and lets it go; one that makes a text has it."""
        text = {"Enter": "\r"}.get(key, "")
        asked = {"key": key, "code": key, "windowsVirtualKeyCode": code}
        self.call("Input.dispatchKeyEvent", type="keyDown", text=text, **asked)
        self.call("Input.dispatchKeyEvent", type="keyUp", **asked)

    def click(self, selector):
        """Clicks the middle of an element with the mouse."""
        box = self.evaluate(
            f"(() => {{ const one = document.querySelector({json.dumps(selector)});"
            "one.scrollIntoView({ block: 'center' }); const { x, y, width, height } ="
            "one.getBoundingClientRect(); return [x + width / 2, y + height / 2]; })()"
        )
        where = {"x": box[0], "y": box[1], "button": "left", "clickCount": 1}
        self.call("Input.dispatchMouseEvent", type="mousePressed", **where)
        self.call("Input.dispatchMouseEvent", type="mouseReleased", **where)

    def shoot(self, path):
        """Writes a picture of what is seen."""
        data = self.call("Page.captureScreenshot", format="png")["data"]
        Path(path).write_bytes(base64.b64decode(data))

    def close(self):
        """Ends the browser, and removes its folder."""
        try:
            self.session = None
            self.call("Browser.close")
            self.process.wait(10)
        except (Failed, OSError, subprocess.TimeoutExpired):
            self.process.kill()
            self.process.wait()
        self.profile.cleanup()
