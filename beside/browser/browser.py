"""A headless Chromium that is driven over a pipe, by the DevTools protocol."""

import base64
import json
import os
import shutil
import subprocess
import tempfile

NAMES = ["chromium-headless-shell", "chromium", "chromium-browser", "google-chrome"]
# Which number the protocol has for a modifier key.
SHIFT = 8


class Broken(Exception):
    """The browser is not there, or a page in it failed."""


def found():
    """The program: CHROMIUM, or the first that is installed."""
    name = os.environ.get("CHROMIUM") or next(filter(None, map(shutil.which, NAMES)), None)
    if name is None:
        raise Broken("no Chromium: apt-get install chromium-headless-shell")
    return name


class Browser:
    """The browser with one page. What that writes on its console is kept in `said`."""

    def __init__(self, wide=1280, high=900):
        self.folder = tempfile.TemporaryDirectory(prefix="mesamon-browser-")
        self.number, self.said, self.loaded = 0, [], 0
        to_read, self.writes = os.pipe()
        self.reads, to_write = os.pipe()
        # The browser reads from 3 and writes to 4.
        shell = f"exec \"$0\" \"$@\" 3<&{to_read} 4>&{to_write}"
        options = ["--headless", "--no-sandbox", "--disable-gpu", "--hide-scrollbars", "--disable-background-networking",
                   "--remote-debugging-pipe", f"--user-data-dir={self.folder.name}", f"--window-size={wide},{high}"]
        self.process = subprocess.Popen(["bash", "-c", shell, found(), *options], pass_fds=[to_read, to_write],
                                        stderr=subprocess.DEVNULL)
        os.close(to_read)
        os.close(to_write)
        self.left = b""
        self.session = None
        target = self.call("Target.createTarget", url="about:blank")["targetId"]
        self.session = self.call("Target.attachToTarget", targetId=target, flatten=True)["sessionId"]
        for domain in ("Page", "Runtime", "Log"):
            self.call(f"{domain}.enable")
        self.call("Performance.enable", timeDomain="threadTicks")
        self.call("Emulation.setDeviceMetricsOverride", width=wide, height=high, deviceScaleFactor=1, mobile=False)

    def __enter__(self):
        return self

    def __exit__(self, *_):
        os.close(self.writes)
        try:
            self.process.wait(10)
        except subprocess.TimeoutExpired:
            self.process.kill()
            self.process.wait()
        os.close(self.reads)
        self.folder.cleanup()

    def receive(self):
        """The next message."""
        while b"\0" not in self.left:
            more = os.read(self.reads, 1 << 20)
            if not more:
                raise Broken("the browser has ended")
            self.left += more
        message, _, self.left = self.left.partition(b"\0")
        return json.loads(message)

    def note(self, message):
        """Keeps what a message says of the page: an error, or that it is loaded."""
        method, told = message.get("method"), message.get("params", {})
        if method == "Runtime.exceptionThrown":
            details = told["exceptionDetails"]
            self.said.append(details.get("exception", {}).get("description") or details["text"])
        elif method == "Runtime.consoleAPICalled":
            self.said.append(" ".join(str(a.get("value", a.get("description"))) for a in told["args"]))
        elif method == "Log.entryAdded":
            self.said.append(told["entry"]["text"])
        elif method == "Page.loadEventFired":
            self.loaded += 1

    def call(self, method, **words):
        """What the browser answers."""
        self.number += 1
        message = {"id": self.number, "method": method, "params": words}
        if self.session:
            message["sessionId"] = self.session
        os.write(self.writes, json.dumps(message).encode() + b"\0")
        while True:
            got = self.receive()
            if got.get("id") != self.number:
                self.note(got)
            elif "error" in got:
                raise Broken(f"{method}: {got['error']['message']}")
            else:
                return got["result"]

    def open(self, path):
        """Opens a page, and waits until it is loaded."""
        self.said.clear()
        before = self.loaded
        self.call("Page.navigate", url="file://" + os.path.abspath(path))
        while self.loaded == before:
            self.note(self.receive())

    def value(self, script):
        """The value of an expression in the page."""
        got = self.call("Runtime.evaluate", expression=script, returnByValue=True, awaitPromise=True)
        if "exceptionDetails" in got:
            details = got["exceptionDetails"]
            raise Broken(details.get("exception", {}).get("description") or details["text"])
        return got["result"].get("value")

    def seconds(self):
        """How many seconds of a processor the page's thread has taken."""
        metrics = self.call("Performance.getMetrics")["metrics"]
        return next(metric["value"] for metric in metrics if metric["name"] == "TaskDuration")

    def press(self, key, times=1, shift=False):
        """Presses a key."""
        for _ in range(times):
            words = {"key": key, "modifiers": SHIFT if shift else 0}
            if len(key) == 1:
                words["text"] = key
            self.call("Input.dispatchKeyEvent", type="keyDown", **words)
            self.call("Input.dispatchKeyEvent", type="keyUp", key=key)

    def write(self, text):
        """Writes text into the field that has the focus."""
        for sign in text:
            self.press(sign)

    def click(self, x, y):
        """Clicks at a place of the window."""
        for kind in ("mousePressed", "mouseReleased"):
            self.call("Input.dispatchMouseEvent", type=kind, x=x, y=y, button="left", clickCount=1)

    def shown_to(self, scheme):
        """Readers whose system asks for light or for dark."""
        self.call("Emulation.setEmulatedMedia", features=[{"name": "prefers-color-scheme", "value": scheme}])

    def picture(self, path):
        """Keeps what is seen as PNG."""
        with open(path, "wb") as file:
            file.write(base64.b64decode(self.call("Page.captureScreenshot", format="png")["data"]))
