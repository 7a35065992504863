"""Drives a headless Chromium by its DevTools protocol over two pipes, so that no package is needed."""
import base64
import json
import os
import pathlib
import select
import shutil
import subprocess
import tempfile
import time

NAMES = ("chromium", "chromium-browser", "google-chrome", "chrome")
SECONDS = 120


class BrowserError(Exception):
    """What Chromium refuses, or what a script in a page throws."""


def find():
    """The path of a Chromium; None where there is none."""
    return next((path for path in map(shutil.which, NAMES) if path), None)


class Browser:
    """One headless Chromium with one page; use it in a `with`."""

    def __enter__(self):
        self.folder = tempfile.mkdtemp(prefix="cssvars-chromium-")
        given, self.given = os.pipe()
        self.told, told = os.pipe()
        words = [find(), "--headless=new", "--no-sandbox", "--disable-gpu", "--disable-dev-shm-usage", "--no-first-run", "--hide-scrollbars",
                 "--remote-debugging-pipe", f"--user-data-dir={self.folder}", "--allow-file-access-from-files", "about:blank"]
        shell = 'exec 3<&"$1" 4>&"$2"; shift 2; exec "$@"'
        self.child = subprocess.Popen(
            ["sh", "-c", shell, "sh", str(given), str(told), *words], pass_fds=(given, told),
            stdin=subprocess.DEVNULL, stdout=subprocess.DEVNULL, stderr=subprocess.DEVNULL)
        os.close(given)
        os.close(told)
        self.number, self.rest, self.events, self.session = 0, b"", [], None
        target = self.call("Target.createTarget", url="about:blank")["targetId"]
        self.session = self.call("Target.attachToTarget", targetId=target, flatten=True)["sessionId"]
        self.call("Page.enable")
        return self

    def __exit__(self, *error):
        try:
            self.session = None
            self.call("Browser.close")
        except (BrowserError, OSError):
            self.child.kill()
        self.child.wait()
        os.close(self.given)
        os.close(self.told)
        shutil.rmtree(self.folder, ignore_errors=True)

    def call(self, method, **values):
        """Calls a method of the protocol, and gives its result."""
        self.number += 1
        message = {"id": self.number, "method": method, "params": values}
        if self.session is not None:
            message["sessionId"] = self.session
        self.send(json.dumps(message).encode() + b"\0")
        while True:
            answer = self.receive()
            if answer.get("id") == self.number:
                if "error" in answer:
                    raise BrowserError(f"{method}: {answer['error'].get('message')}")
                return answer["result"]
            self.events.append(answer.get("method"))

    def send(self, data):
        """Writes a whole message."""
        while data:
            data = data[os.write(self.given, data):]

    def receive(self):
        """The next message."""
        while b"\0" not in self.rest:
            if not select.select([self.told], [], [], SECONDS)[0]:
                raise BrowserError(f"no answer within {SECONDS} seconds")
            piece = os.read(self.told, 1 << 20)
            if not piece:
                raise BrowserError("Chromium has ended")
            self.rest += piece
        message, self.rest = self.rest.split(b"\0", 1)
        return json.loads(message)

    def resize(self, width, height):
        """Sets the size of the viewport."""
        self.call("Emulation.setDeviceMetricsOverride", width=width, height=height, deviceScaleFactor=1, mobile=False)

    def prefer(self, scheme):
        """Has the user prefer the scheme `light` or `dark`."""
        self.call("Emulation.setEmulatedMedia", features=[{"name": "prefers-color-scheme", "value": scheme}])

    def open(self, path):
        """Opens a file and waits until it is loaded."""
        self.events.clear()
        url = pathlib.Path(path).resolve().as_uri()
        self.call("Page.navigate", url=url)
        ends = time.monotonic() + SECONDS
        while not self.is_loaded(url):
            if time.monotonic() > ends:
                raise BrowserError(f"{path} isn't loaded within {SECONDS} seconds")
            time.sleep(0.02)

    def is_loaded(self, url):
        """Whether the page of a URL is there as a whole. While pages change no script runs."""
        try:
            state = self.run("location.href + ' ' + document.readyState")
        except BrowserError:
            return False
        return state == f"{url} complete" and "Page.loadEventFired" in self.events

    def run(self, script):
        """The value of a script in the page."""
        answer = self.call("Runtime.evaluate", expression=script, returnByValue=True, awaitPromise=True)
        if "exceptionDetails" in answer:
            details = answer["exceptionDetails"]
            raise BrowserError(details.get("exception", {}).get("description") or details["text"])
        return answer["result"].get("value")

    def press(self, key, text=None):
        """Presses a key."""
        values = {"key": key, "code": key, **({"text": text} if text else {})}
        if key in KEY_CODES:
            values["windowsVirtualKeyCode"] = KEY_CODES[key]
        self.call("Input.dispatchKeyEvent", type="keyDown", **values)
        self.call("Input.dispatchKeyEvent", type="keyUp", **values)

    def type(self, text):
        """Types a text into what has the focus."""
        self.call("Input.insertText", text=text)

    def click(self, x, y):
        """Clicks at a place of the viewport."""
        for kind in ("mousePressed", "mouseReleased"):
            self.call("Input.dispatchMouseEvent", type=kind, x=x, y=y, button="left", clickCount=1)

    def picture(self, path):
        """Writes a picture of the viewport."""
        with open(path, "wb") as file:
            file.write(base64.b64decode(self.call("Page.captureScreenshot", format="png")["data"]))


KEY_CODES = {"Enter": 13, "Escape": 27, "Home": 36, "End": 35, "ArrowLeft": 37, "ArrowUp": 38, "ArrowRight": 39, "ArrowDown": 40, "PageUp": 33, "PageDown": 34, "Tab": 9}
