"""A Chromium without a window, over the pipe of its protocol for tools: pages are opened, asked, and taken as pictures."""
import base64
import json
import os
import select
import shutil
import subprocess
import tempfile
import time

NAMES = ("chromium", "chromium-browser", "google-chrome")
FLAGS = ["--headless", "--no-sandbox", "--disable-gpu", "--disable-dev-shm-usage", "--no-first-run", "--remote-debugging-pipe"]
SECONDS = 120


def found() -> str | None:
    """The browser's path, if there is one."""
    return next((path for path in map(shutil.which, NAMES) if path), None)


class Browser:
    """One browser with one page; as a context it is ended, and its folder removed."""

    def __init__(self, path):
        self.folder = tempfile.TemporaryDirectory(prefix="sedck-browser-", ignore_cleanup_errors=True)
        to_child, self.to = os.pipe()
        self.of, of_child = os.pipe()

        def places():
            # The protocol reads from 3 and writes to 4; copies above them come first, so that neither is overwritten.
            read, write = os.dup2(to_child, 100), os.dup2(of_child, 101)
            os.dup2(read, 3)
            os.dup2(write, 4)

        self.process = subprocess.Popen([path, *FLAGS, "--user-data-dir=" + self.folder.name, "about:blank"], stdin=subprocess.DEVNULL, stdout=subprocess.DEVNULL,
                                        stderr=subprocess.DEVNULL, close_fds=False, preexec_fn=places)
        os.close(to_child)
        os.close(of_child)
        self.number, self.left, self.session = 0, b"", None
        page = self.call("Target.createTarget", url="about:blank")["targetId"]
        self.session = self.call("Target.attachToTarget", targetId=page, flatten=True)["sessionId"]
        self.call("Page.enable")

    def __enter__(self):
        return self

    def __exit__(self, *_):
        self.process.terminate()
        self.process.wait()
        os.close(self.to)
        os.close(self.of)
        self.folder.cleanup()

    def call(self, method, **words):
        """What the browser answers to a call; events in between are skipped."""
        self.number += 1
        message = {"id": self.number, "method": method, "params": words}
        if self.session:
            message["sessionId"] = self.session
        os.write(self.to, json.dumps(message).encode() + b"\0")
        until = time.monotonic() + SECONDS
        while True:
            while b"\0" not in self.left:
                if not select.select([self.of], [], [], max(0, until - time.monotonic()))[0]:
                    raise TimeoutError(method)
                data = os.read(self.of, 1 << 20)
                if not data:
                    raise EOFError(method)
                self.left += data
            one, _, self.left = self.left.partition(b"\0")
            answer = json.loads(one)
            if answer.get("id") == self.number:
                if "error" in answer:
                    raise ValueError("%s: %s" % (method, answer["error"]))
                return answer["result"]

    def look(self, width, scheme, height=900):
        """How wide the page is, and whether the user likes it dark or light."""
        self.call("Emulation.setDeviceMetricsOverride", width=width, height=height, deviceScaleFactor=1, mobile=width < 600)
        self.call("Emulation.setEmulatedMedia", features=[{"name": "prefers-color-scheme", "value": scheme}])

    def open(self, path):
        self.call("Page.navigate", url="file://" + str(path))
        self.until("document.readyState === 'complete' && location.href.startsWith('file:')")

    def value(self, expression):
        """The value of an expression in the page."""
        done = self.call("Runtime.evaluate", expression=expression, returnByValue=True, awaitPromise=True)
        if "exceptionDetails" in done:
            raise ValueError("%s: %s" % (expression, done["exceptionDetails"].get("exception", {}).get("description")))
        return done["result"].get("value")

    def until(self, expression):
        """Waits until an expression is true."""
        until = time.monotonic() + SECONDS
        while not self.value("Boolean(%s)" % expression):
            if time.monotonic() > until:
                raise TimeoutError(expression)
            time.sleep(0.05)

    def key(self, name, code, modifiers=0, text=""):
        """Presses a key and lets it go."""
        for kind in ("keyDown", "keyUp"):
            self.call("Input.dispatchKeyEvent", type=kind, key=name, code=name, windowsVirtualKeyCode=code, modifiers=modifiers, text=text if kind == "keyDown" else "")

    def picture(self, whole=True):
        """The page as a PNG."""
        return base64.b64decode(self.call("Page.captureScreenshot", format="png", captureBeyondViewport=whole)["data"])
