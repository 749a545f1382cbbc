"""A headless Chromium, driven by its DevTools protocol over pipes: no network and no other program is needed."""

import base64
import json
import os
import shutil
import subprocess
import tempfile
import time

from cases import Failed, Limit, started


def program():
    """Where Chromium is, or nothing."""
    return shutil.which("chromium") or shutil.which("chromium-browser")


class Browser:
    """A browser with one page."""

    def __init__(self, width=1200, height=760):
        self.room = tempfile.TemporaryDirectory(prefix="clients-browser-", ignore_cleanup_errors=True)
        words = ["--headless", "--remote-debugging-pipe", f"--user-data-dir={self.room.name}", "--hide-scrollbars",
                 f"--window-size={width},{height}", "--disable-gpu", "--no-first-run", "--disable-dev-shm-usage",
                 "--disable-background-networking"]
        if os.geteuid() == 0:
            words.append("--no-sandbox")  # Chromium's sandbox isn't there for root
        theirs, self.to_browser = os.pipe()
        self.from_browser, ours = os.pipe()
        # It reads commands from descriptor 3, and writes what it tells to descriptor 4.
        command = ["/bin/sh", "-c", f'exec "$0" "$@" 3<&{theirs} 4>&{ours}', program(), *words, "about:blank"]
        quiet = subprocess.DEVNULL
        self.process = started(command, pass_fds=(theirs, ours), stdout=quiet, stderr=quiet)
        os.close(theirs)
        os.close(ours)
        self.number, self.text, self.session = 0, b"", None
        targets = self.ask("Target.getTargets")["targetInfos"]
        page = next(target["targetId"] for target in targets if target["type"] == "page")
        self.session = self.ask("Target.attachToTarget", targetId=page, flatten=True)["sessionId"]

    def __enter__(self):
        return self

    def __exit__(self, *_):
        try:
            self.session = None
            self.ask("Browser.close")
            self.process.wait(60)
        except (Failed, OSError, subprocess.TimeoutExpired):
            self.process.kill()
            self.process.wait()
        os.close(self.to_browser)
        os.close(self.from_browser)
        self.room.cleanup()

    def ask(self, method, **parameters):
        """What a command of the protocol gives."""
        self.number += 1
        message = {"id": self.number, "method": method, "params": parameters}
        if self.session:
            message["sessionId"] = self.session
        os.write(self.to_browser, json.dumps(message).encode() + b"\0")
        while True:
            reply = self.message()
            if reply.get("id") == self.number:
                if "error" in reply:
                    raise Failed(f"{method}: {reply['error']}")
                return reply["result"]

    def message(self):
        """The next message."""
        while b"\0" not in self.text:
            data = os.read(self.from_browser, 1 << 16)
            if not data:
                raise Failed("the browser ended")
            self.text += data
        message, _, self.text = self.text.partition(b"\0")
        return json.loads(message)

    def value(self, expression):
        """What an expression is in the page."""
        found = self.ask("Runtime.evaluate", expression=expression, returnByValue=True, awaitPromise=True)
        if "exceptionDetails" in found:
            raise Failed(f"{expression}: {found['exceptionDetails']}")
        return found["result"].get("value")

    def until(self, what, expression):
        """Waits until an expression is true in the page, as long as the page changes, and gives its value."""
        limit = Limit(self.text_of_page)
        while not limit.is_over():
            try:
                if found := self.value(expression):
                    return found
            except Failed:
                pass  # the page is being loaded
            time.sleep(0.05)
        raise Failed(f"{what} wasn't so: {self.text_of_page()!r}")

    def text_of_page(self):
        """What the page shows as text, but for its fields of time."""
        try:
            return self.value("document.body && document.body.innerText")
        except Failed:
            return None

    def mouse(self, kind, x, y, **more):
        """An event of the mouse."""
        self.ask("Input.dispatchMouseEvent", type=kind, x=x, y=y, **more)

    def drag(self, start, end, y):
        """Drags over the page from one column to another."""
        self.mouse("mouseMoved", start, y)
        self.mouse("mousePressed", start, y, button="left", clickCount=1)
        for part in (1, 2, 3):
            self.mouse("mouseMoved", start + (end - start) * part / 3, y, button="left")
        self.mouse("mouseReleased", end, y, button="left", clickCount=1)

    def picture(self):
        """The page as a PNG."""
        return base64.b64decode(self.ask("Page.captureScreenshot", format="png")["data"])
