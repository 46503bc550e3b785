"""A browser without a window: Debian's chromium, or another program with one of its names."""

from __future__ import annotations

import base64
import json
import os
import shutil
import subprocess
import tempfile
from typing import Any

NAMES = ("chromium", "chromium-browser", "google-chrome")
SECONDS = 120


def path() -> Any:
    """Returns the browser's path, or None if there is no browser."""
    return next(filter(None, map(shutil.which, NAMES)), None)


class Session:
    """A browser that is controlled over pipes: pages at the size of a desktop or a phone, and on paper."""

    def __enter__(self) -> Any:
        self.folder = tempfile.mkdtemp(prefix="viewer.")
        (theirs_in, self.to), (self.back, theirs_out) = os.pipe(), os.pipe()
        # the browser reads descriptor 3 and writes 4
        shell = f"exec 3<&{theirs_in} 4>&{theirs_out}; exec \"$@\""
        words = [path(), "--headless", "--no-sandbox", "--disable-gpu", "--hide-scrollbars",
                 f"--user-data-dir={self.folder}",
                 "--remote-debugging-pipe", "about:blank"]
        self.process = subprocess.Popen(["bash", "-c", shell, "sh", *words], pass_fds=(theirs_in, theirs_out),
                                        env={**os.environ, "HOME": self.folder},
                                        stdout=subprocess.DEVNULL, stderr=subprocess.DEVNULL)
        os.close(theirs_in)
        os.close(theirs_out)
        self.count, self.read, self.session = 0, b"", None
        target = self.ask("Target.createTarget", url="about:blank")["targetId"]
        self.session = self.ask("Target.attachToTarget", targetId=target, flatten=True)["sessionId"]
        self.ask("Page.enable")
        return self

    def __exit__(self, *_what: Any) -> None:
        os.close(self.to)
        self.process.wait(SECONDS)
        os.close(self.back)
        shutil.rmtree(self.folder, ignore_errors=True)

    def receive(self) -> Any:
        while b"\0" not in self.read:
            some = os.read(self.back, 1 << 20)
            if not some:
                raise OSError("the browser has ended")
            self.read += some
        message, self.read = self.read.split(b"\0", 1)
        return json.loads(message)

    def ask(self, method: Any, **params: Any) -> Any:
        self.count += 1
        message = {"id": self.count, "method": method, "params": params}
        if self.session:
            message["sessionId"] = self.session
        data = json.dumps(message).encode() + b"\0"
        while data:
            data = data[os.write(self.to, data):]
        while True:
            answer = self.receive()
            if answer.get("id") == self.count:
                if "error" in answer:
                    raise OSError(f"the browser refused {method}: {answer['error']}")
                return answer["result"]

    def resize(self, wide: int, high: int) -> None:
        """A narrow page is a phone's."""
        self.ask("Emulation.setDeviceMetricsOverride", width=wide, height=high, deviceScaleFactor=1,
                 mobile=wide < 640)

    def open(self, address: Any, wide: Any, high: Any) -> None:
        """Opens a page at a size."""
        self.resize(wide, high)
        for it in ("about:blank", address):
            self.ask("Page.navigate", url=it)
        while self.receive().get("method") != "Page.loadEventFired":
            pass

    def value(self, expression: Any) -> Any:
        """The value of an expression in the page."""
        answer = self.ask("Runtime.evaluate", expression=expression, returnByValue=True, awaitPromise=True)
        return answer["result"].get("value", answer.get("exceptionDetails"))

    def press(self, key: Any) -> None:
        for kind in ("keyDown", "keyUp"):
            self.ask("Input.dispatchKeyEvent", type=kind, key=key)

    def picture(self) -> Any:
        """Returns a picture of the screen, as PNG."""
        return base64.b64decode(self.ask("Page.captureScreenshot", format="png")["data"])

    def paper(self) -> Any:
        """Returns the page as PDF, on A4."""
        return base64.b64decode(self.ask("Page.printToPDF", printBackground=True, paperWidth=8.27,
                                         paperHeight=11.69)["data"])
