"""A headless Chromium for tests of pages. One process loads all pages of a test. It is controlled by the DevTools protocol over two pipes:
messages are JSON, and each ends with a zero byte.
"""
from __future__ import annotations

import base64
import contextlib
import json
import os
import pathlib
import select
import shutil
import subprocess
import tempfile
from typing import Any, Iterator, Optional

NAMES = ("chromium", "chromium-browser", "google-chrome")
WORDS = ("--headless", "--no-sandbox", "--disable-gpu", "--hide-scrollbars", "--force-device-scale-factor=1", "--remote-debugging-pipe")
PATIENCE = 120  # seconds to wait for a message
# The milliseconds from the beginning of the navigation until a page has loaded and its next frame is drawn.
DRAWN = "new Promise(done => requestAnimationFrame(() => requestAnimationFrame(() => done(performance.now()))))"


def chromium() -> Optional[str]:
    """The command of a browser, if there is one."""
    return next(filter(None, map(shutil.which, NAMES)), None)


class Tab:
    """A page in a browser, which has loaded."""

    def __init__(self, browser: Browser, session: str) -> None:
        self.browser, self.session = browser, session

    def call(self, method: str, **parameters: Any) -> Any:
        return self.browser.call(method, self.session, **parameters)

    def load(self, page: pathlib.Path) -> None:
        self.call("Page.enable")
        self.call("Page.navigate", url=page.as_uri())
        self.browser.wait_for("Page.loadEventFired", self.session)

    def run(self, script: str) -> Any:
        """The value of an expression, or of its promise. The security policy of the page does not apply to it."""
        found = self.call("Runtime.evaluate", expression=script, returnByValue=True, awaitPromise=True)
        assert "exceptionDetails" not in found, found["exceptionDetails"]
        return found["result"].get("value")

    def source(self) -> str:
        """The elements of the page as they are now, as HTML."""
        return str(self.run("document.documentElement.outerHTML"))

    def size(self, width: int, height: int) -> None:
        self.call("Emulation.setDeviceMetricsOverride", width=width, height=height, deviceScaleFactor=1, mobile=False)

    def scheme(self, name: str) -> None:
        """Sets the scheme of colours: light or dark."""
        self.call("Emulation.setEmulatedMedia", features=[{"name": "prefers-color-scheme", "value": name}])

    def picture(self) -> bytes:
        """The window as PNG."""
        self.run(DRAWN)
        return base64.b64decode(self.call("Page.captureScreenshot")["data"])

    def printed(self) -> bytes:
        """The printed sheets as PDF."""
        return base64.b64decode(self.call("Page.printToPDF", preferCSSPageSize=True)["data"])


class Browser:
    """A running Chromium. As a context manager it ends with the block."""

    def __init__(self, command: str) -> None:
        self.profile = tempfile.mkdtemp()
        commands, self.commands = os.pipe()
        self.messages, messages = os.pipe()

        def place() -> None:
            """Makes these pipes descriptors 3 and 4, from which Chromium reads and to which it writes."""
            ends = os.dup(commands), os.dup(messages)
            for number, end in zip((3, 4), ends):
                os.dup2(end, number)
                os.set_inheritable(number, True)

        self.process = subprocess.Popen(
            [command, *WORDS, f"--user-data-dir={self.profile}"], close_fds=False, preexec_fn=place, stdin=subprocess.DEVNULL,
            stdout=subprocess.DEVNULL, stderr=subprocess.DEVNULL)
        os.close(commands)
        os.close(messages)
        self.count, self.rest = 0, b""
        self.events: list[Any] = []

    def __enter__(self) -> Browser:
        return self

    def __exit__(self, *_: object) -> None:
        self.process.terminate()
        self.process.wait()
        os.close(self.commands)
        os.close(self.messages)
        shutil.rmtree(self.profile, ignore_errors=True)  # a process that is ending may still write there

    def message(self) -> Any:
        """The next message."""
        while b"\0" not in self.rest:
            assert select.select([self.messages], [], [], PATIENCE)[0], "Chromium does not answer"
            data = os.read(self.messages, 1 << 20)
            assert data, "Chromium has ended"
            self.rest += data
        text, _, self.rest = self.rest.partition(b"\0")
        return json.loads(text)

    def call(self, method: str, session: Optional[str] = None, **parameters: Any) -> Any:
        """The result of a method. Events that arrive before it are kept."""
        self.count += 1
        of = {"sessionId": session} if session else {}
        data = json.dumps({"id": self.count, "method": method, "params": parameters, **of}).encode() + b"\0"
        while data:
            data = data[os.write(self.commands, data):]
        while True:
            found = self.message()
            if found.get("id") == self.count:
                assert "error" not in found, f"{method}: {found['error']}"
                return found["result"]
            self.events.append(found)

    def wait_for(self, event: str, session: str) -> None:
        """Waits for an event of a page."""
        while not any((each.get("method"), each.get("sessionId")) == (event, session) for each in self.events):
            self.events.append(self.message())
        self.events.clear()

    @contextlib.contextmanager
    def open(self, page: pathlib.Path) -> Iterator[Tab]:
        """A page that has loaded, in a tab of its own."""
        target = self.call("Target.createTarget", url="about:blank")["targetId"]
        tab = Tab(self, self.call("Target.attachToTarget", targetId=target, flatten=True)["sessionId"])
        tab.load(page)
        yield tab
        self.call("Target.closeTarget", targetId=target)
