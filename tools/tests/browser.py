"""Drives a headless Chromium through its pipe for tools, where the machine has one."""
from __future__ import annotations

import glob
import json
import os
import select
import shutil
import signal
import subprocess
import tempfile
from types import TracebackType
from typing import Any

NAMES = ("chromium", "chromium-browser", "google-chrome", "chrome")
# where Playwright keeps its own
KEPT = "~/.cache/ms-playwright/chromium*/chrome-linux*/*chrome*"
# what a key is to a browser that has to do by itself what it does with it
CODES = {"End": 35, "Home": 36, "ArrowLeft": 37, "ArrowUp": 38, "ArrowRight": 39, "ArrowDown": 40}
OPTIONS = ["--headless", "--no-sandbox", "--disable-gpu", "--no-first-run", "--disable-extensions", "--host-resolver-rules=MAP * ~NOTFOUND",
           "--window-size=1280,900", "--force-color-profile=srgb", "--remote-debugging-pipe", "about:blank"]
# after so many seconds without a word the browser is given up
SECONDS = 120


def find_browser() -> str | None:
    """The path of a Chromium, if there is one."""
    kept = [path for path in sorted(glob.glob(os.path.expanduser(KEPT))) if os.path.basename(path) in ("chrome", "headless_shell", "chrome-headless-shell")]
    return next((path for path in [*map(shutil.which, NAMES), *kept] if path), None)


class Browser:
    """A browser with one page, which reaches no network."""

    def __init__(self, path: str) -> None:
        self.folder = tempfile.TemporaryDirectory(prefix="rcce-browser-", ignore_cleanup_errors=True)
        theirs_in, self.writing = os.pipe()
        self.reading, theirs_out = os.pipe()

        def give_pipes() -> None:
            """The browser reads commands at 3 and answers at 4."""
            os.dup2(theirs_in, 13)
            os.dup2(theirs_out, 14)
            os.dup2(13, 3)
            os.dup2(14, 4)

        words = [path, f"--user-data-dir={self.folder.name}", *OPTIONS]
        self.process = subprocess.Popen(words, stdin=subprocess.DEVNULL, stdout=subprocess.DEVNULL, stderr=subprocess.DEVNULL,
                                        preexec_fn=give_pipes, close_fds=False, start_new_session=True)
        os.close(theirs_in)
        os.close(theirs_out)
        self.left, self.number, self.session = b"", 0, ""
        page = next(it for it in self.ask("Target.getTargets")["targetInfos"] if it["type"] == "page")
        self.session = self.ask("Target.attachToTarget", targetId=page["targetId"], flatten=True)["sessionId"]
        self.ask("Page.enable")

    def _receive(self) -> dict[str, Any]:
        """The next message of the browser."""
        while b"\0" not in self.left:
            if not select.select([self.reading], [], [], SECONDS)[0]:
                raise TimeoutError(f"the browser says nothing for {SECONDS} seconds")
            more = os.read(self.reading, 1 << 16)
            if not more:
                raise EOFError("the browser has ended")
            self.left += more
        message, _, self.left = self.left.partition(b"\0")
        return dict(json.loads(message))

    def ask(self, method: str, **words: Any) -> dict[str, Any]:
        """Asks the browser, and waits for its answer."""
        self.number += 1
        asked: dict[str, Any] = {"id": self.number, "method": method, "params": words}
        if self.session:
            asked["sessionId"] = self.session
        os.write(self.writing, json.dumps(asked).encode() + b"\0")
        while (told := self._receive()).get("id") != self.number:
            pass
        if "error" in told:
            raise RuntimeError(f"{method}: {told['error']}")
        return dict(told["result"])

    def open(self, url: str) -> None:
        """Opens a page, and waits until it is loaded."""
        self.ask("Page.navigate", url=url)
        self.run("new Promise(done => document.readyState === 'complete' ? done() : addEventListener('load', done))")

    def run(self, script: str) -> Any:
        """What a script gives in the page."""
        told = self.ask("Runtime.evaluate", expression=script, awaitPromise=True, returnByValue=True)
        if "exceptionDetails" in told:
            raise RuntimeError(f"{script}: {told['exceptionDetails']}")
        return told["result"].get("value")

    def press(self, key: str) -> None:
        """Presses a key."""
        for kind in ("keyDown", "keyUp"):
            self.ask("Input.dispatchKeyEvent", type=kind, key=key, code=key, windowsVirtualKeyCode=CODES.get(key, 0))

    def click(self, name: str) -> None:
        """Clicks in the midst of an element, by its id, as a mouse does."""
        x, y = self.run(f"(({{ left, top, width, height }}) => [left + width / 2, top + height / 2])(document.getElementById('{name}').getBoundingClientRect())")
        for kind in ("mousePressed", "mouseReleased"):
            self.ask("Input.dispatchMouseEvent", type=kind, x=x, y=y, button="left", clickCount=1)

    def resize(self, width: int, height: int) -> None:
        """Makes the window as large as this."""
        self.ask("Emulation.setDeviceMetricsOverride", width=width, height=height, deviceScaleFactor=1, mobile=False)

    def prefer(self, scheme: str) -> None:
        """Asks pages for light or for dark."""
        self.ask("Emulation.setEmulatedMedia", features=[{"name": "prefers-color-scheme", "value": scheme}])

    def __enter__(self) -> "Browser":
        return self

    def __exit__(self, kind: type[BaseException] | None, error: BaseException | None, trace: TracebackType | None) -> None:
        # it is the first of a session of its own, with the processes that it has started
        os.killpg(self.process.pid, signal.SIGKILL)
        self.process.wait()
        os.close(self.writing)
        os.close(self.reading)
        self.folder.cleanup()
