"""A real browser, headless, driven by the DevTools protocol over two pipes."""
from __future__ import annotations

import fcntl
import json
import os
import select
import shutil
import subprocess
import tempfile
import time
from pathlib import Path
from typing import Any

SECONDS = 120.0
FIRST_FREE = 20


def chromium() -> str | None:
    """Returns the path of a Chromium, where one is there."""
    return next(filter(None, map(shutil.which, ("chromium", "chromium-browser"))), None)


class Browser:
    """One page in a browser: it opens files, takes keys and clicks, and answers expressions."""

    def __init__(self, width: int = 1280, height: int = 900) -> None:
        self._home = tempfile.mkdtemp()
        self._held = b""
        self._count = 0
        self.messages: list[dict[str, Any]] = []
        self._start(f"--window-size={width},{height}")
        target = self._call("Target.createTarget", {"url": "about:blank"})["targetId"]
        self._session = self._call("Target.attachToTarget", {"targetId": target, "flatten": True})["sessionId"]
        for domain in ("Page", "Runtime", "Log"):
            self.call(f"{domain}.enable")
        self.call("Emulation.setDeviceMetricsOverride", width=width, height=height, deviceScaleFactor=1, mobile=False)

    def close(self) -> None:
        self._process.kill()
        self._process.wait()
        os.close(self._to)
        os.close(self._from)
        shutil.rmtree(self._home, ignore_errors=True)

    def call(self, method: str, **words: Any) -> Any:
        return self._call(method, words, self._session)

    def open(self, page: Path) -> None:
        """Opens a file, and waits until it is there. Forgets the messages of before."""
        self.messages = []
        self.call("Page.navigate", url="about:blank")
        self._until("Page.loadEventFired")
        self.open_address(page.as_uri())

    def open_address(self, address: str) -> None:
        """Opens an address, and waits until it is there."""
        self.messages = []
        self.call("Page.navigate", url=address)
        self._until("Page.loadEventFired")
        self.settle()

    def value(self, expression: str) -> Any:
        """Returns the value of an expression, and of a promise what it gives."""
        answer = self.call("Runtime.evaluate", expression=expression, returnByValue=True, awaitPromise=True)
        if "exceptionDetails" in answer:
            raise AssertionError(answer["exceptionDetails"])
        return answer["result"].get("value")

    def settle(self) -> None:
        """Waits until the page has drawn."""
        self.value("new Promise(done => requestAnimationFrame(() => requestAnimationFrame(() => done(1))))")

    def key(self, key: str, modifiers: int = 0) -> None:
        words = {
            "key": key,
            "code": key,
            "modifiers": modifiers,
            "windowsVirtualKeyCode": CODES.get(key, ord(key[0].upper())),
        }
        text = {"text": "\r"} if key == "Enter" else {"text": key} if len(key) == 1 else {}
        self.call("Input.dispatchKeyEvent", type="keyDown", **words, **text)
        self.call("Input.dispatchKeyEvent", type="keyUp", **words)
        self.settle()

    def mouse(self, kind: str, x: float, y: float, **words: Any) -> None:
        self.call("Input.dispatchMouseEvent", type=kind, x=x, y=y, **words)

    def click(self, x: float, y: float) -> None:
        self.mouse("mouseMoved", x, y)
        self.mouse("mousePressed", x, y, button="left", clickCount=1)
        self.mouse("mouseReleased", x, y, button="left", clickCount=1)
        self.settle()

    def faults(self) -> list[str]:
        """Returns what the console got, exceptions, and dialogs that were opened."""
        bad = (
            "Runtime.exceptionThrown",
            "Runtime.consoleAPICalled",
            "Log.entryAdded",
            "Page.javascriptDialogOpening",
            "Network.requestWillBeSent",
        )
        return [json.dumps(each) for each in self.messages if each["method"] in bad]

    def _start(self, size: str) -> None:
        commands, self._to = os.pipe()
        self._from, answers = os.pipe()
        flags = [
            "--headless",
            "--no-sandbox",
            "--disable-gpu",
            "--remote-debugging-pipe",
            "--no-first-run",
            "--disable-extensions",
            "--disable-background-networking",
            "--disable-component-update",
            "--disable-dev-shm-usage",
            size,
            f"--user-data-dir={self._home}",
        ]

        def place_pipes() -> None:
            high = fcntl.fcntl(commands, fcntl.F_DUPFD, FIRST_FREE), fcntl.fcntl(answers, fcntl.F_DUPFD, FIRST_FREE)
            os.dup2(high[0], 3)
            os.dup2(high[1], 4)

        self._process = subprocess.Popen(
            [str(chromium()), *flags],
            pass_fds=(3, 4),
            preexec_fn=place_pipes,
            stdout=subprocess.DEVNULL,
            stderr=subprocess.DEVNULL,
        )
        os.close(commands)
        os.close(answers)

    def _call(self, method: str, words: dict[str, Any], session: str | None = None) -> Any:
        self._count += 1
        message: dict[str, Any] = {"id": self._count, "method": method, "params": words}
        if session:
            message["sessionId"] = session
        os.write(self._to, json.dumps(message).encode() + b"\0")
        answer = self._until(self._count)
        if "error" in answer:
            raise AssertionError(answer["error"])
        return answer["result"]

    def _until(self, wanted: int | str) -> dict[str, Any]:
        """Reads messages up to an answer by its number, or to an event by its method."""
        end = time.monotonic() + SECONDS
        while True:
            message = self._message(end)
            if "method" in message:
                self.messages.append(message)
            if wanted in (message.get("id"), message.get("method")):
                return message

    def _message(self, end: float) -> dict[str, Any]:
        while b"\0" not in self._held:
            if not select.select([self._from], [], [], max(0.0, end - time.monotonic()))[0]:
                raise AssertionError("the browser doesn't answer")
            chunk = os.read(self._from, 1 << 20)
            if not chunk:
                raise AssertionError("the browser has ended")
            self._held += chunk
        text, self._held = self._held.split(b"\0", 1)
        message: dict[str, Any] = json.loads(text)
        return message


CODES = {
    "ArrowLeft": 37,
    "ArrowUp": 38,
    "ArrowRight": 39,
    "ArrowDown": 40,
    "Home": 36,
    "End": 35,
    "Tab": 9,
    "Enter": 13,
    "Escape": 27,
}
