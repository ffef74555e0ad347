"""What tests in a real browser share: a page that is made and opened, and what is seen of it."""
from __future__ import annotations

import json
import unittest
from typing import Any

from .browser import Browser, chromium
from .support import EXAMPLES, Session, WithRoom, page_of


@unittest.skipUnless(chromium(), "there is no chromium on the PATH")
class Browsing(WithRoom):
    """Tests in a browser, which the tests of a class share."""

    browser: Browser

    @classmethod
    def setUpClass(cls) -> None:
        cls.browser = Browser()
        cls.addClassCleanup(cls.browser.close)

    def open(self, *words: Any) -> None:
        output = self.room / "page.html"
        self.assertEqual(page_of(*words, "--output", output), (0, "", ""))
        self.browser.open(output)

    def example(self, name: str, *words: Any) -> Session:
        config, script = EXAMPLES / name / "config.json", EXAMPLES / name / "script.jsonl"
        self.open(config, script, *words)
        return Session(config, script)

    def made(self, config: Any, events: list[Any], *words: Any) -> None:
        """Opens the page of a configuration and events that are given as values."""
        self.open(*self.files(config, events), *words)

    def count(self, selector: str) -> int:
        return int(self.browser.value(f"document.querySelectorAll({json.dumps(selector)}).length"))

    def text(self, selector: str) -> str:
        return str(self.browser.value(f"document.querySelector({json.dumps(selector)}).textContent"))

    def texts(self, selector: str) -> list[str]:
        return list(
            self.browser.value(
                f"[...document.querySelectorAll({json.dumps(selector)})].map((each) => each.textContent)"
            )
        )

    def place(self) -> str:
        return self.text("#place")

    def press(self, selector: str) -> None:
        """Clicks an element by the script, wherever it stands."""
        self.browser.value(f"document.querySelector({json.dumps(selector)}).click()")
        self.browser.settle()

    def middle(self, selector: str) -> tuple[float, float]:
        """Returns the middle of the last element that fits."""
        box = self.browser.value(
            f"(() => {{ const all = document.querySelectorAll({json.dumps(selector)}); const last = all[all.length - 1];"
            "last.scrollIntoView({ block: 'center' }); const b = last.getBoundingClientRect();"
            "return [b.x + b.width / 2, b.y + b.height / 2]; })()"
        )
        return box[0], box[1]

    def wide(self, width: int) -> None:
        """Makes the window as wide as that until the test ends."""
        self.addCleanup(self._width, 1280)
        self._width(width)
        self.browser.settle()

    def _width(self, width: int) -> None:
        self.browser.call(
            "Emulation.setDeviceMetricsOverride", width=width, height=900, deviceScaleFactor=1, mobile=False
        )
