"""What the page has for the reader beside the story, in a real browser: local times, Markdown, lanes of times, and what it says it doesn't know."""

from __future__ import annotations

import os
from typing import Any

import front.page.told as told
from front.page.cli import read_words
from front.page.making import make
from front.story import mutes

from .browsing import Browsing
from .incidents import GAP, alert, config, post, silence, tick

NIGHTS = {"name": "nights", "time_intervals": [{"times": [{"start_time": "00:00", "end_time": "06:00"}]}]}
DAYS = {"name": "days", "time_intervals": [{"times": [{"start_time": "08:00", "end_time": "18:00"}]}]}
OTHER = "00000000-0000-4000-8000-000000000002"


class LocalTimes(Browsing):
    @classmethod
    def setUpClass(cls) -> None:
        before = os.environ.get("TZ")
        os.environ["TZ"] = "Asia/Kolkata"
        try:
            super().setUpClass()
        finally:
            if before is None:
                del os.environ["TZ"]
            else:
                os.environ["TZ"] = before

    def test_they_are_beside_utc_and_in_the_address(self) -> None:
        self.made(config(), GAP)
        self.browser.key("End")
        self.assertEqual(self.text("#clock"), "Wed 2024-05-01 14:00:00")
        self.press("#local")
        self.assertEqual(self.text("#clock"), "Wed 2024-05-01 14:00:00 (19:30:00)")
        self.assertIn("(15:30:00–15:30:30)", self.text("#why .spans"))
        self.assertIn("19:30", self.texts(".axis .tick.local"))
        address = self.browser.value("location.href")
        self.assertIn("time=local", address)
        self.browser.open_address("about:blank")
        self.browser.open_address(address)
        self.assertEqual(self.text("#clock"), "Wed 2024-05-01 14:00:00 (19:30:00)")
        self.press("#local")
        self.assertEqual((self.text("#clock"), self.count(".tick.local")), ("Wed 2024-05-01 14:00:00", 0))
        self.assertNotIn("time=local", self.browser.value("location.hash"))

    def test_another_day_has_its_weekday(self) -> None:
        self.made(config(), [post("20:00", alert("A", "20:00", "21:00")), tick("22:00")])
        self.press("#local")
        self.browser.key("End")
        self.assertEqual(self.text("#clock"), "Wed 2024-05-01 22:00:00 (Thu 03:30:00)")


class Tools(Browsing):
    def copied(self) -> str:
        self.browser.value(
            "navigator.clipboard.writeText = (text) => { window.copied = text; return Promise.resolve(); }"
        )
        self.press("#copy")
        return str(self.browser.value("window.copied"))

    def test_the_story_as_markdown(self) -> None:
        self.made(config(), GAP)
        text = self.copied()
        self.assertEqual(self.text("#copy"), "Copied")
        for line in (
            "## HighLatency",
            "**Late.**",
            "- Fired 2024-05-01 10:00:00 and still fires at the end",
            "### ops (webhook): first notified at 11:00:30",
            "- 10:00:30 to 11:00:00: silenced by marie, “deploy”, until 11:00:00",
            "- without the silence marie, “deploy”: ops notified at 10:00:30, 1 h earlier",
        ):
            self.assertIn(line, text.split("\n"))

    def test_markdown_is_inert(self) -> None:
        self.made(config(), [post("10:00", alert("*A* <b> [x](y) `z`\n# B", "10:00", "11:00")), tick("12:00")])
        self.assertIn("## \\*A\\* \\<b\\> \\[x\\](y) \\`z\\`\\\\n\\# B", self.copied())

    def test_without_a_clipboard_the_text_is_there_to_copy(self) -> None:
        self.made(config(), GAP)
        self.browser.value("navigator.clipboard.writeText = () => Promise.reject(new Error('no'))")
        self.press("#copy")
        self.assertTrue(self.browser.value("document.getElementById('markdown').value").startswith("## HighLatency"))

    def test_a_lane_says_when_a_time_interval_holds(self) -> None:
        routes = (
            {"matchers": ['alertname="A"'], "mute_time_intervals": ["nights"]},
            {"active_time_intervals": ["days"]},
        )
        self.made(
            config(*routes, time_intervals=[NIGHTS, DAYS]), [post("01:00", alert("A", "01:00", "09:00")), tick("12:00")]
        )
        self.assertEqual(self.texts(".lane-name.times"), ["nights: mutes", "days: active"])
        self.assertEqual((self.count(".lane.times .span.muting"), self.count(".lane.times .span.active")), (1, 1))
        names = self.browser.value(
            "[...document.querySelectorAll('.lane.times .span')].map((each) => each.getAttribute('aria-label'))"
        )
        self.assertEqual(names, ["nights (mutes): 01:00:00 to 06:00:00", "days (active): 08:00:00 to 12:00:00"])

    def test_several_silences_at_once(self) -> None:
        other: dict[str, Any] = {"createdBy": "otto", "comment": "too"}
        self.made(
            config(),
            [
                silence("09:00", "12:00", "A"),
                silence("09:00", "13:00", "A", OTHER, **other),
                post("10:00", alert("A", "10:00", "14:00")),
                tick("15:00"),
            ],
        )
        spans = self.texts(".receiver-spans .turn")
        self.assertIn("silenced by otto, “too”", spans[1])
        self.assertIn("without that: silenced by marie, “deploy”", spans[1])
        self.assertNotIn("without that", spans[2])


class NotKnown(Browsing):
    def test_the_page_says_what_it_has_not_asked(self) -> None:
        limits = ((mutes, "PAIRS_AT_MOST", 0), (told, "SECONDS_AT_MOST", -1.0))
        for module, name, value in limits:
            self.addCleanup(setattr, module, name, getattr(module, name))
            setattr(module, name, value)
        options = read_words([str(path) for path in self.files(config(), GAP)])
        options.named = []
        page = self.room / "page.html"
        page.write_text(make(options), "utf-8")
        self.browser.open(page)
        first, second = self.texts("#why .flag")
        self.assertIn("has the first alone for this alert", first)
        self.assertIn("was tried for 0 of 1, and not for those of this alert", second)
        self.assertIn('--explain \'{"alertname":"HighLatency","cluster":"eu"}\'', second)

    def test_a_page_that_asked_all_says_nothing(self) -> None:
        self.made(config(), GAP)
        self.assertEqual(self.count("#why .flag"), 0)
