"""The page in a real browser: what it shows is the session's, keys and mouse move it, and nothing hostile runs."""
from __future__ import annotations

import json

from .browsing import Browsing
from .support import EXAMPLES, HOSTILE, Session, hostile_files

NAMES = ("first-page", "a-page-that-never-came", "a-flapping-alert", "a-reload")
# Opens what is folded, and answers the lines that are shown, by section.
SHOWN = """(async () => {
  const folded = [...document.querySelectorAll("details.lines")];
  folded.forEach((each) => { each.open = true; });
  await new Promise((done) => setTimeout(done, 0));
  await new Promise((done) => requestAnimationFrame(() => requestAnimationFrame(done)));
  const lines = (selector) => [...document.querySelectorAll(selector + " pre div")].map((line) => line.textContent);
  return { groups: lines("#groups"), alerts: lines("#alerts"), silences: lines("#silences"), log: lines("#log"),
    printed: lines(".event"), trial: lines("#trial") };
})()"""
WHY = """(async () => {
  const explained = document.querySelector("#why details.lines");
  explained.open = true;
  await new Promise((done) => setTimeout(done, 0));
  return [...explained.querySelectorAll("pre div")].map((line) => line.textContent);
})()"""
CHOOSE = """(alert) => new Promise((done) => {
  const hash = location.hash.replace(/&alert=[^&]*/, "") + "&alert=" + encodeURIComponent(alert);
  if (hash === location.hash) { done(1); return; }
  addEventListener("hashchange", () => requestAnimationFrame(() => done(1)), { once: true });
  location.hash = hash;
})"""


class InBrowser(Browsing):
    def check_states(self, session: Session) -> None:
        """Steps from the start by keys, and compares what is shown with the session's lines, explanations included."""
        states, alerts = session.states(), self.alerts()
        explanations = session.explanations(alerts, len(states) - 1)
        self.browser.key("Home")
        for cursor, own in enumerate(states):
            shown = self.browser.value(SHOWN)
            self.assertEqual({name: shown[name] for name in own}, own, cursor)
            for i, lines in enumerate(explanations[cursor]):
                self.browser.value(
                    f"({CHOOSE})({json.dumps(json.dumps(alerts[i], ensure_ascii=False, separators=(',', ':')))})"
                )
                self.assertEqual(self.browser.value(WHY), lines, (cursor, alerts[i]))
            self.browser.key("ArrowRight")
        self.assertTrue(self.place().startswith(f"event {len(states) - 1} of {len(states) - 1}"))
        self.assertEqual(self.browser.faults(), [])

    def alerts(self) -> list[dict[str, str]]:
        """Returns the label sets of the alerts that the page explains, in their order."""
        flat = self.browser.value(
            """(() => {
          const data = JSON.parse(document.getElementById("data").textContent);
          return data.runs[0].why.map(([set]) => data.sets[set].map((n) => data.texts[n - 1]));
        })()"""
        )
        return [dict(zip(each[::2], each[1::2])) for each in flat]

    def test_states_of_examples(self) -> None:
        for name in NAMES:
            with self.subTest(name):
                self.check_states(self.example(name))

    def test_keys_move_the_cursor(self) -> None:
        self.example("a-page-that-never-came")
        for key, place in (
            ("End", "event 4"),
            ("ArrowRight", "event 4"),
            ("ArrowLeft", "event 3"),
            ("Home", "before the first"),
            ("ArrowLeft", "before"),
            ("ArrowRight", "event 1"),
            ("End", "event 4"),
        ):
            self.browser.key(key)
            self.assertTrue(self.place().startswith(place), (key, self.place()))

    def test_buttons_move_the_cursor(self) -> None:
        self.example("a-page-that-never-came")
        buttons = 'document.querySelectorAll(".steps button")'
        for i, place in ((0, "before"), (2, "event 1"), (3, "event 4"), (1, "event 3")):
            self.browser.value(f"{buttons}[{i}].click()")
            self.assertTrue(self.place().startswith(place))
        self.assertEqual(
            self.browser.value(f'[...{buttons}].map((each) => each.getAttribute("aria-label")).filter(Boolean).length'),
            4,
        )

    def test_why_in_words(self) -> None:
        self.example(
            "a-page-that-never-came", "--explain", '{"alertname":"HighLatency","cluster":"eu","severity":"warning"}'
        )
        self.browser.key("End")
        words = "silenced by 7f2c9a10-3d4e-4b6a-9c1d-2e5f8a7b6c01, until 18:00:00"
        self.assertIn(words, self.text(".verdicts"))
        for words in (
            'inhibited by rule 0: ClusterDown{cluster="eu", severity="critical"} fires',
            "waiting for the first flush of its group at 10:00:30",
        ):
            self.browser.key("ArrowLeft")
            self.assertIn(words, self.text(".verdicts"))

    def test_what_changed_is_marked(self) -> None:
        self.example("a-page-that-never-came")
        self.browser.key("End")
        self.assertEqual(self.count("#groups tr.changed"), 2)
        self.assertEqual(self.count("#alerts tr.changed, #alerts tr.new"), 0)
        for _ in range(2):
            self.browser.key("ArrowLeft")
        self.assertEqual((self.count("#groups tr.new"), self.count("#alerts tr.new")), (2, 2))

    def test_hover_names_and_click_goes_there(self) -> None:
        self.example("a-page-that-never-came")
        x, y = self.middle(".lane.receiver .mark")
        self.browser.mouse("mouseMoved", x, y)
        self.browser.settle()
        self.assertIn("1 firing", self.text("#tip"))
        self.browser.click(x, y)
        self.assertEqual(self.place(), "event 3 of 4")
        x, y = self.middle(".lane.row .span")
        self.browser.click(x, y)
        self.assertIn("ClusterDown", self.text(".chosen-alert"))

    def test_wheel_zooms_and_dragging_moves(self) -> None:
        self.example("a-page-that-never-came")
        ticks = '[...document.querySelectorAll(".axis .tick")].map((each) => each.textContent).join()'
        before = self.browser.value(ticks)
        x, y = self.middle(".lane.receiver .mark")
        self.browser.mouse("mouseWheel", x, y, deltaX=0, deltaY=-600, modifiers=2)
        self.browser.settle()
        zoomed = self.browser.value(ticks)
        self.assertNotEqual(zoomed, before)
        self.browser.mouse("mousePressed", x - 60, y, button="left", clickCount=1)
        for step in range(1, 12):
            self.browser.mouse("mouseMoved", x - 60 - 30 * step, y, button="left", buttons=1)
        self.browser.mouse("mouseReleased", x - 400, y, button="left", clickCount=1)
        self.browser.settle()
        self.assertNotEqual(self.browser.value(ticks), zoomed)
        self.browser.value('document.querySelector(".lane-scroll").focus()')
        self.browser.key("0")
        self.assertEqual(self.browser.value(ticks), before)

    def test_the_timeline_by_keys(self) -> None:
        self.example("a-page-that-never-came")
        self.browser.key("Home")
        self.browser.value('document.querySelector(".lane-scroll").focus()')
        self.browser.key("n")
        self.assertEqual(self.place(), "event 3 of 4")
        self.assertIn("ops / webhook[0]: 1 firing", self.text("[role=status]"))
        self.browser.key("ArrowDown")
        self.assertIn("alert HighLatency", self.text("[role=status]"))
        self.browser.key("Enter")
        self.assertIn("Chosen: HighLatency", self.text("[role=status]"))

    def test_all_is_reached_by_tab_and_named(self) -> None:
        self.example("a-reload", "--against", EXAMPLES / "a-reload" / "changed.json")
        unnamed = """[...document.querySelectorAll("button, input, select, [tabindex]")].filter((each) => !each.textContent.trim()
          && !each.getAttribute("aria-label") && !each.labels?.length).length"""
        self.assertEqual(self.browser.value(unnamed), 0)
        reached = set()
        for _ in range(80):
            self.browser.key("Tab")
            reached.add(self.browser.value('document.activeElement.className + " " + document.activeElement.tagName'))
        for wanted in ("lane-scroll DIV", "alert BUTTON", " SELECT", "turn-at BUTTON", " SUMMARY"):
            self.assertIn(wanted, reached)

    def test_what_if(self) -> None:
        self.example("a-reload", "--against", EXAMPLES / "a-reload" / "changed.json")
        self.assertIn("Of all notifications 0 are the same; 2 fewer, 0 more, 1 moved", self.text("#differences"))
        self.browser.value('document.querySelectorAll(".switch input")[1].click()')
        self.browser.settle()
        other = Session(EXAMPLES / "a-reload" / "changed.json", EXAMPLES / "a-reload" / "script.jsonl")
        self.browser.value("document.activeElement.blur()")
        self.check_states(other)

    def test_a_tried_event(self) -> None:
        session = self.example("a-page-that-never-came", "--try", '{"at":"2024-05-01T10:00:30Z","tick":true}')
        shown = self.browser.value(SHOWN)
        event = '{"at":"2024-05-01T10:00:30Z","tick":true}'
        self.assertEqual(shown["trial"], session.ask(["seek 2", f"trial {event}"])[1][0])
        self.assertEqual(self.browser.faults(), [])

    def test_hostile_texts_do_not_run(self) -> None:
        config, script = hostile_files(self.room)
        self.open(config, script)
        self.check_states(Session(config, script))
        self.assertIsNone(self.browser.value("window.hostile ?? null"))
        self.assertEqual(self.count("script"), 2)
        self.assertEqual(self.count("img, b b, iframe"), 0)
        names = self.browser.value(
            '[...document.querySelectorAll("#alerts .labels b")].map((each) => each.textContent)'
        )
        self.assertIn(HOSTILE[0], names)
        self.assertIn("a\\nb\\r\\tc\\u2028d\\u2029e", names)

    def test_a_narrow_page_does_not_overflow(self) -> None:
        config, script = hostile_files(self.room)
        self.open(config, script)
        for width in (400, 1280):
            self.browser.call(
                "Emulation.setDeviceMetricsOverride", width=width, height=900, deviceScaleFactor=1, mobile=False
            )
            self.browser.settle()
            self.assertLessEqual(self.browser.value("document.documentElement.scrollWidth"), width)
