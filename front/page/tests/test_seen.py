"""What the page shows of small incidents, in a real browser."""
from __future__ import annotations

import json
from typing import Any

from .browsing import Browsing
from .incidents import GAP, SILENCE, alert, config, post, silence, tick

RULE = {"source_matchers": ['alertname="Down"'], "target_matchers": ['severity="warning"'], "equal": ["cluster"]}
NIGHTS = {"name": "nights", "time_intervals": [{"times": [{"start_time": "00:00", "end_time": "06:00"}]}]}
PLUS = '.zoom button[aria-label^="Zoom in"]'
FAR = [post("10:00", alert("A", "10:00", "10:05")), post("10:07", alert("A", "10:07", "10:20")), tick("18:00")]
TAP = """(selector) => {
  const element = document.querySelector(selector);
  const box = element.getBoundingClientRect();
  element.dispatchEvent(new PointerEvent("click", { bubbles: true, pointerType: "touch", clientX: box.x + 2, clientY: box.y + 2 }));
}"""


class Timeline(Browsing):
    def test_a_silence_within_a_gap_of_events(self) -> None:
        self.made(config(), GAP)
        self.assertIn("silenced by marie, “deploy”, until 11:00:00", self.text("#summary"))
        self.assertIn("silenced by marie", self.text("#why"))
        self.assertEqual((self.count(".lane.row .span.silenced"), self.count(".lane.row .span.told")), (1, 1))

    def test_no_bar_through_a_gap(self) -> None:
        self.made(
            config(),
            [post("10:00", alert("A", "10:00", "11:00")), post("13:00", alert("A", "13:00", "14:00")), tick("15:00")],
        )
        boxes = self.browser.value(
            '[...document.querySelectorAll(".lane.row .span")].map((each) => each.getBBox()).map((b) => [b.x, b.x + b.width])'
        )
        gaps = [after[0] - before[1] for before, after in zip(boxes, boxes[1:])]
        self.assertEqual(sum(gap > 100 for gap in gaps), 1, boxes)

    def test_a_receiver_that_got_nothing(self) -> None:
        self.made(
            config(
                {"matchers": ['alertname="A"'], "receiver": "quiet", "mute_time_intervals": ["always"]},
                time_intervals=[{"name": "always", "time_intervals": [{}]}],
            ),
            [post("10:00", alert("A", "10:00", "11:00")), tick("12:00")],
        )
        heading = self.texts(".lane-name.receiver")[0]
        self.assertIn("quiet", heading)
        self.assertIn("notified of nothing", heading)
        self.assertEqual(self.count(".how-many.none"), 1)
        self.assertIn("Nobody was notified", self.text("#summary"))

    def test_near_marks_are_not_called_both_and_have_their_number(self) -> None:
        self.made(config(), FAR)
        self.assertEqual(self.count(".lane .mark.both"), 0)
        self.assertTrue(self.count(".lane.receiver .mark.bunch") >= 1)
        self.assertEqual(self.count(".lane .mark.bunch"), self.count(".lane .mark.bunch .number"))

    def test_many_marks_all_have_their_number(self) -> None:
        self.made(config(), [tick(f"{10 + i // 60:02d}:{i % 60:02d}") for i in range(400)])
        numbers = [int(text) for text in self.texts(".lane.events .mark.bunch .number")]
        self.assertEqual(sum(numbers) + self.count(".lane.events .mark:not(.bunch)"), 400)

    def test_the_buttons_zoom_about_the_cursor(self) -> None:
        self.made(config(), FAR)
        self.browser.key("Home")
        self.browser.key("ArrowRight")
        for _ in range(5):
            self.press(PLUS)
        self.assertEqual((self.count(".cursor-line"), self.count(".cursor-head.away")), (1, 0))

    def test_a_zoom_hides_the_tip(self) -> None:
        self.made(config(), FAR)
        x, y = self.middle(".lane.row .span")
        self.browser.mouse("mouseMoved", x, y)
        self.browser.settle()
        self.assertFalse(self.browser.value("document.getElementById('tip').hidden"))
        self.press(PLUS)
        self.assertTrue(self.browser.value("document.getElementById('tip').hidden"))

    def test_the_wheel_alone_does_not_zoom(self) -> None:
        self.made(config(), FAR)
        ticks = self.texts(".axis .tick")
        x, y = self.middle(".lane.row .span")
        top = self.browser.value("window.scrollY")
        self.browser.mouse("mouseWheel", x, y, deltaX=0, deltaY=300)
        self.browser.value("new Promise((done) => setTimeout(done, 300))")
        self.assertEqual(self.texts(".axis .tick"), ticks)
        self.assertGreater(self.browser.value("window.scrollY"), top)

    def test_one_band_marks_the_time_up_to_the_event(self) -> None:
        self.made(config(), [post("10:00", alert("A", "10:00", "20:00")), tick("18:00")])
        self.browser.key("End")
        self.assertEqual((self.count(".band"), self.count(".lane.events .mark.here")), (1, 1))

    def test_the_axis_has_weekdays_and_dates(self) -> None:
        self.made(
            config(),
            [
                post("2024-05-04T10:00:00Z", alert("A", "2024-05-04T10:00:00Z", "2024-05-06T10:00:00Z")),
                tick("2024-05-06T12:00:00Z"),
            ],
        )
        for width in (1280, 400):
            self.wide(width)
            dates = (
                ["Sat 2024-05-04", "Sun 2024-05-05", "Mon 2024-05-06"] if width > 400 else ["Sun 05-05", "Mon 05-06"]
            )
            self.assertEqual(self.texts(".axis .date"), dates)

    def test_names_stay_beside_the_plot(self) -> None:
        self.made(
            config(),
            [
                post(
                    "10:00",
                    alert("A" * 90, "10:00", "11:00", cluster="x" * 90),
                    alert("A" * 90, "10:00", "11:00", cluster="y"),
                ),
                tick("10:30"),
            ],
        )
        self.assertEqual(self.count(".lane-name.row .name"), 2)
        over = "[...document.querySelectorAll('.lane-name .name')].filter((each) => each.getBoundingClientRect().right > plot).length"
        plot = "Number(document.querySelector('#plot rect').getAttribute('x')) + document.querySelector('.lanes').getBoundingClientRect().x + 8"
        self.assertEqual(self.browser.value(f"(() => {{ const plot = {plot}; return {over}; }})()"), 0)

    def test_a_tap_names_what_was_tapped_and_names_have_room(self) -> None:
        self.made(config(receivers=("payments-pager", "b", "c")), FAR)
        self.wide(400)
        self.browser.value(f"({TAP})('.lane.row .span')")
        self.assertIn("payments-pager", self.text("#tip"))
        self.assertFalse(self.browser.value("document.getElementById('tip').hidden"))
        self.assertGreater(self.browser.value("document.querySelector('.lane-name.receiver').clientWidth"), 300)

    def test_a_label_is_a_mark_with_its_text(self) -> None:
        self.made(config(), [{"v": 2}, *FAR[:2], {"at": "2024-05-01T12:00:00Z", "label": "<b>deploy</b> 7"}, FAR[2]])
        self.assertEqual(self.texts(".label-text"), ["<b>deploy</b> 7"])
        self.browser.key("End")
        self.assertIn("event 4 of 4", self.place())
        self.browser.key("ArrowLeft")
        self.assertIn("Label: <b>deploy</b> 7", self.text(".event"))

    def test_all_lanes_are_printed(self) -> None:
        alerts = [alert(f"A{i}", "10:00", "11:00") for i in range(80)]
        self.made(config(), [post("10:00", *alerts), tick("12:00")])
        self.assertLess(self.count(".lane.row"), 80)
        # It is said while the page still is as on the screen.
        self.browser.value("window.dispatchEvent(new Event('beforeprint'))")
        self.assertEqual(self.count(".lane.row"), 80)
        self.browser.call("Emulation.setEmulatedMedia", media="print")
        self.addCleanup(self.browser.call, "Emulation.setEmulatedMedia", media="")
        self.assertTrue(
            self.browser.value(
                "(() => { const s = document.querySelector('.lane-scroll'); return s.clientHeight + 2 >= s.scrollHeight; })()"
            )
        )

    def test_many_alerts_are_folded_into_their_density(self) -> None:
        alerts = [alert(f"A{i}", "10:00", "11:00") for i in range(130)]
        self.made(config(), [post("10:00", *alerts), tick("12:00")])
        self.assertEqual((self.count(".lane.row"), self.count(".density")), (0, 1))
        self.assertEqual(self.text(".timeline .bar > .quiet"), "130 rows, folded")
        self.press(".lane-name.receiver")
        self.assertGreater(self.count(".lane.row"), 5)


class Words(Browsing):
    def test_no_dot_without_digits(self) -> None:
        self.made(
            config(),
            [
                {
                    "at": "2024-05-01T10:00:00.000Z",
                    "alerts": [alert("A", "2024-05-01T10:00:00.000Z", "2024-05-01T11:00:00.500Z")],
                },
                tick("12:00"),
            ],
        )
        self.browser.key("Home")
        for _ in range(2):
            self.browser.key("ArrowRight")
            self.assertNotRegex(self.browser.value("document.body.innerText"), r"\d\d:\d\d:\d\d\.(?!\d)")
        self.assertIn("11:00:00.5", self.browser.value("document.body.innerText"))

    def test_an_end_that_is_not_given_is_not_shown(self) -> None:
        self.made(
            config(),
            [
                post(
                    "10:00",
                    {
                        "labels": {"alertname": "A"},
                        "startsAt": "2024-05-01T10:00:00Z",
                        "endsAt": "0001-01-01T00:00:00Z",
                    },
                ),
                tick("12:00"),
            ],
        )
        self.browser.key("Home")
        self.browser.key("ArrowRight")
        self.assertNotIn("0001", self.text(".event"))

    def test_a_refused_event_stands_at_its_own_moment(self) -> None:
        self.made(config(), [tick("10:00"), {"at": "2024-05-01T14:00:00Z", "expire": SILENCE}, tick("18:00")])
        self.browser.key("Home")
        self.browser.key("ArrowRight")
        self.browser.key("ArrowRight")
        self.assertEqual(self.text("#clock"), "Wed 2024-05-01 14:00:00")
        self.assertIn("the clock stays at 10:00:00", self.text(".event"))
        places = self.browser.value(
            "[...document.querySelectorAll('.lanes .mark.refused')].map((each) => Math.round(each.getBoundingClientRect().x))"
        )
        self.assertEqual((len(places), len(set(places))), (2, 1))

    def test_alerts_that_differ_at_the_end_of_their_labels(self) -> None:
        pods = [alert("KubePodCrashLooping", "10:00", "11:00", a="x" * 100, pod=f"checkout-{i}") for i in range(3)]
        self.made(config(), [post("10:00", *pods)])
        self.find("pod=checkout-")
        found = self.texts(".found li")
        self.assertEqual((len(found), len(set(found))), (3, 3))
        self.find("checkout-2")
        self.browser.value("document.getElementById('search').focus()")
        self.browser.key("Enter")
        self.assertIn("pod=checkout-2", self.text(".chosen-alert"))

    def find(self, text: str) -> None:
        self.browser.value(
            f"(() => {{ const s = document.getElementById('search'); s.value = {json.dumps(text)}; s.dispatchEvent(new Event('input')); }})()"
        )

    def test_those_that_were_never_notified_are_found_first(self) -> None:
        self.made(
            config(),
            [
                silence("09:00", "12:00", "Z"),
                post("10:00", alert("A", "10:00", "11:00"), alert("Z", "10:00", "11:00")),
                tick("12:00"),
            ],
        )
        self.find("alertname")
        self.assertTrue(self.texts(".found li")[0].startswith("Z"))

    def test_why_names_the_receivers(self) -> None:
        self.made(
            config(
                {"matchers": ['alertname="A"'], "receiver": "team", "continue": True},
                {"matchers": ['alertname="A"'], "receiver": "quiet", "mute_time_intervals": ["nights"]},
                time_intervals=[NIGHTS],
            ),
            [post("01:00", alert("A", "01:00", "07:00")), tick("08:00")],
        )
        heads = self.texts(".receiver-spans h3")
        self.assertEqual([head.split()[0] for head in heads], ["quiet", "team"])
        self.assertIn("muted by nights until 06:00:00", self.text("#why"))

    def test_the_headline_counts_firings_and_the_alerts_that_fired(self) -> None:
        """An alert that is posted after its end is stored and notified of, and fires never."""
        again, ended = alert("A", "11:00", "12:00"), alert("A", "09:00", "09:30", pod="ended")
        self.made(config(), [post("10:00", alert("A", "10:00", "10:30"), ended), post("11:00", again), tick("13:00")])
        self.assertEqual(self.text("#summary-title"), "2 firings of 1 alert: 2 as expected")

    def test_the_header_names_what_is_shown(self) -> None:
        files = self.files(config(), FAR)
        folder = self.room / "other"
        folder.mkdir()
        (folder / "fixed.json").write_text(json.dumps(config({"matchers": ['alertname="B"']})))
        self.open(*files, "--against", folder / "fixed.json")
        self.assertIn("under config.json", self.text(".sub"))
        self.assertNotIn(str(self.room), self.text(".sub"))
        self.browser.value('document.querySelectorAll(".switch input")[1].click()')
        self.browser.settle()
        self.assertIn("under fixed.json", self.text(".sub"))
        self.assertNotIn("config.json", self.text(".sub"))


class WhatIf(Browsing):
    def muted(self) -> tuple[Any, list[Any]]:
        """An alert that is inhibited, and silenced too."""
        return config(inhibit_rules=[RULE]), [
            silence("09:00", "12:00", "Slow"),
            post(
                "10:00",
                alert("Down", "10:00", "11:00", cluster="eu"),
                alert("Slow", "10:00", "11:30", cluster="eu", severity="warning"),
            ),
            tick("13:00"),
        ]

    def test_all_reasons(self) -> None:
        self.made(*self.muted())
        self.assertIn('inhibited by rule 0: Down{cluster="eu"} fires', self.text("#why"))
        self.assertIn("without that: silenced by marie", self.text("#why"))

    def test_without_a_silence_and_without_a_source(self) -> None:
        self.made(*self.muted())
        names = self.texts(".buttons button")
        self.assertEqual(sorted(names), ["Copy as Markdown", "without Down", "without the silence marie, “deploy”"])
        outcomes = {}
        for i, name in enumerate(names):
            if name == "Copy as Markdown":
                continue
            self.browser.value(f"document.querySelectorAll('.buttons button')[{i}].click()")
            self.browser.settle()
            outcomes[name] = self.text("#outcome")
        self.assertIn("still not notified", outcomes["without Down"])
        self.assertIn("silenced by marie", outcomes["without Down"])
        self.assertIn("notified at 11:00:30", outcomes["without the silence marie, “deploy”"])

    def test_a_comparison_has_a_table_a_legend_and_marks_beside_the_bars(self) -> None:
        files = self.files(config(), FAR)
        slow = config()
        slow["route"]["group_wait"] = "1m"
        other = self.room / "slow.json"
        other.write_text(json.dumps(slow))
        self.open(*files, "--against", other)
        self.assertIn("30 s later", self.text(".compared"))
        self.assertTrue(any("first sent under slow.json" in text for text in self.texts(".legend li")))
        top = "document.querySelector('.lane.row .mark.{} path').getBBox().y"
        self.assertGreater(
            self.browser.value(top.format("ghost")),
            self.browser.value("document.querySelector('.lane.row .span').getBBox().y"),
        )

    def test_an_expectation_of_the_chosen_alert(self) -> None:
        self.made(config(), FAR)
        self.browser.value("document.querySelector('#why details.lines:last-of-type').open = true")
        self.browser.value("new Promise((done) => setTimeout(done, 50))")
        self.assertIn('{"labels":{"alertname":"A"},"receiver":"ops","by":"2024-05-01T10:00:30Z"}', self.text("#why"))


class Places(Browsing):
    def test_the_address_holds_what_is_seen(self) -> None:
        self.made(config(), [post("10:00", alert("A", "10:00", "11:00"), alert("B", "10:00", "11:00")), tick("12:00")])
        self.browser.key("End")
        self.press(PLUS)
        self.press(".story:last-child button.alert")
        address = self.browser.value("location.hash")
        for word in ("event=2", "alert=", "view="):
            self.assertIn(word, address)
        self.browser.value("history.replaceState(null, '', '#event=1')")
        page = f"{(self.room / 'page.html').as_uri()}{address}"
        chosen, ticks = self.text(".chosen-alert"), self.texts(".axis .tick")
        self.browser.open_address("about:blank")
        self.browser.open_address(page)
        self.assertEqual(
            (self.place(), self.text(".chosen-alert"), self.texts(".axis .tick")), ("event 2 of 2", chosen, ticks)
        )

    def test_the_page_opens_on_the_text(self) -> None:
        self.made(config(), GAP)
        self.assertEqual(self.browser.value("window.scrollY"), 0)
        top = "document.querySelector('{}').getBoundingClientRect().top"
        self.assertLess(self.browser.value(top.format("#summary")), self.browser.value(top.format("#timeline")))
        self.assertIn("event 2 of 3", self.place())

    def test_of_many_a_few_are_told_on_top(self) -> None:
        alerts = [alert(f"A{i}", "10:00", "11:00") for i in range(30)]
        matchers = [{"name": "alertname", "value": ".+", "isRegex": True}]
        self.made(config(), [silence("09:00", "12:00", "A", matchers=matchers), post("10:00", *alerts), tick("12:00")])
        self.assertEqual((self.count(".nobody .story"), self.text(".nobody .more")), (5, "Show more of 30"))
        self.press(".nobody .more")
        self.assertEqual(self.count(".nobody .story"), 30)

    def test_a_route_has_its_alerts_at_the_cursor(self) -> None:
        self.made(config({"matchers": ['alertname="A"'], "receiver": "team"}), FAR)
        for key, here in (("Home", []), ("ArrowRight", ["", "1 alert at the cursor"]), ("End", [])):
            self.browser.key(key)
            shown = (
                "[...document.querySelectorAll('.route .here')].map((each) => (each.hidden ? '' : each.textContent))"
            )
            self.assertEqual(self.browser.value(shown), here or ["", ""], key)

    def test_a_link_breaks_within_lines_and_takes_keys(self) -> None:
        """A button would be a block of its own where its text has several lines, and can't be copied with the text around it."""
        self.made(config({"matchers": ['alertname="A"'], "receiver": "team"}), FAR)
        link = "[...document.querySelectorAll('#why .link')].find((each) => each.textContent.startsWith('route 1'))"
        self.assertEqual(self.browser.value(f"getComputedStyle({link}).display"), "inline")
        self.browser.value(f"{link}.focus()")
        self.browser.key("Enter")
        self.assertEqual(self.count(".route.found-part"), 1)

    def test_a_route_is_linked_to_the_tree(self) -> None:
        self.made(config({"matchers": ['alertname="A"'], "receiver": "team"}), FAR)
        self.browser.value(
            "[...document.querySelectorAll('#why .link')].find((each) => each.textContent.startsWith('route 1')).click()"
        )
        self.browser.settle()
        self.assertIn('alertname="A"', self.text(".route.found-part"))
        self.assertIn('route 1: alertname="A"', self.text("#why"))
        self.assertEqual(self.texts(".route .number"), ["0", "1"])
