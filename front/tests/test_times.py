"""Tests when time intervals mute: what the program is asked, beside a reading of the rule of its own, at many moments."""

from __future__ import annotations

import json
import random
import unittest
from typing import Any

from front.config.zones import in_utc
from front.moments import DAY, MINUTE, moment_text, nanoseconds
from front.program import Program
from front.story import Story, story_of
from front.story import times
from front.story.config import routes_of
from front.story.times import DAYS_AFTER, LAST, Times

from .interval_rule import Intervals
from .support import WithRoom

MEMBERS: list[dict[str, Any]] = [
    {"times": [{"start_time": "22:00", "end_time": "24:00"}, {"start_time": "00:00", "end_time": "06:30"}]},
    {"weekdays": ["monday:friday"], "times": [{"start_time": "07:00", "end_time": "19:00"}]},
    {"days_of_month": ["-3:-1", 1]},
    {"days_of_month": ["30:-1"]},
    {"months": ["february", "june:august"], "weekdays": ["Sunday"]},
    {"years": ["2024"]},
    {"years": ["2025:2030"]},
    {},
    {"times": []},
]
NAMES = [f"i{i}" for i in range(len(MEMBERS))]
ROUTES = [
    *({"mute_time_intervals": [name]} for name in NAMES),
    *({"active_time_intervals": [name]} for name in NAMES),
    {"mute_time_intervals": NAMES[:3]},
    {"active_time_intervals": NAMES[1:4]},
    {},
]
CONFIG: dict[str, Any] = {
    "route": {"receiver": "ops", "routes": ROUTES},
    "receivers": [{"name": "ops", "webhook_configs": [{}]}],
    "time_intervals": [{"name": name, "time_intervals": [member]} for name, member in zip(NAMES, MEMBERS)],
}
SPANS = (
    ("2024-05-01T10:00:00Z", "2024-05-03T11:00:00Z"),
    ("2024-02-27T10:00:00Z", "2024-03-02T00:00:00Z"),
    ("2024-12-28T10:00:00Z", "2025-01-03T11:00:00Z"),
    ("1970-01-01T00:00:00Z", "1970-01-02T00:00:00Z"),
    ("8999-12-30T10:00:00Z", "8999-12-31T11:00:00Z"),
)


def story(config: dict[str, Any], start: str, end: str) -> Story:
    return Story(nanoseconds(start), nanoseconds(end), 0, [], {}, [], {}, [config], [0])


class TheRule(unittest.TestCase):
    def test_at_many_moments(self) -> None:
        rule = Intervals(CONFIG)
        for start, end in SPANS:
            asked = Times(Program.found().path, story(CONFIG, start, end))
            for at in moments(nanoseconds(start), nanoseconds(end)):
                for name in NAMES:
                    self.assertEqual(asked.holds(0, name, at), rule.holds(name, at), (name, moment_text(at)))
                for route in routes_of(CONFIG)[1:]:
                    self.compare(asked, rule, route.number, route.value, at)

    def compare(self, asked: Times, rule: Intervals, route: int, value: dict[str, Any], at: int) -> None:
        [*found] = asked.of_route(0, route, at, at + 1)
        if not found:
            self.assertEqual(asked.muting(0, route, at)[0], [])
            return
        names, until = rule.muting(value, found[0].verdict, at)
        known = until if until is None or until <= LAST else None
        self.assertEqual(asked.muting(0, route, at), (names, known), (value, moment_text(at)))

    def test_what_is_held_is_what_holds(self) -> None:
        start, end = map(nanoseconds, SPANS[0])
        asked = Times(Program.found().path, story(CONFIG, *SPANS[0]))
        for name in NAMES:
            held = asked.held(0, name, start, end)
            for at in moments(start, end - 1):
                self.assertEqual(any(first <= at < last for first, last in held), asked.holds(0, name, at), name)

    def test_the_names_of_what_is_used(self) -> None:
        asked = Times(Program.found().path, story(CONFIG, *SPANS[0]))
        self.assertEqual(asked.used(0), [(name, use) for use in ("mute", "active") for name in NAMES])


def moments(start: int, end: int) -> list[int]:
    dice = random.Random(1)
    any_ = [dice.randrange(start, end + 1) for _ in range(20)]
    edges = [at // (30 * MINUTE) * 30 * MINUTE for at in any_]
    return [at for at in [start, end, *any_, *edges, *(at - 1 for at in edges)] if start <= at <= end]


class Limits(WithRoom):
    def test_a_route_that_is_active_at_times_and_muted_at_others(self) -> None:
        config = {
            **CONFIG,
            "route": {
                "receiver": "ops",
                "routes": [{"active_time_intervals": ["i1"], "mute_time_intervals": ["i0", "i7"]}],
            },
        }
        asked = Times(Program.found().path, story(config, *SPANS[0]))
        verdicts = [(span.verdict, moment_text(span.end)) for span in asked.of_route(0, 1, *map(nanoseconds, SPANS[0]))]
        self.assertEqual(
            verdicts[:2], [("TimeMuted", "2024-05-01T19:00:00Z"), ("OutsideActive", "2024-05-02T07:00:00Z")]
        )
        names, until = asked.muting(0, 1, nanoseconds("2024-05-01T12:00:00Z"))
        self.assertEqual((names, moment_text(until or 0)), (["i7"], "2024-05-01T19:00:00Z"))

    def test_too_many_edges_are_not_asked(self) -> None:
        self.addCleanup(setattr, times, "QUESTIONS_AT_MOST", times.QUESTIONS_AT_MOST)
        times.QUESTIONS_AT_MOST = 10
        asked = Times(Program.found().path, story(CONFIG, *SPANS[0]))
        self.assertFalse(asked.is_whole)
        self.assertEqual(asked.muting(0, 1, nanoseconds(SPANS[0][0])), ([], None))
        self.assertEqual(asked.muting(0, 6, nanoseconds(SPANS[0][0])), (["i5"], None))

    def test_large_configurations_are_asked_in_parts(self) -> None:
        whole = Times(Program.found().path, story(CONFIG, *SPANS[0]))
        self.addCleanup(setattr, times, "BYTES_AT_MOST", times.BYTES_AT_MOST)
        times.BYTES_AT_MOST = 1
        parts = Times(Program.found().path, story(CONFIG, *SPANS[0]))
        at = nanoseconds("2024-05-02T22:00:00Z")
        self.assertEqual([parts.holds(0, name, at) for name in NAMES], [whole.holds(0, name, at) for name in NAMES])

    def test_a_zone_is_known_to_its_last_day_alone(self) -> None:
        paris = {
            "weekdays": ["monday:friday"],
            "times": [{"start_time": "09:00", "end_time": "18:00"}],
            "location": "Europe/Paris",
        }
        config = {
            **CONFIG,
            "route": {"receiver": "ops", "routes": [{"active_time_intervals": ["day"]}]},
            "time_intervals": [{"name": "day", "time_intervals": [paris]}],
        }
        start, end = map(nanoseconds, SPANS[0])
        value, _ = in_utc(config, start, end + DAYS_AFTER * DAY)
        asked = Times(Program.found().path, story(value, *SPANS[0]), end // DAY + DAYS_AFTER)
        names, until = asked.muting(0, 1, nanoseconds("2024-05-03T16:00:00Z"))
        self.assertEqual((names, moment_text(until or 0)), (["day"], "2024-05-06T07:00:00Z"))

    def test_two_configurations(self) -> None:
        other = json.loads(json.dumps(CONFIG))
        other["time_intervals"][0]["time_intervals"] = [{}]
        events = [
            {"at": SPANS[0][0], "tick": True},
            {"at": "2024-05-02T00:00:00Z", "reload": other},
            {"at": SPANS[0][1], "tick": True},
        ]
        source = self.source(CONFIG, events)
        asked = Times(source.program, story_of(source, CONFIG))
        at = nanoseconds("2024-05-02T12:00:00Z")
        self.assertEqual([asked.holds(config, "i0", at) for config in (0, 1)], [False, True])


if __name__ == "__main__":
    unittest.main()
