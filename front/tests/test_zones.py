"""Tests that intervals with a location hold at the same minutes once they are written in UTC."""

from __future__ import annotations

import unittest
from datetime import datetime, timezone
from typing import Any

from front.config.zones import BadZone, in_utc
from front.moments import nanoseconds


def written(member: dict[str, Any], first: str, last: str) -> list[dict[str, Any]]:
    """Returns the members of an interval in UTC for the days between two moments."""
    value = {"time_intervals": [{"name": "hours", "time_intervals": [member]}]}
    found, names = in_utc(value, nanoseconds(first), nanoseconds(last))
    assert names == ["hours"]
    members: list[dict[str, Any]] = found["time_intervals"][0]["time_intervals"]
    return members


def minutes(members: list[dict[str, Any]]) -> set[str]:
    """Returns the minutes, in UTC, at which members that were written hold."""
    found = set()
    for member in members:
        day = f"{member['years'][0]}-{int(member['months'][0]):02}-{int(member['days_of_month'][0]):02}"
        for times in member.get("times", [{"start_time": "00:00", "end_time": "24:00"}]):
            start, end = (int(times[key][:2]) * 60 + int(times[key][3:]) for key in ("start_time", "end_time"))
            found |= {f"{day}T{minute // 60:02}:{minute % 60:02}" for minute in range(start, end)}
    return found


def span(*ranges: tuple[str, str]) -> set[str]:
    """Returns the minutes between pairs of moments in UTC."""
    found = set()
    for start, end in ranges:
        first, last = (int(datetime.fromisoformat(text + "+00:00").timestamp()) for text in (start, end))
        found |= {
            datetime.fromtimestamp(each, timezone.utc).strftime("%Y-%m-%dT%H:%M") for each in range(first, last, 60)
        }
    return found


class Zones(unittest.TestCase):
    def test_business_hours_move_with_the_clocks(self) -> None:
        member = {
            "times": [{"start_time": "09:00", "end_time": "17:00"}],
            "weekdays": ["monday:friday"],
            "location": "Europe/Paris",
        }
        found = written(member, "2024-03-29T12:00:00Z", "2024-04-01T12:00:00Z")
        self.assertEqual(
            minutes(found), span(("2024-03-29T08:00", "2024-03-29T16:00"), ("2024-04-01T07:00", "2024-04-01T15:00"))
        )

    def test_a_night_over_the_change_is_as_long_as_it_is(self) -> None:
        night = {"times": [{"start_time": "00:00", "end_time": "06:00"}], "location": "Europe/Paris"}
        spring = written(night, "2024-03-31T00:00:00Z", "2024-03-31T12:00:00Z")
        self.assertEqual(
            minutes(spring), span(("2024-03-31T00:00", "2024-03-31T04:00"), ("2024-03-31T22:00", "2024-04-01T00:00"))
        )
        autumn = written(night, "2024-10-26T12:00:00Z", "2024-10-27T12:00:00Z")
        self.assertEqual(
            minutes(autumn),
            span(
                ("2024-10-26T00:00", "2024-10-26T04:00"),
                ("2024-10-26T22:00", "2024-10-27T05:00"),
                ("2024-10-27T23:00", "2024-10-28T00:00"),
            ),
        )

    def test_the_hour_that_comes_twice_holds_twice(self) -> None:
        hour = {"times": [{"start_time": "02:00", "end_time": "03:00"}], "location": "Europe/Paris"}
        self.assertEqual(
            minutes(written(hour, "2024-10-27T00:00:00Z", "2024-10-27T12:00:00Z")),
            span(("2024-10-27T00:00", "2024-10-27T02:00")),
        )
        self.assertEqual(written(hour, "2024-03-31T00:00:00Z", "2024-03-31T12:00:00Z"), [])

    def test_days_are_those_of_the_zone(self) -> None:
        last = {"days_of_month": ["-1"], "months": ["february"], "years": ["2024"], "location": "Asia/Tokyo"}
        found = written(last, "2024-02-27T00:00:00Z", "2024-03-01T12:00:00Z")
        self.assertEqual(minutes(found), span(("2024-02-28T15:00", "2024-02-29T15:00")))

    def test_members_in_utc_stay(self) -> None:
        value = {
            "mute_time_intervals": [
                {"name": "x", "time_intervals": [{"weekdays": ["sunday"]}, {"location": "UTC"}, {"location": ""}]}
            ]
        }
        found, names = in_utc(value, 0, 1)
        self.assertEqual(
            (names, found["mute_time_intervals"][0]["time_intervals"]),
            ([], [{"weekdays": ["sunday"]}, {"location": "UTC"}, {}]),
        )

    def test_zones_that_are_not_known_are_named(self) -> None:
        for zone in ("Mars/Phobos", "Local", "../../etc/passwd", "\0"):
            with self.subTest(zone), self.assertRaisesRegex(
                BadZone, r"time_intervals\[0\].time_intervals\[0\].location"
            ):
                written({"location": zone}, "2024-03-01T00:00:00Z", "2024-03-02T00:00:00Z")

    def test_a_faulty_member_is_left_to_the_program(self) -> None:
        self.assertEqual(
            written(
                {"times": [{"start_time": "nine"}], "location": "Europe/Paris"},
                "2024-03-01T00:00:00Z",
                "2024-03-01T01:00:00Z",
            ),
            [{"times": [{"start_time": "nine"}]}],
        )


if __name__ == "__main__":
    unittest.main()
