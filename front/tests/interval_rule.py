"""A reading of the rule of time intervals of its own, to compare the program's answers with: which hold a moment, and until when."""

from __future__ import annotations

from typing import Any

from front.moments import DAY, SECOND, moment_text

WEEKDAYS = ("monday", "tuesday", "wednesday", "thursday", "friday", "saturday", "sunday")
MONTHS = (
    *("january", "february", "march", "april", "may", "june"),
    *("july", "august", "september", "october", "november", "december"),
)
DAYS_AHEAD = 400
MINUTE_OF_DAY = 60 * SECOND

Config = dict[str, Any]


class Intervals:
    """The time intervals of one configuration, by name."""

    def __init__(self, config: Config) -> None:
        listed = [*(config.get("mute_time_intervals") or []), *(config.get("time_intervals") or [])]
        self.members: dict[str, list[dict[str, Any]]] = {}
        for interval in listed:
            self.members.setdefault(interval["name"], []).extend(interval.get("time_intervals") or [])

    def holds(self, name: str, moment: int) -> bool:
        """Returns whether an interval holds a moment."""
        return any(_holds(member, moment) for member in self.members.get(name, []))

    def muting(self, route: dict[str, Any], verdict: str, moment: int) -> tuple[list[str], int | None]:
        """Returns the intervals that mute a route at a moment, and until when, or None if that is farther than a year."""
        mute, active = (route.get(key) or [] for key in ("mute_time_intervals", "active_time_intervals"))
        if verdict == "TimeMuted":
            return [name for name in mute if self.holds(name, moment)], self._end(mute, moment, False)
        return list(active), self._end(active, moment, True)

    def _end(self, names: list[str], moment: int, wanted: bool) -> int | None:
        """Returns the next moment at which one of some intervals holds, or none does."""
        edges = sorted(
            {edge for name in names for member in self.members.get(name, []) for edge in _edges(member)} | {0}
        )
        day = moment // DAY * DAY
        for start in range(day, day + DAYS_AHEAD * DAY, DAY):
            for edge in edges:
                at = start + edge
                if at > moment and any(self.holds(name, at) for name in names) == wanted:
                    return at
        return None


def _edges(member: dict[str, Any]) -> set[int]:
    texts = [times[key] for times in member.get("times") or [] for key in ("start_time", "end_time")]
    return {_of_day(text) % DAY for text in texts}


def _of_day(text: str) -> int:
    hours, minutes = text.split(":")
    return (int(hours) * 60 + int(minutes)) * MINUTE_OF_DAY


def _holds(member: dict[str, Any], moment: int) -> bool:
    text = moment_text(moment)
    year, month, day = int(text[:4]), int(text[5:7]), int(text[8:10])
    weekday = (moment // DAY + 3) % 7
    length = _length(year, month)
    times = member.get("times")
    if times is not None and not any(
        _of_day(each["start_time"]) <= moment % DAY < _of_day(each["end_time"]) for each in times
    ):
        return False
    return (
        _is_in(member.get("weekdays"), weekday, WEEKDAYS, 0)
        and _is_in(member.get("months"), month, MONTHS, 1)
        and _is_in(member.get("years"), year, (), 0)
        and _is_day(member.get("days_of_month"), day, length)
    )


def _is_in(ranges: list[Any] | None, value: int, names: tuple[str, ...], first: int) -> bool:
    return ranges is None or any(low <= value <= high for low, high in (_range(each, names, first) for each in ranges))


def _range(text: Any, names: tuple[str, ...], first: int) -> tuple[int, int]:
    parts = [_number(part, names, first) for part in str(text).split(":")]
    return parts[0], parts[-1]


def _number(text: str, names: tuple[str, ...], first: int) -> int:
    return names.index(text.lower()) + first if text.lower() in names else int(text)


def _is_day(ranges: list[Any] | None, day: int, length: int) -> bool:
    """Returns whether a day of a month is in one of some ranges. Negative days count from the month's end."""
    if ranges is None:
        return True
    for low, high in (_range(each, (), 0) for each in ranges):
        start, end = (part + length + 1 if part < 0 else part for part in (low, high))
        if start <= day <= end:
            return True
    return False


def _length(year: int, month: int) -> int:
    if month == 2:
        return 29 if year % 4 == 0 and (year % 100 != 0 or year % 400 == 0) else 28
    return 30 if month in (4, 6, 9, 11) else 31
