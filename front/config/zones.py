"""Writes time intervals with a `location` as intervals in UTC, exactly, for the days of a script."""

from __future__ import annotations

import copy
from dataclasses import dataclass
from datetime import date, datetime, timedelta, timezone
from typing import Any, Callable, Iterator
from zoneinfo import ZoneInfo, available_timezones

from ..meant import did_you_mean

DAY_SECONDS = 86_400
NANOSECONDS = 1_000_000_000
DAYS_AT_MOST = 4_000
UTC_NAMES = ("", "UTC")
WEEKDAYS = ("sunday", "monday", "tuesday", "wednesday", "thursday", "friday", "saturday")
MONTHS = (
    "january", "february", "march", "april", "may", "june",
    "july", "august", "september", "october", "november", "december",
)  # fmt: skip
EPOCH = date(1970, 1, 1)


class BadZone(ValueError):
    """A `location` that can't be written in UTC. Its text says where and why."""


@dataclass(frozen=True)
class Stretch:
    """A stretch of time in which the clocks of a zone keep one offset, in seconds since 1970."""

    start: int
    end: int
    offset: int


def in_utc(value: Any, first: int, last: int) -> tuple[Any, list[str]]:
    """Returns a configuration whose intervals hold as before between two moments, without a `location`.

    Also returns the names of the intervals that were written anew. A part of another shape is left to the program.
    """
    result = copy.deepcopy(value)
    days = range(first // NANOSECONDS // DAY_SECONDS, last // NANOSECONDS // DAY_SECONDS + 1)
    names: list[str] = []
    for key in ("mute_time_intervals", "time_intervals"):
        for i, interval in enumerate(_items(result, key)):
            members = _items(interval, "time_intervals")
            if any(_zone_name(member) not in UTC_NAMES for member in members):
                names.append(str(interval.get("name", "")))
                interval["time_intervals"] = _in_utc(members, days, f"{key}[{i}].time_intervals")
            for member in members:
                if isinstance(member, dict) and member.get("location") == "":
                    del member["location"]
    return result, names


def _items(value: Any, key: str) -> list[Any]:
    found = value.get(key) if isinstance(value, dict) else None
    return found if isinstance(found, list) else []


def _zone_name(member: Any) -> str:
    name = member.get("location") if isinstance(member, dict) else None
    return name if isinstance(name, str) else ""


def _in_utc(members: list[Any], days: range, path: str) -> list[Any]:
    """Keeps the members in UTC, and writes the others as one member for each day."""
    found: list[Any] = []
    for i, member in enumerate(members):
        name = _zone_name(member)
        if name in UTC_NAMES:
            found.append(member)
            continue
        try:
            found += _members(member, _zone(name), days)
        except BadZone as error:
            raise BadZone(f"{path}[{i}].location: {error}") from None
        except (ValueError, KeyError, TypeError, AttributeError):
            # The program names the fault of a member once its zone is out of the way.
            found.append({key: field for key, field in member.items() if key != "location"})
    return found


def _zone(name: str) -> ZoneInfo:
    if name.lower() == "local":
        raise BadZone("the zone of another machine isn't known here; name it")
    try:
        return ZoneInfo(name)
    except (ValueError, OSError, LookupError):
        raise BadZone(f"there is no zone {name} on this machine{did_you_mean(name, available_timezones())}") from None


def _members(member: dict[str, Any], zone: ZoneInfo, days: range) -> Iterator[dict[str, Any]]:
    if len(days) > DAYS_AT_MOST:
        raise BadZone(f"the script has {len(days)} days; at most {DAYS_AT_MOST} are written out")
    times, takes = _times(member.get("times")), _takes(member)
    stretches = _stretches(zone, (days.start - 2) * DAY_SECONDS, (days.stop + 2) * DAY_SECONDS)
    ranges = [
        (max(stretch.start, start - stretch.offset), min(stretch.end, end - stretch.offset))
        for day in range(days.start - 1, days.stop + 1)
        if takes(EPOCH + timedelta(days=day))
        for start, end in ((day * DAY_SECONDS + left, day * DAY_SECONDS + right) for left, right in times)
        for stretch in stretches
    ]
    joined = _joined(ranges)
    for day in days:
        yield from _day(day, joined)


def _stretches(zone: ZoneInfo, start: int, end: int) -> list[Stretch]:
    """Returns the stretches between two moments. The moment at which the clocks change is found by halving an hour."""
    found: list[Stretch] = []
    left, offset = start, _offset(zone, start)
    for hour in range(start, end, 3600):
        if _offset(zone, hour + 3600) == offset:
            continue
        before, after = hour, hour + 3600
        while after - before > 1:
            middle = (before + after) // 2
            before, after = (middle, after) if _offset(zone, middle) == offset else (before, middle)
        found.append(Stretch(left, after, offset))
        left, offset = after, _offset(zone, hour + 3600)
    return [*found, Stretch(left, end, offset)]


def _offset(zone: ZoneInfo, moment: int) -> int:
    offset = datetime.fromtimestamp(moment, timezone.utc).astimezone(zone).utcoffset()
    return round(offset.total_seconds()) if offset is not None else 0


def _joined(ranges: list[tuple[int, int]]) -> list[tuple[int, int]]:
    """Returns the ranges in order, with those that touch made one."""
    found: list[tuple[int, int]] = []
    for start, end in sorted(each for each in ranges if each[0] < each[1]):
        if found and start <= found[-1][1]:
            found[-1] = (found[-1][0], max(end, found[-1][1]))
        else:
            found.append((start, end))
    return found


def _day(day: int, ranges: list[tuple[int, int]]) -> Iterator[dict[str, Any]]:
    start = day * DAY_SECONDS
    parts = [(max(left - start, 0), min(right - start, DAY_SECONDS)) for left, right in ranges]
    parts = [(left, right) for left, right in parts if left < right]
    if not parts:
        return
    when = EPOCH + timedelta(days=day)
    member: dict[str, Any] = {} if parts == [(0, DAY_SECONDS)] else {"times": [_range(*part) for part in parts]}
    yield {**member, "days_of_month": [str(when.day)], "months": [str(when.month)], "years": [str(when.year)]}


def _range(start: int, end: int) -> dict[str, str]:
    if start % 60 or end % 60:
        raise BadZone("its clocks aren't whole minutes from UTC then")
    return {
        "start_time": f"{start // 3600:02}:{start // 60 % 60:02}",
        "end_time": f"{end // 3600:02}:{end // 60 % 60:02}",
    }


def _times(times: Any) -> list[tuple[int, int]]:
    """Returns the ranges of `times` in seconds of a day. Without `times` that is the whole day."""
    if times is None:
        return [(0, DAY_SECONDS)]
    return [(_second(each["start_time"]), _second(each["end_time"])) for each in times]


def _second(text: str) -> int:
    hour, minute = text.split(":")
    return int(hour) * 3600 + int(minute) * 60


def _takes(member: dict[str, Any]) -> Callable[[date], bool]:
    """Returns whether a local day is one of the days that a member's fields allow."""
    weekdays = _ranges(member.get("weekdays"), lambda text: WEEKDAYS.index(text.lower()))
    days = _ranges(member.get("days_of_month"), int)
    months = _ranges(member.get("months"), _month)
    years = _ranges(member.get("years"), int)

    def takes(day: date) -> bool:
        return (
            _holds(weekdays, day.isoweekday() % 7)
            and _holds(months, day.month)
            and _holds(years, day.year)
            and _holds(None if days is None else [_days(each, day) for each in days], day.day)
        )

    return takes


def _ranges(field: Any, read: Callable[[str], int]) -> list[tuple[int, int]] | None:
    if field is None:
        return None
    pairs = [str(item).partition(":") for item in field]
    return [(read(first), read(last if colon else first)) for first, colon, last in pairs]


def _month(text: str) -> int:
    return int(text) if text.isdigit() else MONTHS.index(text.lower()) + 1


def _days(days: tuple[int, int], day: date) -> tuple[int, int]:
    """Returns a range of days of a month with negative ones counted from its end."""
    following = date(day.year + day.month // 12, day.month % 12 + 1, 1)
    length = (following - date(day.year, day.month, 1)).days
    first, last = (each if each > 0 else length + 1 + each for each in days)
    return max(first, 1), last


def _holds(ranges: list[tuple[int, int]] | None, value: int) -> bool:
    return ranges is None or any(first <= value <= last for first, last in ranges)
