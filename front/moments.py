"""Moments as numbers of nanoseconds since 1970, and back as texts; lengths of time as texts."""

from __future__ import annotations

import calendar
import functools
import re
import time

SHAPE = re.compile(r"(\d{4})-(\d\d)-(\d\d)[Tt](\d\d):(\d\d):(\d\d)(?:\.(\d{1,9}))?(?:[Zz]|([+-])(\d\d):(\d\d))")
SECOND = 1_000_000_000
MINUTE = 60 * SECOND
HOUR = 60 * MINUTE
DAY = 24 * HOUR
UNITS = {"y": 365 * DAY, "w": 7 * DAY, "d": DAY, "h": HOUR, "m": MINUTE, "s": SECOND, "ms": SECOND // 1000}
LENGTH = re.compile(r"(?:(\d+)y)?(?:(\d+)w)?(?:(\d+)d)?(?:(\d+)h)?(?:(\d+)m)?(?:(\d+)s)?(?:(\d+)ms)?", re.ASCII)


@functools.lru_cache(maxsize=65_536)
def nanoseconds(text: str) -> int:
    """Returns the nanoseconds since 1970 of a moment. Raises ValueError where the text is no moment."""
    found = SHAPE.fullmatch(text)
    if not found:
        raise ValueError(text)
    year, month, day, hour, minute, second = (int(found[i]) for i in range(1, 7))
    since = calendar.timegm((year, month, day, hour, minute, second))
    offset = (int(found[9]) * 60 + int(found[10])) * 60 if found[8] else 0
    since += -offset if found[8] == "+" else offset
    return since * SECOND + int((found[7] or "").ljust(9, "0"))


def moment_text(moment: int) -> str:
    """Returns the text of a moment in UTC, with nine digits where it has a fraction of a second."""
    seconds, fraction = divmod(moment, SECOND)
    text = time.strftime("%Y-%m-%dT%H:%M:%S", time.gmtime(seconds))
    return f"{text}.{fraction:09d}Z" if fraction else f"{text}Z"


def clock_text(moment: int, with_date: bool = False) -> str:
    """Returns a moment for people, to the millisecond: `01:42:10`, or `2026-11-24 01:42:10.5`."""
    seconds, fraction = divmod(moment, SECOND)
    text = time.strftime("%Y-%m-%d %H:%M:%S" if with_date else "%H:%M:%S", time.gmtime(seconds))
    digits = f"{fraction:09d}"[:3].rstrip("0")
    return f"{text}.{digits}" if digits else text


def length_text(length: int) -> str:
    """Returns a length of time for people, in its two largest units: `41 m 50 s`, `1 h 35 m`, `2 d`, `0.5 s`."""
    if length < SECOND:
        return f"{length / SECOND:.3f}".rstrip("0").rstrip(".") + " s"
    seconds = length // SECOND
    units = [(86_400, "d"), (3_600, "h"), (60, "m"), (1, "s")]
    index = next(i for i, (size, _) in enumerate(units) if seconds >= size)
    parts = []
    for size, name in units[index : index + 2]:
        count, seconds = divmod(seconds, size)
        if count:
            parts.append(f"{count} {name}")
    return " ".join(parts)


def length_of(text: str) -> int | None:
    """Returns the nanoseconds of a duration such as `1h30m`, or None where the text is none."""
    found = LENGTH.fullmatch(text)
    if text == "0":
        return 0
    if not text or not found:
        return None
    return sum(int(count or 0) * unit for count, unit in zip(found.groups(), UNITS.values()))
