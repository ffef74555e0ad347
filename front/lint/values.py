"""Why a value that the program refused isn't one, in words, and what to write. The program refused it: this only says what it may be."""

from __future__ import annotations

import re
from typing import Any

from ..config.schema import SENDS_RESOLVED
from ..meant import meant
from ..moments import length_of
from ..story.matching import matchers_in
from .findings import value_text
from .paths import ABSENT, last_key

Words = tuple[str, str]

DURATIONS = ("group_wait", "group_interval", "repeat_interval", "resolve_timeout")
BOOLEANS = ("continue", "send_resolved")
MATCHER_TEXTS = ("matchers", "source_matchers", "target_matchers")
MATCHER_OBJECTS = ("match", "match_re", "source_match", "source_match_re", "target_match", "target_match_re")
LISTS = (
    "routes",
    "receivers",
    "inhibit_rules",
    "time_intervals",
    "mute_time_intervals",
    "active_time_intervals",
    "group_by",
    "equal",
    "times",
)
OBJECTS = ("global", "route")
WEEKDAYS = ("sunday", "monday", "tuesday", "wednesday", "thursday", "friday", "saturday")
MONTHS = (
    "january",
    "february",
    "march",
    "april",
    "may",
    "june",
    "july",
    "august",
    "september",
    "october",
    "november",
    "december",
)
LONGEST = 10 * 365 * 86_400 * 1_000_000_000
DURATION_PART = re.compile(r"(\d+(?:\.\d+)?)\s*([a-z]+)", re.IGNORECASE)
UNIT_NAMES = {"sec": "s", "secs": "s", "second": "s", "seconds": "s", "min": "m", "mins": "m", "minute": "m", "minutes": "m", "hour": "h", "hours": "h",
              "hr": "h", "hrs": "h", "day": "d", "days": "d", "week": "w", "weeks": "w", "year": "y", "years": "y"}  # fmt: skip
SECONDS = {"y": 31_536_000, "w": 604_800, "d": 86_400, "h": 3_600, "m": 60, "s": 1}


def words_for(path: str, value: Any, config: Any) -> Words:
    """Returns what is wrong with a value at a path of a configuration, and what to write."""
    key = last_key(path)
    if not path:
        return _of_the_top(value)
    if value is ABSENT or value is None:
        return f"{key} is required, and isn't there" if value is ABSENT else f"{key} is null", f"write a {key}"
    in_match = re.search(r"\b((?:source_|target_)?match(?:_re)?)\.", path)
    if in_match and in_match[1] in MATCHER_OBJECTS:
        return _of_match(value, in_match[1].endswith("_re"))
    is_item = path.endswith("]")
    if key in DURATIONS:
        return _of_duration(value)
    if key in BOOLEANS:
        return (
            f"{value_text(value)} is no boolean",
            f"write {'true' if str(value).lower() in ('yes', 'on', 'true', '1') else 'true or false'}",
        )
    if key in MATCHER_TEXTS:
        return _of_matchers(value, is_item)
    if key.endswith("_configs") and is_item:
        return _of_integration(key.removesuffix("_configs"), value)
    if key in ("mute_time_intervals", "active_time_intervals") and is_item and path.startswith("route"):
        return _of_interval_name(value, config)
    if key == "location":
        return f"the program knows UTC alone, and not {value_text(value)}", _about_zones(value)
    if key == "name":
        return _of_name(path, value, config)
    return _of_interval(path, key, value, is_item) or _of_shape(key, value, is_item)


def _of_the_top(value: Any) -> Words:
    if isinstance(value, dict):
        return "the file can't be read: JSON in UTF-8 of at most 1 MiB", ""
    return "the top isn't an object", "a configuration has route and receivers at its top"


def _of_duration(value: Any) -> Words:
    if isinstance(value, (int, float)) and not isinstance(value, bool):
        return f"{value} is a number, and no duration", f'write a text with a unit, as "{value:g}s"'
    if not isinstance(value, str):
        return f"{value_text(value)} is no duration", 'write a text such as "30s" or "1h30m"'
    length = length_of(value)
    if length is not None and length > LONGEST:
        return f"{value} is longer than ten years", 'the longest is "10y"'
    suggestion = _as_duration(value)
    what = f"{value_text(value)} is no duration: whole numbers with the units y, w, d, h, m, s, ms, in this order and without spaces"
    return what, f'write "{suggestion}"' if suggestion else 'write it as "30s" or "1h30m"'


def _as_duration(text: str) -> str:
    """Returns the duration that a text may mean, or nothing."""
    if re.fullmatch(r"\d+", text.strip()):
        return text.strip() + "s"
    parts = DURATION_PART.findall(text)
    if not parts or DURATION_PART.sub("", text).strip(" ,"):
        return ""
    total = 0.0
    for number, unit in parts:
        unit = UNIT_NAMES.get(unit.lower(), unit.lower())
        if unit not in SECONDS:
            return ""
        total += float(number) * SECONDS[unit]
    if total != int(total):
        return f"{round(total * 1000)}ms"
    seconds, text = int(total), ""
    for unit, size in (("d", 86_400), ("h", 3_600), ("m", 60), ("s", 1)):
        count, seconds = divmod(seconds, size)
        text += f"{count}{unit}" if count else ""
    return text


def _of_matchers(value: Any, is_item: bool) -> Words:
    if not is_item:
        return (
            f"{value_text(value)} is no list of matchers",
            f"write [{value_text(value)}]" if isinstance(value, str) else 'write ["name=\\"value\\""]',
        )
    if not isinstance(value, str):
        return f"{value_text(value)} is no text", 'a matcher is a text such as "team=\\"a\\""'
    found = matchers_in(value)
    if found:
        for _, pattern, _, is_regex in found:
            if is_regex:
                return _of_pattern(pattern)
    if not re.search(r"[=!]", value):
        return f"{value_text(value)} has no operator", f'write {value.strip()}="..", with =, !=, =~ or !~'
    return (
        f"{value_text(value)} can't be read as matchers: name, operator, value, with commas between",
        'put the value in double quotes, as name="a value"',
    )


def _of_match(value: Any, is_pattern: bool) -> Words:
    if not isinstance(value, str):
        return (
            f"{value_text(value)} is no text",
            f'write "{value}"' if isinstance(value, (int, float)) else "a value is a text",
        )
    return _of_pattern(value) if is_pattern else (f"{value_text(value)} is no value", "a label's name isn't empty")


def _of_pattern(pattern: str) -> Words:
    try:
        re.compile(pattern)
    except re.error as error:
        return (
            f"the pattern {value_text(pattern)} can't be read: {error}",
            "patterns are those of RE2: a literal bracket or parenthesis has a backslash",
        )
    return (
        f"the pattern {value_text(pattern)} can't be read, or is too large",
        "look-around and back-references aren't known, as in RE2",
    )


def _of_integration(kind: str, value: Any) -> Words:
    if not isinstance(value, dict):
        return f"{value_text(value)} is no object", "an integration is an object, as {}"
    if "send_resolved" in value:
        return f"send_resolved is {value_text(value['send_resolved'])}, and no boolean", "write true or false"
    if kind in SENDS_RESOLVED:
        default = "true" if SENDS_RESOLVED[kind] else "false"
        return (
            f"the program has no default of send_resolved for {kind}",
            f'write "send_resolved": {default}, which is Alertmanager\'s default',
        )
    near = meant(kind, SENDS_RESOLVED)
    hint = f"; did you mean {near}_configs?" if near else ""
    return (
        f"the kind {kind} isn't known, and has no default of send_resolved{hint}",
        'write "send_resolved": true or false',
    )


def _of_interval_name(value: Any, config: Any) -> Words:
    defined = interval_names(config)
    near = meant(str(value), defined)
    if isinstance(value, str):
        hint = f"did you mean {near}?" if near else f"defined are {', '.join(defined) or 'none'}"
        return f"no time interval has the name {value_text(value)}", hint
    return f"{value_text(value)} is no name of a time interval", "write a text"


def interval_names(config: Any) -> list[str]:
    """Returns the names of the time intervals of a configuration."""
    names: list[str] = []
    for key in ("mute_time_intervals", "time_intervals"):
        listed = config.get(key) if isinstance(config, dict) else None
        for interval in listed if isinstance(listed, list) else []:
            if isinstance(interval, dict) and isinstance(interval.get("name"), str):
                names.append(interval["name"])
    return names


def _about_zones(value: Any) -> str:
    return (
        "in YAML, and for the words beside it, a zone's intervals are written in UTC for the days of the script"
        if isinstance(value, str)
        else "write UTC"
    )


def _of_name(path: str, value: Any, config: Any) -> Words:
    if not isinstance(value, str):
        return f"{value_text(value)} is no text", f'write "{value}"'
    if not value:
        return "the name is empty", "write a name"
    if interval_names(config).count(value) > 1:
        return f"two time intervals have the name {value_text(value)}", "rename one of them"
    return f"{value_text(value)} is no name", ""


def _of_interval(path: str, key: str, value: Any, is_item: bool) -> Words | None:
    """Returns the words for a field of a time interval."""
    if "time_intervals[" not in path:
        return None
    if key in ("weekdays", "months", "days_of_month", "years") and not is_item:
        return f"{value_text(value)} is no list", f"write [{value_text(value)}]"
    if key == "weekdays":
        return _of_range(
            value, WEEKDAYS, "sunday to saturday, and the week begins on sunday: write saturday and sunday as two items"
        )
    if key == "months":
        return _of_range(value, MONTHS, "january to december, or 1 to 12")
    if key == "days_of_month":
        return (
            f"{value_text(value)} is no day of a month, or range of days",
            'write 1 to 31, -1 to -31 from its end, or a range as "1:15" or "-3:-1"',
        )
    if key == "years":
        return f"{value_text(value)} is no year, or range of years", 'write "2024" or "2024:2026"'
    if key == "times":
        what = f"{value_text(value)} has a start that isn't before its end"
        if not isinstance(value, dict):
            what = f"{value_text(value)} is no object with start_time and end_time"
        return what, "write a span over midnight as two items, one to 24:00 and one from 00:00"
    if key in ("start_time", "end_time"):
        return f"{value_text(value)} is no time", 'write it as "09:00", from 00:00 to 24:00'
    return None


def _of_range(value: Any, names: tuple[str, ...], allowed: str) -> Words:
    parts = str(value).lower().split(":")
    wrong = next((part for part in parts if part not in names and not part.isdigit()), None)
    if wrong is None and len(parts) == 2:
        return f"{value_text(value)} begins after its end", f"ranges go from {allowed}"
    near = (
        (meant(wrong, names) or next((name for name in names if wrong and name.startswith(wrong)), None))
        if wrong
        else None
    )
    return (
        f"{value_text(wrong if wrong is not None else value)} isn't known",
        f"write {near}" if near else f"names are those of {allowed}",
    )


def _of_shape(key: str, value: Any, is_item: bool) -> Words:
    if key in LISTS and not is_item:
        return f"{value_text(value)} is no list", f"write [{value_text(value)}]"
    if key in OBJECTS or (
        is_item and key in ("routes", "receivers", "inhibit_rules", "time_intervals", "mute_time_intervals")
    ):
        return f"{value_text(value)} is no object", ""
    if key in MATCHER_OBJECTS:
        return f"{value_text(value)} is no object of texts", 'write {"name": "value"}'
    if isinstance(value, (int, float)) and not isinstance(value, bool):
        return f"{value} is no text", f'write "{value}"'
    return f"{value_text(value)} has another shape than {key} has", "docs/FORMATS.md has the shapes"
