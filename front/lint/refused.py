"""Why the program refused a configuration: the values in the user's file, with words for each."""

from __future__ import annotations

from typing import Any, Callable

from ..config.yaml_config import Reading
from ..meant import did_you_mean
from ..moments import length_of
from ..program import Refusal
from ..refusals import CONFIGURATIONS
from ..story.config import Route, routes_of
from .findings import ERROR, Finding, value_text
from .paths import last_key, value_at
from .values import words_for

LEVELS_AT_MOST = 32
INTERVALS = ("group_interval", "repeat_interval")
Found = list[tuple[str, str, str]]


def explain(refusal: Refusal, reading: Reading) -> list[Finding]:
    """Returns the faults behind a refusal: what the program said, and where that is in the user's file."""
    if reading.bad_zone and last_key(refusal.path) == "location":
        path, what = reading.bad_zone.split(": ", 1)
        found = [(path, what, "")]
    elif refusal.number == 5:
        what, write = words_for(refusal.path, value_at(reading.value, refusal.path), reading.value)
        found = [(refusal.path, what, write)]
    else:
        found = _search(refusal.number, reading.value)
    if not found:
        found = [("", CONFIGURATIONS.get(refusal.number, "refused"), "")]
    said = f" ({refusal.number} {refusal.name})"
    return [
        Finding(ERROR, reading.line_of(path) if path else None, path, what + said, write) for path, what, write in found
    ]


def _search(number: int, config: Any) -> Found:
    """Returns the paths that a refusal without a path may be about."""
    searches: dict[int, Callable[[dict[str, Any], list[Route]], Found]] = {
        6: _unknown_receivers,
        7: _equal_receivers,
        8: _root,
        9: _zero_intervals,
        10: _groupings,
        11: _too_deep,
    }
    if number not in searches or not isinstance(config, dict):
        return []
    try:
        return searches[number](config, routes_of(config))
    except (AttributeError, TypeError):
        return []


def receiver_names(config: dict[str, Any]) -> list[str]:
    return [each["name"] for each in config.get("receivers") or []]


def _unknown_receivers(config: dict[str, Any], routes: list[Route]) -> Found:
    names = receiver_names(config)
    found = []
    for route in routes:
        name = route.value.get("receiver")
        if name is not None and name not in names:
            hint = did_you_mean(name, names).removeprefix("; ")
            what = f"there is no receiver {value_text(name)}"
            found.append((f"{route.path}.receiver", what, hint or f"receivers are {', '.join(names) or 'none'}"))
    return found


def _equal_receivers(config: dict[str, Any], _: list[Route]) -> Found:
    names = receiver_names(config)
    return [
        (
            f"receivers[{i}].name",
            f"there is a receiver {value_text(name)} already, receivers[{names.index(name)}]",
            "rename one of them, or join them",
        )
        for i, name in enumerate(names)
        if name in names[:i]
    ]


def _root(_: dict[str, Any], routes: list[Route]) -> Found:
    root = routes[0].value
    if root.get("receiver") is None:
        return [("route", "the root route names no receiver", "write a receiver, which gets what no other route takes")]
    kept_from_it = ("match", "match_re", "matchers", "active_time_intervals", "mute_time_intervals", "continue")
    return [
        (f"route.{key}", f"the root route takes all alerts, and has no {key}", "put it into a route under routes")
        for key in kept_from_it
        if root.get(key)
    ]


def _zero_intervals(_: dict[str, Any], routes: list[Route]) -> Found:
    return [
        (f"{route.path}.{key}", f"{key} is zero", "write a length that isn't zero, as 1s")
        for route in routes
        for key in INTERVALS
        if isinstance(route.value.get(key), str) and length_of(route.value[key]) == 0
    ]


def _groupings(_: dict[str, Any], routes: list[Route]) -> Found:
    found = []
    for route in routes:
        names = route.value.get("group_by") or []
        for i, name in enumerate(names):
            path = f"{route.path}.group_by[{i}]"
            if not name:
                found.append((path, "the name is empty", "remove it"))
            elif name in names[:i]:
                found.append((path, f"{value_text(name)} is there twice", "remove it"))
            elif name == "..." and len(names) > 1:
                found.append((path, "`...` isn't alone", "write ['...'] alone to group by all labels"))
    return found


def _too_deep(_: dict[str, Any], routes: list[Route]) -> Found:
    deep = next((route for route in routes if route.level >= LEVELS_AT_MOST), None)
    return (
        [
            (
                deep.path,
                "this route is at level 33",
                f"there are at most {LEVELS_AT_MOST} levels, the root being the first",
            )
        ]
        if deep
        else []
    )
