"""A configuration as the story needs it: its routes by number, its rules, and its time intervals. It is one that the program accepted."""

from __future__ import annotations

from dataclasses import dataclass
from typing import Any

from ..moments import length_of
from .matching import Matcher, matchers_in, may_match_all

DEFAULT_TIMEOUT = 300_000_000_000

# A rule by its number, with values of its `equal`.
Keyed = tuple[int, tuple[str, ...]]


@dataclass(frozen=True)
class Route:
    """A route: its number, its parent's number (-1 for the root), its level, its own object, its path in the file, and its receiver."""

    number: int
    parent: int
    level: int
    value: dict[str, Any]
    path: str
    receiver: str

    @property
    def matchers(self) -> list[str]:
        """Its own matchers as texts."""
        return _matcher_texts(self.value, "match", "match_re", "matchers")

    @property
    def intervals(self) -> list[str]:
        return [*_list(self.value, "active_time_intervals"), *_list(self.value, "mute_time_intervals")]

    def setting(self, key: str, routes: list[Route]) -> Any:
        """Returns a setting that is inherited from the nearest route above that sets it, or None."""
        value = self.value.get(key)
        if value is not None or self.parent < 0:
            return value
        return routes[self.parent].setting(key, routes)


@dataclass(frozen=True)
class Rule:
    """An inhibition rule. `source` and `target` are None where they hold what isn't read here, and may match anything."""

    number: int
    value: dict[str, Any]
    source: tuple[Matcher, ...] | None
    target: tuple[Matcher, ...] | None
    equal: tuple[str, ...]

    @property
    def source_texts(self) -> list[str]:
        return _matcher_texts(self.value, "source_match", "source_match_re", "source_matchers")

    @property
    def target_texts(self) -> list[str]:
        return _matcher_texts(self.value, "target_match", "target_match_re", "target_matchers")


def routes_of(config: dict[str, Any]) -> list[Route]:
    """Returns the routes, a route before its children."""
    found: list[Route] = []
    waiting: list[tuple[dict[str, Any], int, str]] = [(config.get("route") or {}, -1, "route")]
    while waiting:
        value, parent, path = waiting.pop()
        receiver = value.get("receiver")
        if receiver is None:
            receiver = found[parent].receiver if parent >= 0 else ""
        level = found[parent].level + 1 if parent >= 0 else 0
        found.append(Route(len(found), parent, level, value, path, str(receiver)))
        children = _list(value, "routes")
        number = len(found) - 1
        waiting += [(child, number, f"{path}.routes[{i}]") for i, child in reversed(list(enumerate(children)))]
    return found


def sharing_entries(routes: list[Route]) -> list[tuple[int, int]]:
    """Returns pairs of routes that share their entries in the notification log: one receiver, and the same matchers from the root down."""
    paths: dict[int, tuple[object, ...]] = {-1: ()}
    first: dict[object, int] = {}
    found = []
    for route in routes:
        own = tuple(sorted(str(matchers_in(text) or text) for text in route.matchers))
        paths[route.number] = (*paths[route.parent], own)
        key = (paths[route.number], route.receiver)
        if key in first:
            found.append((first[key], route.number))
        first.setdefault(key, route.number)
    return found


def rules_of(config: dict[str, Any]) -> list[Rule]:
    """Returns the inhibition rules."""
    return [_rule(number, value) for number, value in enumerate(_list(config, "inhibit_rules"))]


def _rule(number: int, value: dict[str, Any]) -> Rule:
    source, target = (
        _matchers(value, f"{side}_match", f"{side}_match_re", f"{side}_matchers") for side in ("source", "target")
    )
    return Rule(number, value, source, target, tuple(_list(value, "equal")))


def keys_of(rules: list[Rule], by_name: dict[str, str], is_source: bool) -> list[Keyed]:
    """Returns the rules of which an alert may be a source, or a target, each with its values of the rule's `equal`."""
    return [
        (rule.number, tuple(by_name.get(name, "") for name in rule.equal))
        for rule in rules
        if may_match_all((rule.source if is_source else rule.target) or (), by_name)
    ]


def timeout_of(config: dict[str, Any]) -> int:
    """Returns after how long an alert that is posted without an end may end."""
    text = (config.get("global") or {}).get("resolve_timeout")
    length = length_of(text) if isinstance(text, str) else None
    return DEFAULT_TIMEOUT if length is None else length


def edges_of(config: dict[str, Any]) -> set[int]:
    """Returns the seconds of a day at which a route's time interval may begin or end. Empty if no route has one."""
    if not any(route.intervals for route in routes_of(config)):
        return set()
    edges = {0}
    for interval in [*_list(config, "time_intervals"), *_list(config, "mute_time_intervals")]:
        for member in _list(interval, "time_intervals"):
            for times in _list(member, "times"):
                edges |= {_second_of_day(times[key]) for key in ("start_time", "end_time")}
    return edges


def _second_of_day(text: str) -> int:
    hours, minutes = text.split(":")
    return (int(hours) * 60 + int(minutes)) * 60 % 86_400


def _list(value: dict[str, Any], key: str) -> list[Any]:
    listed = value.get(key)
    return listed if isinstance(listed, list) else []


def _matcher_texts(value: dict[str, Any], equal: str, pattern: str, texts: str) -> list[str]:
    listed = [f'{name}{operator}"{wanted}"' for key, operator in ((equal, "="), (pattern, "=~"))
              for name, wanted in (value.get(key) or {}).items() if wanted is not None]  # fmt: skip
    return [*listed, *(text.strip() for text in _list(value, texts))]


def _matchers(value: dict[str, Any], equal: str, pattern: str, texts: str) -> tuple[Matcher, ...] | None:
    """Returns the matchers, or None if one of the texts isn't read here."""
    found: list[Matcher] = []
    for key, is_regex in ((equal, False), (pattern, True)):
        found += [
            (name, wanted, True, is_regex) for name, wanted in (value.get(key) or {}).items() if wanted is not None
        ]
    for text in _list(value, texts):
        read = matchers_in(text)
        if read is None:
            return None
        found += read
    return tuple(found)
