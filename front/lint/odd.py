"""What is odd in a configuration that the program accepts."""

from __future__ import annotations

from typing import Any, Iterator

from ..config.yaml_config import Reading
from ..meant import meant
from ..story.config import Route, Rule, routes_of, rules_of
from ..story.matching import Matcher, matchers_in
from .findings import WARNING, Finding, value_text
from .refused import receiver_names
from .values import interval_names

OPERATORS = {(True, False): "=", (False, False): "!=", (True, True): "=~", (False, True): "!~"}


def unknown_keys(reading: Reading) -> list[Finding]:
    """Returns the keys that Alertmanager doesn't know there, and that the program ignores."""
    found = []
    for each in reading.unread:
        near = meant(each.key, each.known)
        found.append(
            Finding(
                WARNING,
                each.line,
                each.path,
                f"unknown key {each.key}, which is ignored",
                f"did you mean {near}?" if near else "",
            )
        )
    return found


def oddities(reading: Reading) -> list[Finding]:
    """Returns what else is odd: receivers, intervals, routes and rules that do nothing, or more than one expects."""
    config = reading.value
    routes, rules = routes_of(config), rules_of(config)
    found = [*_unused(config, routes), *_unreached(routes), *_wide_rules(rules)]
    return [Finding(WARNING, reading.line_of(path), path, what, write) for path, what, write in found]


def _unused(config: dict[str, Any], routes: list[Route]) -> Iterator[tuple[str, str, str]]:
    used = {route.receiver for route in routes}
    for i, name in enumerate(receiver_names(config)):
        if name not in used:
            yield f"receivers[{i}]", f"no route names the receiver {value_text(name)}", ""
    named = {name for route in routes for name in route.intervals}
    for key in ("mute_time_intervals", "time_intervals"):
        for i, name in enumerate(interval_names({key: config.get(key)})):
            if name not in named:
                yield f"{key}[{i}]", f"no route uses the time interval {value_text(name)}", ""


def _unreached(routes: list[Route]) -> Iterator[tuple[str, str, str]]:
    """Yields routes that no alert reaches: a route before takes all that they would, or their matchers exclude one another."""
    taken: dict[int, list[tuple[Route, set[Matcher]]]] = {}
    unreached: set[int] = set()
    ways: dict[int, set[Matcher]] = {}
    for route in routes:
        if route.parent in unreached:
            unreached.add(route.number)
            continue
        own = own_matchers(route)
        ways[route.number] = ways.get(route.parent, set()) | (own or set())
        before = next(
            (each for each, matchers in taken.get(route.parent, []) if own is not None and matchers <= own), None
        )
        excluded = _excluded(ways[route.number])
        if route.parent >= 0 and before is not None:
            unreached.add(route.number)
            yield route.path, f"no alert reaches route {route.number}: route {before.number} before it takes all that it would", (
                f"move it before route {before.number}, or write continue: true there"
            )
        elif excluded:
            unreached.add(route.number)
            yield route.path, f"no alert reaches route {route.number}: {excluded}", "a route's alerts match the routes above it too"
        if own is not None and route.value.get("continue") is not True:
            taken.setdefault(route.parent, []).append((route, own))


def own_matchers(route: Route) -> set[Matcher] | None:
    """Returns a route's own matchers, or None if one of their texts isn't read here."""
    found: set[Matcher] = set()
    for text in route.matchers:
        read = matchers_in(text)
        if read is None:
            return None
        found |= set(read)
    return found


def _excluded(matchers: set[Matcher]) -> str:
    """Returns which matchers exclude one another, or nothing. Only `=` and `!=` are compared."""
    plain = sorted(matcher for matcher in matchers if not matcher[3])
    for one in plain:
        for other in plain:
            if one < other and one[0] == other[0] and _exclude(one, other):
                return f"{matcher_text(one)} and {matcher_text(other)} exclude one another"
    return ""


def _exclude(one: Matcher, other: Matcher) -> bool:
    if one[2] and other[2]:
        return one[1] != other[1]
    return one[1] == other[1] and one[2] != other[2]


def matcher_text(matcher: Matcher) -> str:
    name, value, is_equal, is_regex = matcher
    return f'{name}{OPERATORS[is_equal, is_regex]}"{value}"'


def _wide_rules(rules: list[Rule]) -> Iterator[tuple[str, str, str]]:
    for rule in rules:
        path = f"inhibit_rules[{rule.number}]"
        within = f" with the same {', '.join(rule.equal)}" if rule.equal else ""
        if not rule.target_texts:
            yield path, f"rule {rule.number} has no target matchers: its sources mute every alert{within}", "write target_matchers"
        if not rule.source_texts:
            yield path, f"rule {rule.number} has no source matchers: every alert mutes its targets{within}", "write source_matchers"
