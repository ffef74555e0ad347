"""Configurations as the page shows them: a numbered tree of routes, the rules, the time intervals and the receivers."""

from __future__ import annotations

import json
from typing import Any

from ..story.config import Route, Rule, routes_of, rules_of

BYTES_AT_MOST = 1_000_000
SETTINGS = ("group_wait", "group_interval", "repeat_interval")

Config = dict[str, Any]


class Configs:
    """The configurations of a page, each written once. Those that are too much in all aren't written, but numbered."""

    def __init__(self) -> None:
        self._numbers: dict[str, int] = {}
        self._written: list[Any] = []
        self._size = 0

    def number(self, config: Config) -> int:
        """Returns the number of a configuration."""
        text = json.dumps(config, sort_keys=True)
        if text not in self._numbers:
            self._numbers[text] = len(self._numbers)
            self._written.append(self._shown(config))
        return self._numbers[text]

    def written(self) -> list[Any]:
        return self._written

    def _shown(self, config: Config) -> Any:
        shown = {
            "routes": [_route(route) for route in routes_of(config)],
            "rules": [_rule(rule) for rule in rules_of(config)],
            "intervals": [
                {"name": each["name"], "text": text_of(each.get("time_intervals") or [])}
                for key in ("mute_time_intervals", "time_intervals")
                for each in config.get(key) or []
            ],
            "receivers": [{"name": each["name"], "kinds": _kinds(each)} for each in config.get("receivers") or []],
        }
        self._size += len(json.dumps(shown))
        return shown if self._size <= BYTES_AT_MOST else 0


def _route(route: Route) -> dict[str, Any]:
    value = route.value
    return {
        "number": route.number,
        "parent": route.parent,
        "level": route.level,
        "receiver": route.receiver,
        "matchers": route.matchers,
        "continues": bool(value.get("continue")),
        "groupBy": value.get("group_by"),
        "waits": [None if value.get(key) is None else str(value[key]) for key in SETTINGS],
        "mute": value.get("mute_time_intervals") or [],
        "active": value.get("active_time_intervals") or [],
    }


def _rule(rule: Rule) -> dict[str, Any]:
    return {"number": rule.number, "source": rule.source_texts, "target": rule.target_texts, "equal": list(rule.equal)}


def text_of(members: list[dict[str, Any]]) -> str:
    """Returns what an interval holds, as a text: `00:00-06:00 or 22:00-24:00; or monday:friday`."""
    return "; or ".join(_text(member) for member in members) or "never"


def _text(member: dict[str, Any]) -> str:
    parts = [" or ".join(f"{each['start_time']}-{each['end_time']}" for each in member.get("times") or [])]
    for key, word in (("weekdays", ""), ("days_of_month", "days "), ("months", ""), ("years", "")):
        parts.append(word + ", ".join(map(str, member.get(key) or [])) if member.get(key) else "")
    return ", ".join(filter(None, parts)) or "always"


def _kinds(receiver: Config) -> list[str]:
    """Returns the kinds of a receiver's integrations, as often as it has them."""
    return [
        key[: -len("_configs")] for key, listed in receiver.items() if key.endswith("_configs") for _ in listed or []
    ]
