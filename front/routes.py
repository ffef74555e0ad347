"""`amreplay routes`: the tree of routes, and which of them take an alert."""

from __future__ import annotations

import argparse
import json
import sys
from typing import Any, Iterator, Optional

from .arguments import add_config, add_output, parser_of
from .inputs import Config, Inputs, opened
from .labels import labels_in
from .moments import DAY, HOUR, moment_text
from .program import Program, session
from .story.config import Route, Rule, routes_of, rules_of
from .story.model import Pairs
from .telling import printable

TIMES = ("group_wait", "group_interval", "repeat_interval")
DEFAULTS = {"group_wait": "30s", "group_interval": "5m", "repeat_interval": "4h"}
# The alert is posted at a moment of its own. Which routes take it depends on no moment.
POSTED = 19_844 * DAY


def main(arguments: list[str]) -> int:
    """Prints the tree of routes, or for labels the routes that take them. The status is 1 if labels aren't taken by the receivers that are expected."""
    options = _options(arguments)
    labels = (
        labels_in(" ".join(options.labels) if len(options.labels) == 1 else ",".join(options.labels), "LABELS")
        if options.labels
        else None
    )
    with opened() as inputs:
        config = inputs.config(options.config)
        routes = routes_of(config.value)
        chosen = _chosen(inputs, config, labels) if labels is not None else None
    receivers = [] if chosen is None else list(dict.fromkeys(routes[number].receiver for number in chosen))
    if options.output == "json":
        listed = [_as_json(route, routes) for route in routes if chosen is None or route.number in chosen]
        rules = [_rule_as_json(rule) for rule in rules_of(config.value)]
        told = {"routes": listed, "receivers": receivers, "rules": rules}
        json.dump(told, sys.stdout, ensure_ascii=False, indent=1)
        print()
    else:
        for line in _lines(routes, config.value, chosen):
            print(printable(line))
    if options.expected is not None and receivers != options.expected.split(","):
        print(f"amreplay: the receivers are {','.join(receivers)}, and not {options.expected}", file=sys.stderr)
        return 1
    return 0


def _options(arguments: list[str]) -> argparse.Namespace:
    parser = parser_of(
        "routes",
        "Prints the tree of routes with their numbers, matchers, receivers and times; with labels, the routes that take them.",
    )
    add_config(parser)
    parser.add_argument(
        "labels",
        metavar="LABELS",
        nargs="*",
        help="an alert's labels: an object of texts, NAME=VALUE .., or the name of an alert",
    )
    parser.add_argument(
        "--verify.receivers",
        dest="expected",
        metavar="RECEIVERS",
        help="status 1 if these receivers, with commas, aren't the alert's",
    )
    add_output(parser, "routes are")
    return parser.parse_args(arguments)


def _chosen(inputs: Inputs, config: Config, labels: Pairs) -> list[int]:
    """Returns the numbers of the routes that take an alert, as the program explains a post of it."""
    alert = {"labels": dict(labels), "startsAt": moment_text(POSTED), "endsAt": moment_text(POSTED + HOUR)}
    script = inputs.write(json.dumps({"at": moment_text(POSTED), "alerts": [alert]}).encode() + b"\n")
    source = Program.found().source(config.path, script, config.name)
    with session(source) as opened_session:
        answers = opened_session.ask_all(["step", f"explain {json.dumps(dict(labels))}"])
    return list(dict.fromkeys(line["route"] for line in map(json.loads, answers[1].lines) if "route" in line))


def _lines(routes: list[Route], config: dict[str, Any], chosen: Optional[list[int]]) -> Iterator[str]:
    """Yields a line for each route, and one for its times and intervals if they differ from those above. With chosen routes, those and the way to them."""
    shown = set(range(len(routes))) if chosen is None else {number for each in chosen for number in _way(routes, each)}
    integrations = {
        each.get("name"): _integrations(each) for each in config.get("receivers") or [] if isinstance(each, dict)
    }
    for route in routes:
        if route.number not in shown:
            continue
        indent = "  " * route.level
        mark = "  <- takes it" if chosen is not None and route.number in chosen else ""
        going_on = "  continue" if route.value.get("continue") else ""
        matchers = ", ".join(route.matchers) or "all alerts"
        yield f"{indent}{route.number}  {matchers}  ->  {route.receiver} ({integrations.get(route.receiver) or 'no integration'}){going_on}{mark}"
        details = _details(route, routes)
        if details:
            yield f"{indent}   {details}"
    for rule in rules_of(config) if chosen is None else []:
        sources, targets = (", ".join(texts) or "all alerts" for texts in (rule.source_texts, rule.target_texts))
        yield f"rule {rule.number}  {sources}  mutes  {targets}" + (
            f"  same {', '.join(rule.equal)}" if rule.equal else ""
        )


def _way(routes: list[Route], number: int) -> Iterator[int]:
    while number >= 0:
        yield number
        number = routes[number].parent


def _integrations(receiver: dict[str, Any]) -> str:
    kinds = {
        key.removesuffix("_configs"): len(value)
        for key, value in receiver.items()
        if key.endswith("_configs") and isinstance(value, list)
    }
    return ", ".join(kind if count == 1 else f"{kind} x{count}" for kind, count in sorted(kinds.items()) if count)


def _details(route: Route, routes: list[Route]) -> str:
    """Returns a route's grouping, times and time intervals, at the root all, and elsewhere those that it sets."""
    is_root = route.parent < 0
    parts = []
    grouping = route.value.get("group_by")
    if is_root or grouping is not None:
        parts.append(f"group_by {', '.join(map(str, grouping)) if grouping else 'nothing'}")
    for key in TIMES:
        value = route.value.get(key)
        if is_root or value is not None:
            parts.append(f"{key} {value if value is not None else DEFAULTS[key]}")
    for key, words in (("active_time_intervals", "active in"), ("mute_time_intervals", "muted by")):
        if route.value.get(key):
            parts.append(f"{words} {', '.join(map(str, route.value[key]))}")
    return "; ".join(parts)


def _rule_as_json(rule: Rule) -> dict[str, Any]:
    return {"number": rule.number, "source": rule.source_texts, "target": rule.target_texts, "equal": list(rule.equal)}


def _as_json(route: Route, routes: list[Route]) -> dict[str, Any]:
    settings = {key: route.setting(key, routes) or DEFAULTS[key] for key in TIMES}
    return {
        "number": route.number,
        "parent": None if route.parent < 0 else route.parent,
        "path": route.path,
        "matchers": route.matchers,
        "receiver": route.receiver,
        "continue": bool(route.value.get("continue")),
        "group_by": route.setting("group_by", routes) or [],
        **settings,
        "active_time_intervals": route.value.get("active_time_intervals") or [],
        "mute_time_intervals": route.value.get("mute_time_intervals") or [],
    }
