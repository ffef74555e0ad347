"""The lines of a run as lines to read: `01:42:30 sre-pager/pagerduty ▲ CheckoutErrorRate{eu-1, checkout}`."""

from __future__ import annotations

import json
import re
from collections import Counter
from itertools import chain
from typing import Any, Iterable, Iterator

from .moments import clock_text, nanoseconds
from .refusals import refused_event
from .script import Event, Script, event_of, script_of
from .story.model import Pairs
from .story.names import NAME
from .story.walk import pairs_of
from .telling import printable

MARKS = {"firing": "▲", "resolved": "○"}
ALERTS_AT_MOST = 5
WIDTH_AT_MOST = 40
PLAIN = re.compile(r'[^\s,={}"]+')


def text_of(lines: Iterable[dict[str, Any]], config: dict[str, Any], script: bytes) -> Iterator[str]:
    """Yields a text for each line of a run, as it comes. With the first, the program has accepted the script, which is read only then."""
    text = None
    for line in lines:
        text = text or _Text(config, script_of(script))
        yield printable(text.of(line))


class _Text:
    """The texts of lines, by what a script's events are, and by the labels that tell its alerts apart."""

    def __init__(self, config: dict[str, Any], script: Script) -> None:
        self._lines = script.lines
        days: set[str] = set()
        alerts: set[Pairs] = set()
        for event in map(event_of, script.lines):
            days.add(clock_text(nanoseconds(event.at), True)[:10])
            if event.act == "alerts":
                alerts.update(pairs_of(alert["labels"]) for alert in event.value)
        self._with_date = len(days) > 1
        self._telling = _telling_labels(alerts)
        self._width = min(max(map(len, _integrations(config)), default=0), WIDTH_AT_MOST)

    def of(self, line: dict[str, Any]) -> str:
        """Returns the text of a notification, a label, a refused event, or skipped alerts."""
        if "receiver" in line:
            return self._notification(line)
        event = self._event(line["event"])
        return f"{self._moment(event.at)} event {line['event']}: {_happened(line, event)}"

    def _notification(self, line: dict[str, Any]) -> str:
        place = f" {line['place'] + 1}" if line["place"] else ""
        told = [f"{mark} {self._alerts(line[key])}" for key, mark in MARKS.items() if line[key]]
        to = f"{line['receiver']}/{line['integration']}{place}"
        return f"{self._moment(line['at'])} {to:{self._width}} {' '.join(told)}"

    def _alerts(self, alerts: list[dict[str, Any]]) -> str:
        names = [self._alert(each["labels"]) for each in alerts[:ALERTS_AT_MOST]]
        more = len(alerts) - len(names)
        return ", ".join(names) + (f" and {more:,} more" if more else "")

    def _alert(self, labels: dict[str, str]) -> str:
        """Returns an alert's name, and the values by which it differs from others of its name, with their labels where not all of them have one. An
        alert without a name has all its labels."""
        name = labels.get(NAME, "")
        telling = self._telling.get(name, {}) if name else dict.fromkeys(labels, False)
        shown = [
            _plain(value) if telling[label] else f"{label}={_plain(value)}"
            for label, value in labels.items()
            if label in telling
        ]
        return name + (f"{{{', '.join(shown)}}}" if shown else "")

    def _event(self, number: int) -> Event:
        return event_of(self._lines[number - 1])

    def _moment(self, at: str) -> str:
        return clock_text(nanoseconds(at), self._with_date)


def _plain(value: str) -> str:
    """Returns a value as it is, or in quotes where it could be taken for more than one."""
    return value if PLAIN.fullmatch(value) else json.dumps(value, ensure_ascii=False)


def _happened(line: dict[str, Any], event: Event) -> str:
    if "reason" in line:
        return refused_event(line["reason"], event.act)
    if "skipped" in line:
        return f"alerts were skipped, since they are invalid: {', '.join(map(str, line['skipped']))}, counted from 1"
    return str(line["label"])


def _telling_labels(alerts: set[Pairs]) -> dict[str, dict[str, bool]]:
    """Returns for each name the labels by which its alerts differ, and of each label whether all of them have it."""
    by_name: dict[str, list[Pairs]] = {}
    for labels in alerts:
        by_name.setdefault(dict(labels).get(NAME, ""), []).append(labels)
    found = {}
    for name, listed in by_name.items():
        differing = set(chain(*listed)) - set(listed[0]).intersection(*listed)
        counts = Counter(label for labels in listed for label, _ in labels)
        found[name] = {label: counts[label] == len(listed) for label, _ in differing}
    return found


def _integrations(config: dict[str, Any]) -> Iterator[str]:
    for receiver in config.get("receivers") or []:
        yield from (
            f"{receiver['name']}/{key.removesuffix('_configs')}" for key in receiver if key.endswith("_configs")
        )
