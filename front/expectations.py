"""Expectations: lines that say which receiver is notified of which alerts by when, or never; and how they fail."""

from __future__ import annotations

import json
from dataclasses import dataclass
from typing import Any, Iterator, Optional

from .labels import contains
from .moments import length_text, moment_text, nanoseconds
from .program import Fault
from .story.model import Pairs, Row, Story
from .story.names import Names
from .telling import span_lines

KEYS = ("labels", "receiver", "integration", "by", "never", "after")
REASONS_AT_MOST = 8


@dataclass(frozen=True)
class Expectation:
    """A line: a receiver is notified by a moment, or never, of each alert that has its labels. Alerts that fire only after that moment don't
    count, nor do notifications before `after`."""

    line: int
    labels: Pairs
    receiver: str
    integration: Optional[str]
    by: Optional[int]
    after: int

    def concerns(self, row: Row) -> bool:
        return row.receiver == self.receiver and self.integration in (None, row.integration)


@dataclass(frozen=True)
class Failure:
    """An expectation that fails: for which alert, if for one, and why, with the spans that explain it."""

    expectation: Expectation
    what: str
    reasons: list[str]


def expectations_in(text: str, name: str) -> list[Expectation]:
    """Reads expectations, a line each. Blank lines are skipped. Raises a fault with the line and what is wrong."""
    found = []
    for number, line in enumerate(text.split("\n"), 1):
        if line.strip():
            try:
                found.append(_expectation(number, json.loads(line)))
            except (ValueError, TypeError) as error:
                raise Fault(f"amreplay: {name}:{number}: {_why(error)}") from error
    return found


def _why(error: Exception) -> str:
    return f"no JSON: {error.msg} at column {error.colno}" if isinstance(error, json.JSONDecodeError) else str(error)


def _expectation(number: int, value: Any) -> Expectation:
    if not isinstance(value, dict):
        raise ValueError("an expectation is an object")
    for key in value:
        if key not in KEYS:
            raise ValueError(f"unknown key {key}; an expectation has {', '.join(KEYS)}")
    labels, receiver = value.get("labels"), value.get("receiver")
    if not isinstance(labels, dict) or not all(isinstance(each, str) for each in labels.values()):
        raise ValueError("labels is an object of texts")
    if not isinstance(receiver, str) or not isinstance(value.get("integration", ""), str):
        raise ValueError("receiver and integration are texts, and a receiver is required")
    if ("by" in value) == ("never" in value) or value.get("never", True) is not True:
        raise ValueError('an expectation has either "by":MOMENT or "never":true')
    by = _moment(value["by"], "by") if "by" in value else None
    after = _moment(value["after"], "after") if "after" in value else 0
    return Expectation(number, tuple(sorted(labels.items())), receiver, value.get("integration"), by, after)


def _moment(value: Any, key: str) -> int:
    try:
        return nanoseconds(value)
    except (ValueError, TypeError):
        raise ValueError(f"{key} is a moment such as 2024-05-01T10:05:00Z") from None


def failures_of(story: Story, expectations: list[Expectation]) -> list[Failure]:
    """Returns the expectations that fail, in order, once for each alert for which they do."""
    names = Names(story)
    return [failure for each in expectations for failure in _failures(story, each, names)]


def _failures(story: Story, each: Expectation, names: Names) -> Iterator[Failure]:
    if each.receiver not in story.receivers:
        yield Failure(each, f"no route names the receiver {each.receiver}", [])
        return
    having = [alert for alert in story.alerts if contains(alert.labels, each.labels)]
    alerts = [alert for alert in having if each.by is None or any(firing.fired <= each.by for firing in alert.firings)]
    if not having:
        yield Failure(each, f"none of the {len(story.alerts)} alerts has these labels", [])
    elif not alerts and each.by is not None:
        yield Failure(each, f"none of the alerts with these labels fires by {names.moment(each.by)}", [])
    for alert in alerts:
        rows = [row for row in alert.rows if each.concerns(row)]
        told = sorted(sent.at for row in rows for sent in row.sent if sent.is_firing and sent.at >= each.after)
        what = _what_fails(each, told, names)
        if what:
            yield Failure(each, f"{names.alert(alert.labels)}: {what}", _reasons(each, rows, told, names))


def _what_fails(each: Expectation, told: list[int], names: Names) -> str:
    """Returns how an expectation fails for an alert with these notifications, or nothing."""
    if each.by is None:
        return f"never expected, and notified at {names.moment(told[0])}" if told else ""
    if not told:
        return f"expected by {names.moment(each.by)}, and never notified"
    if told[0] <= each.by:
        return ""
    return f"expected by {names.moment(each.by)}, and notified at {names.moment(told[0])}, {length_text(told[0] - each.by)} late"


def _reasons(each: Expectation, rows: list[Row], told: list[int], names: Names) -> list[str]:
    """Returns why there was no notification before the first."""
    if each.by is None:
        return []
    if not rows:
        return ["  no route takes it to this receiver"]
    spans = rows[0].spans_in(each.after, told[0] if told else max((span.end for span in rows[0].spans), default=0))
    untold = [span for span in spans if span.verdict != "Told"]
    return span_lines(rows[0].alert, untold, names, REASONS_AT_MOST, "  ")


def recorded(story: Story) -> Iterator[dict[str, Any]]:
    """Yields an expectation for each alert and integration: by its first notification, or never, and by the first of each later firing."""
    for row in story.rows:
        if row.goes_nowhere:
            continue
        head = {"labels": dict(row.alert), "receiver": row.receiver, "integration": row.integration}
        notified = [first for first in row.firsts if first.at is not None]
        if not notified:
            yield {**head, "never": True}
        for first in notified:
            assert first.at is not None
            after = {"after": moment_text(first.firing.posted)} if first.firing.number > 1 else {}
            yield {**head, **after, "by": moment_text(first.at)}
