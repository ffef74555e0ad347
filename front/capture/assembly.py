"""Joins what several Prometheus servers and an Alertmanager know into one script, with what is to be said of it."""

from __future__ import annotations

from dataclasses import dataclass, field
from typing import Any, Iterator

from ..moments import SECOND
from .alertmanager import Alertmanager, StoredAlert
from .alerts import Derived, Posted, derive
from .prometheus import Change, Prometheus
from .script import Line, alert_lines, in_order, label_line, other_lines, silence_line

STARTS_TAKE = 10 * SECOND


@dataclass(frozen=True)
class Span:
    """The span that was asked for, and the start of what is read before it."""

    history: int
    start: int
    end: int


@dataclass
class Assembly:
    """The lines of the script, and what was found."""

    span: Span
    config: Any
    zones: list[str]
    alertmanager: Alertmanager | None
    prometheus: list[Prometheus]
    derived: list[Derived]
    changes: list[Change]
    others: list[StoredAlert]
    silences: int
    delays: list[int]
    lines: list[str] = field(default_factory=list)

    def script(self) -> bytes:
        """Returns the bytes of the script."""
        return "".join(line + "\n" for line in self.lines).encode()

    @property
    def posted(self) -> list[Posted]:
        """All posts of all servers."""
        return [each for derived in self.derived for each in derived.posted]


def assemble(
    found: list[Prometheus], alertmanager: Alertmanager | None, span: Span, config: Any, zones: list[str]
) -> Assembly:
    """Returns the script of a span, with what was found."""
    history, end = span.history, span.end
    derived = [derive(each, history, end) for each in found]
    known = {_key(each.labels) for one in derived for each in one.posted}
    stored = alertmanager.alerts if alertmanager else []
    others = [alert for alert in stored if _key(alert.labels) not in known and alert.starts_at <= end]
    silences = (
        [each for each in alertmanager.silences if each.starts_at <= end and each.ends_at > history]
        if alertmanager
        else []
    )
    changes = _changes(found, alertmanager, history, end)
    assembly = Assembly(span, config, zones, alertmanager, found, derived, changes, others, len(silences), [])
    assembly.delays = _delays(assembly.posted, [alert for alert in stored if alert.updated_at <= end])
    lines = [silence_line(each, history) for each in silences]
    lines += [line for one in derived for line in alert_lines(one.posted, end)]
    lines += [line for alert in others for line in other_lines(alert, history, end)]
    lines += _labels(changes, span)
    assembly.lines = in_order(lines, end)
    return assembly


def _key(labels: dict[str, str]) -> tuple[tuple[str, str], ...]:
    return tuple(sorted(labels.items()))


def _changes(found: list[Prometheus], alertmanager: Alertmanager | None, start: int, end: int) -> list[Change]:
    """Returns the starts and reloads within a span. A start reads the configuration too, which is no change of its own."""
    changes = {change for each in found for change in each.changes}
    if alertmanager and alertmanager.started is not None and not _is_known(alertmanager.started, changes):
        changes.add(Change(alertmanager.started, "start", "alertmanager", ""))
    starts = [change for change in changes if change.kind == "start"]
    kept = [
        change for change in changes if change.kind == "start" or not any(_is_part_of(change, each) for each in starts)
    ]
    return sorted(
        (each for each in kept if start <= each.at <= end), key=lambda each: (each.at, each.process, each.instance)
    )


def _is_known(started: int, changes: set[Change]) -> bool:
    return any(c.kind == "start" and c.process == "alertmanager" and abs(started - c.at) < STARTS_TAKE for c in changes)


def _is_part_of(change: Change, start: Change) -> bool:
    is_same = (change.process, change.instance) == (start.process, start.instance)
    return is_same and 0 <= change.at - start.at < STARTS_TAKE


def _labels(changes: list[Change], span: Span) -> Iterator[Line]:
    if span.history < span.start:
        yield label_line(
            span.start,
            "the span that was asked for begins; what is before it was captured to begin from the right state",
        )
    for change in changes:
        yield label_line(change.at, label_of(change))


def label_of(change: Change) -> str:
    """Returns what is said of a start or a reload, with what isn't known of it."""
    where = f"{change.process} {change.instance}".strip()
    if change.process == "prometheus":
        return f"{where} was started" if change.kind == "start" else f"{where} loaded its configuration again"
    if change.kind == "start":
        return f"{where} was started: its groups began anew, and until the next posts it knew no alert; the replay knows nothing of it"
    return f"{where} loaded its configuration again: its groups began anew; what it was before isn't known, and the replay keeps its groups"


def _delays(posted: list[Posted], stored: list[StoredAlert]) -> list[int]:
    """Returns, for each alert that is stored, how long after the last evaluation that posted it it was updated."""
    moments: dict[tuple[tuple[str, str], ...], list[int]] = {}
    for each in posted:
        moments.setdefault(_key(each.labels), []).append(each.post.at)
    found = []
    for alert in stored:
        before = [at for at in moments.get(_key(alert.labels), []) if at <= alert.updated_at]
        if before:
            found.append(alert.updated_at - max(before))
    return sorted(found)
