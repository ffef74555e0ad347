"""The lines of the script, in the order of their moments."""

from __future__ import annotations

import functools
import json
from dataclasses import dataclass
from typing import Any, Iterable, Iterator

from ..moments import MINUTE, moment_text
from .alertmanager import Silence, StoredAlert
from .alerts import Posted
from .faults import fault

LINE_BYTES_AT_MOST = 1_000_000
EVENTS_AT_MOST = 1_000_000
STAYS_ACTIVE = 5 * MINUTE
LATENESS = 10_000_000
ENCODER = json.JSONEncoder(ensure_ascii=False, separators=(",", ":"))


@dataclass(frozen=True)
class Line:
    """A line: its moment, its rank among lines of one moment, and its text."""

    at: int
    rank: int
    text: str


def label_line(at: int, text: str) -> Line:
    """Returns an event that only says something."""
    return Line(at, 0, _json({"at": moment_text(at), "label": text}))


def silence_line(silence: Silence, start: int) -> Line:
    """Returns the post of a silence: when it began, or before that if it waited, and not before the script begins."""
    at = max(start, min(silence.starts_at, silence.updated_at))
    posted = {
        "matchers": silence.matchers,
        "startsAt": moment_text(silence.starts_at),
        "endsAt": moment_text(silence.ends_at),
        "createdBy": silence.created_by,
        "comment": silence.comment,
    }
    return Line(at, 1, _json({"at": moment_text(at), "silence": posted, "newId": silence.id}))


def arrival(at: int, end: int) -> int:
    """Returns when a post arrives: a little after its evaluation, and the less the later it is.

    Times such as 30 seconds and five minutes are multiples of most evaluation intervals, so a flush often comes at the very
    moment of an evaluation. In Alertmanager it takes what is posted then, since its timers run late.
    """
    return at + (end - at) // LATENESS


def alert_lines(posted: Iterable[Posted], end: int) -> Iterator[Line]:
    """Yields a line for each evaluation of a group, with the alerts that it posted, in the order of their labels."""
    evaluations: dict[tuple[int, str], list[Posted]] = {}
    for each in posted:
        evaluations.setdefault((each.post.at, each.group), []).append(each)
    for (at, _), found in sorted(evaluations.items()):
        found.sort(key=lambda each: list(each.labels.items()))
        yield from _post_lines(arrival(at, end), [_posted_alert(each) for each in found])


def other_lines(alert: StoredAlert, start: int, end: int) -> Iterator[Line]:
    """Yields the posts of an alert whose sender isn't known: one at its start, and its last."""
    first = max(start, alert.starts_at)
    stays_until = max(alert.ends_at, alert.updated_at + STAYS_ACTIVE)
    if first < min(alert.updated_at, end):
        yield from _post_lines(first, [_stored_alert(alert, stays_until)])
    if first <= alert.updated_at <= end:
        yield from _post_lines(alert.updated_at, [_stored_alert(alert, alert.ends_at)])


def in_order(lines: Iterable[Line], end: int) -> list[str]:
    """Returns the texts of the lines up to a moment, to which time passes at the end."""
    found = sorted((line for line in lines if line.at <= end), key=lambda line: (line.at, line.rank, line.text))
    if len(found) + 1 > EVENTS_AT_MOST:
        raise fault(f"more than {EVENTS_AT_MOST} events; ask for a shorter span")
    tick = _json({"at": moment_text(end), "tick": True})
    return [_json({"v": 2}), *(line.text for line in found), tick]


def _posted_alert(each: Posted) -> dict[str, Any]:
    return _alert(each.labels, each.annotations, each.post.starts_at, each.post.ends_at)


def _stored_alert(alert: StoredAlert, ends_at: int) -> dict[str, Any]:
    labels, annotations = (dict(sorted(texts.items())) for texts in (alert.labels, alert.annotations))
    return _alert(labels, annotations, alert.starts_at, ends_at)


def _alert(labels: dict[str, str], annotations: dict[str, str], starts_at: int, ends_at: int) -> dict[str, Any]:
    times = {"startsAt": _moment(starts_at), "endsAt": _moment(ends_at)}
    return {"labels": labels, **({"annotations": annotations} if annotations else {}), **times}


def _post_lines(at: int, alerts: list[dict[str, Any]]) -> Iterator[Line]:
    """Yields one line, or more where one would be too long for a script."""
    held: list[str] = []
    size = 0
    for text in map(_json, alerts):
        more = len(text.encode()) + 1
        if held and size + more > LINE_BYTES_AT_MOST:
            yield _post_line(at, held)
            held, size = [], 0
        held.append(text)
        size += more
    yield _post_line(at, held)


def _post_line(at: int, alerts: list[str]) -> Line:
    return Line(at, 2, f'{{"at":{_json(_moment(at))},"alerts":[{",".join(alerts)}]}}')


def _json(value: Any) -> str:
    return ENCODER.encode(value)


@functools.lru_cache(maxsize=65_536)
def _moment(moment: int) -> str:
    return moment_text(moment)
