"""The story as JSON."""

from __future__ import annotations

from typing import Any, Optional

from .moments import SECOND, moment_text
from .story.model import First, Row, Span, Story
from .story.names import Names
from .story.reasons import Reasons
from .story.sections import Entry, entries_of


def as_json(
    story: Story, kept: Story, late_after: int, receiver: Optional[str], reasons: Optional[Reasons] = None
) -> dict[str, Any]:
    """Returns the story as an object. Moments are texts, and lengths are seconds."""
    names = Names(story)
    entries = entries_of(kept, late_after, receiver)
    return {
        "start": moment_text(story.start),
        "end": moment_text(story.end),
        "events": story.events,
        "receivers": story.receivers,
        "marks": [
            {"at": moment_text(each.at), "event": each.event, "kind": each.kind, "text": each.text}
            for each in story.marks
        ],
        "firings": [_firing(entry) for entry in entries],
        "rows": [_row(row, names, reasons) for row in kept.rows if receiver in (None, row.receiver)],
        "unasked": story.unasked,
    }


def _firing(entry: Entry) -> dict[str, Any]:
    firing = entry.firing
    return {
        "labels": dict(entry.alert),
        "number": firing.number,
        "section": entry.section,
        "fired": moment_text(firing.fired),
        "posted": moment_text(firing.posted),
        "end": None if firing.is_open else moment_text(firing.end),
        "receivers": [{**_whom(told.row), **_first(told.first), "late": told.is_late} for told in entry.told],
    }


def _whom(row: Row) -> dict[str, Any]:
    return {"receiver": row.receiver, "integration": row.integration, "place": row.place}


def _first(first: First) -> dict[str, Any]:
    return {
        "first": None if first.at is None else moment_text(first.at),
        "delay": None if first.at is None else first.delay / SECOND,
        "before": None if first.known is None else moment_text(first.known),
    }


def _row(row: Row, names: Names, reasons: Optional[Reasons]) -> dict[str, Any]:
    sent = [{"at": moment_text(each.at), "firing": each.is_firing, "route": each.route} for each in row.sent]
    return {
        "labels": dict(row.alert),
        **_whom(row),
        "sent": sent,
        "spans": [{**span_as_json(span, names), **_also(row, span, names, reasons)} for span in row.spans],
    }


def _also(row: Row, span: Span, names: Names, reasons: Optional[Reasons]) -> dict[str, Any]:
    """Returns what else mutes the alert within a span, where anything does."""
    found = reasons.others(row.alert, span) if reasons is not None else []
    return {"also": [span_as_json(each, names) for each in found]} if found else {}


def span_as_json(span: Span, names: Names) -> dict[str, Any]:
    """Returns a span with its reason in words and the program's own line."""
    return {
        "start": moment_text(span.start),
        "end": moment_text(span.end),
        "reason": names.reason(span),
        "answer": span.line,
    }
