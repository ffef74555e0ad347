"""The story in text."""

from __future__ import annotations

import time
from dataclasses import dataclass
from typing import Iterator, Optional

from .moments import SECOND, clock_text, length_text
from .story.model import NOWHERE, Pairs, Span, Story
from .story.names import Names, is_one_day
from .story.reasons import Reasons
from .story.sections import (
    EXPECTED,
    LATE,
    LATE_AFTER,
    NO_INTEGRATION,
    NOBODY,
    SECTIONS,
    SOME,
    Entry,
    Told,
    by_section,
    entries_of,
)
from .telling import count_text, joined, printable, receivers_text, span_lines

TITLES = {
    NOBODY: "NOBODY WAS NOTIFIED",
    LATE: "LATE",
    SOME: "SOME RECEIVERS NEVER",
    EXPECTED: "AS EXPECTED",
    NO_INTEGRATION: "ONLY TO RECEIVERS WITHOUT INTEGRATIONS",
}
COUNTED = {
    NOBODY: "notified nobody",
    LATE: "late",
    SOME: "not to all receivers",
    EXPECTED: "as expected",
    NO_INTEGRATION: "only to receivers without integrations",
}
ENTRIES_AT_MOST = 100
SPANS_AT_MOST = 12
MARKS_AT_MOST = 20


@dataclass(frozen=True)
class Telling:
    """How the story is told: after how long a notification is late, of which receiver alone, and whether in full."""

    late_after: int = LATE_AFTER
    receiver: Optional[str] = None
    is_full: bool = False


def text_of(
    story: Story, kept: Optional[Story] = None, telling: Telling = Telling(), reasons: Optional[Reasons] = None
) -> str:
    """Returns the text of a story, with the first reasons of its spans or all. `kept` has some of its alerts alone."""
    return "".join(f"{printable(line)}\n" for line in _lines(story, kept or story, telling, reasons))


def told_in_full(kept: Story, telling: Telling) -> list[Pairs]:
    """Returns the alerts whose reasons the text has."""
    entries = entries_of(kept, telling.late_after, telling.receiver)
    if telling.is_full:
        return by_section(entries)
    sections = [[entry for entry in entries if entry.section == section] for section in SECTIONS if section != EXPECTED]
    return by_section([entry for listed in sections for entry in listed[:ENTRIES_AT_MOST]])


def _lines(story: Story, kept: Story, telling: Telling, reasons: Optional[Reasons]) -> Iterator[str]:
    entries = entries_of(kept, telling.late_after, telling.receiver)
    names = Names(story, reasons)
    yield from _head(story, kept, entries, names, telling)
    for section in SECTIONS:
        listed = [entry for entry in entries if entry.section == section]
        if not listed:
            continue
        note = f", more than {length_text(telling.late_after)} besides group_wait" if section == LATE else ""
        yield ""
        yield f"{TITLES[section]} ({len(listed)}){note}"
        at_most = len(listed) if telling.is_full else ENTRIES_AT_MOST
        for entry in listed[:at_most]:
            yield from _entry(entry, names, telling)
        if listed[at_most:]:
            yield f"  .. and {len(listed) - at_most} more; --all lists them, --alert LABELS some"


def _head(story: Story, kept: Story, entries: list[Entry], names: Names, telling: Telling) -> Iterator[str]:
    yield f"{_time(story)}: {count_text(story.events, 'event')}, {count_text(len(story.alerts), 'alert')}, " + count_text(
        sum(story.receivers.values()), "notification"
    )
    counts = {section: sum(entry.section == section for entry in entries) for section in SECTIONS}
    told = ", ".join(f"{count} {COUNTED[section]}" for section, count in counts.items() if count)
    yield f"{count_text(len(entries), 'firing')}: {told}" if entries else "no alert fired"
    silent = (
        [] if telling.receiver or kept is not story else [name for name, count in story.receivers.items() if not count]
    )
    if silent:
        yield f"receivers that were notified of nothing: {', '.join(silent)}"
    for mark in story.marks[:MARKS_AT_MOST]:
        yield f"{names.moment(mark.at)}  event {mark.event}: {mark.text}"
    if story.marks[MARKS_AT_MOST:]:
        yield f".. and {len(story.marks) - MARKS_AT_MOST} more labels, reloads and refused events"
    if story.unasked:
        yield f"not asked: {story.unasked}"


def _time(story: Story) -> str:
    """Returns from when to when, in UTC, with the day of the week."""
    if not story.events:
        return "no time"
    day = time.strftime("%a ", time.gmtime(story.start // SECOND))
    return f"{day}{clock_text(story.start, True)} to {clock_text(story.end, not is_one_day(story))} UTC"


def _entry(entry: Entry, names: Names, telling: Telling) -> Iterator[str]:
    firing = entry.firing
    end = "and still fires at the end" if firing.is_open else f"to {names.moment(firing.end)}"
    posted = (
        f", first posted {names.moment(firing.posted)}" if firing.posted - firing.fired > telling.late_after else ""
    )
    if entry.section == EXPECTED and not telling.is_full:
        fired = f" fired {names.moment(firing.fired)}" if firing.number > 1 else ""
        yield f"  {names.alert(entry.alert)}{fired}: {_in_short(entry, names)}"
        return
    yield f"  {names.alert(entry.alert)}  fired {names.moment(firing.fired)} {end}{posted}"
    for told in _alike(entry.told, names, telling):
        yield f"    {receivers_text([each.row for each in told])}: {_first(told[0], names)}"
        yield from _spans(told[0], names, telling)


def _in_short(entry: Entry, names: Names) -> str:
    return "; ".join(
        f"{receivers_text([each.row for each in told])} {_first(told[0], names)}"
        for told in _alike(entry.told, names, Telling())
    )


def _alike(told: list[Told], names: Names, telling: Telling) -> list[list[Told]]:
    """Puts together what differs in receiver and integration alone."""
    found: dict[object, list[Told]] = {}
    for each in told:
        spans = tuple((span.start, span.end, names.reason(span)) for span in _shown(each, telling))
        found.setdefault((each.first.at, each.first.known, each.row.goes_nowhere, spans), []).append(each)
    return list(found.values())


def _first(told: Told, names: Names) -> str:
    first = told.first
    if first.at is not None:
        return f"{names.moment(first.at)}, {length_text(first.delay)} after its start"
    if first.known is not None:
        return f"notified before, at {names.moment(first.known)}"
    return "no integration" if told.row.goes_nowhere else "never"


def _shown(told: Told, telling: Telling) -> list[Span]:
    """Returns the spans that are told: those that say why, and in full all of the firing."""
    if telling.is_full:
        return told.row.spans_in(told.first.firing.posted, told.first.firing.end)
    if told.first.known is not None or (told.first.at is not None and not told.is_late):
        return []
    return [span for span in told.reasons if span.verdict != NOWHERE]


def _spans(told: Told, names: Names, telling: Telling) -> list[str]:
    spans = _shown(told, telling)
    lines = span_lines(told.row.alert, spans, names, len(spans) if telling.is_full else SPANS_AT_MOST, "      ")
    final = told.row.final if told.first.firing.is_open and (telling.is_full or not told.first.is_notified) else None
    return [*lines, f"      {names.moment(final.start)}, the end  {names.reason(final)}"] if final else lines
