"""Which alerts nobody was notified of, which late, which some receivers never, and which as expected."""

from __future__ import annotations

from dataclasses import dataclass
from typing import Optional

from ..moments import MINUTE
from .model import AlertStory, DUE, NOWHERE, TOLD, WAITING, First, Firing, Pairs, Row, Span, Story

NOBODY, LATE, SOME, EXPECTED, NO_INTEGRATION = "nobody", "late", "some", "expected", "nowhere"
SECTIONS = (NOBODY, LATE, SOME, EXPECTED, NO_INTEGRATION)
LATE_AFTER = 2 * MINUTE


@dataclass(frozen=True)
class Told:
    """One firing of an alert for one integration of a receiver: its first notification, and the spans up to it, or until the firing's end."""

    row: Row
    first: First
    spans: list[Span]
    is_late: bool

    @property
    def reasons(self) -> list[Span]:
        """The spans that say why there was no notification. Waiting for a flush counts if there is nothing else."""
        kept = [span for span in self.spans if span.verdict not in (TOLD, NOWHERE)]
        return [span for span in kept if span.verdict != WAITING] or kept


@dataclass(frozen=True)
class Entry:
    """One firing of an alert, in a section, with all that its receivers were told of it."""

    alert: Pairs
    firing: Firing
    section: str
    told: list[Told]


def entries_of(story: Story, late_after: int = LATE_AFTER, receiver: Optional[str] = None) -> list[Entry]:
    """Returns an entry for each firing of each alert, in the order of their starts. Of the receivers one alone may count."""
    found = [entry for alert in story.alerts for entry in _entries(alert, late_after, receiver)]
    return sorted(found, key=lambda entry: (entry.firing.fired, entry.alert))


def by_section(entries: list[Entry]) -> list[Pairs]:
    """Returns the alerts of some firings, those in the first section first."""
    return list(dict.fromkeys(entry.alert for section in SECTIONS for entry in entries if entry.section == section))


def _entries(alert: AlertStory, late_after: int, receiver: Optional[str]) -> list[Entry]:
    told = [
        _told(row, first, late_after) for row in alert.rows if receiver in (None, row.receiver) for first in row.firsts
    ]
    found = []
    for firing in alert.firings:
        of_firing = [each for each in told if each.first.firing is firing]
        if of_firing or receiver is None:
            found.append(Entry(alert.labels, firing, _section(of_firing), of_firing))
    return found


def _told(row: Row, first: First, late_after: int) -> Told:
    end = first.firing.end if first.at is None else first.at
    spans = row.spans_in(first.firing.posted, end)
    return Told(row, first, spans, first.at is not None and first.delay - first.waited > late_after)


def _section(told: list[Told]) -> str:
    wanted = [each for each in told if not each.row.goes_nowhere]
    if told and not wanted:
        return NO_INTEGRATION
    notified = [each for each in wanted if each.first.is_notified]
    if not notified:
        return NOBODY
    if any(each.is_late for each in notified):
        return LATE
    return EXPECTED if len(notified) == len(wanted) else SOME


def is_waiting(span: Span) -> bool:
    """Returns whether the alert only waited for a flush."""
    return span.verdict in (WAITING, DUE)
