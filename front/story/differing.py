"""How the stories of one script under two configurations differ: which notifications are lost, new, later and earlier."""

from __future__ import annotations

from dataclasses import dataclass
from typing import Optional

from .model import First, Firing, Pairs, Row, Story
from .sections import Told, entries_of

LOST, NEW, LATER, EARLIER, SAME = "lost", "new", "later", "earlier", "same"
KINDS = (LOST, LATER, NEW, EARLIER, SAME)


@dataclass(frozen=True)
class Difference:
    """One firing of an alert for one integration, under both configurations. It is None where the receiver had nothing to do with it."""

    alert: Pairs
    firing: Firing
    row: Row
    before: Optional[Told]
    after: Optional[Told]

    @property
    def kind(self) -> str:
        first, second = moment_of(self.before), moment_of(self.after)
        if first is None or second is None:
            return SAME if first == second else LOST if second is None else NEW
        return SAME if first == second else LATER if second > first else EARLIER

    @property
    def gain(self) -> int:
        """By how much the second is earlier."""
        first, second = moment_of(self.before), moment_of(self.after)
        return 0 if first is None or second is None else first - second


def moment_of(told: Optional[Told]) -> Optional[int]:
    """Returns when a receiver knew first of a firing: an earlier notification that still held counts as at the firing's start."""
    if told is None:
        return None
    first: First = told.first
    return first.at if first.at is not None else first.firing.fired if first.known is not None else None


def differences_of(before: Story, after: Story) -> list[Difference]:
    """Returns a difference for each firing and integration of either story, receivers without integrations aside."""
    first, second = _told_of(before), _told_of(after)
    found = []
    for key in [*first, *(key for key in second if key not in first)]:
        one, other = first.get(key), second.get(key)
        told = one or other
        assert told is not None
        found.append(Difference(key[0], told.first.firing, told.row, one, other))
    return sorted(found, key=lambda each: (each.firing.fired, each.alert, each.row.receiver, each.row.integration))


def _told_of(story: Story) -> dict[tuple[Pairs, int, str, str, int], Told]:
    return {
        (entry.alert, entry.firing.posted, told.row.receiver, told.row.integration, told.row.place): told
        for entry in entries_of(story)
        for told in entry.told
        if not told.row.goes_nowhere
    }
