"""What the first pass over the script tells of the moments at which answers change, and of the alerts whose answers may change there."""

from __future__ import annotations

from dataclasses import dataclass, field, replace

from ..moments import DAY, SECOND
from .config import edges_of, routes_of, sharing_entries
from .model import Pairs
from .posts import Loaded, Posted, ends_in, posts_in
from .record import RowKey
from .walk import Silence, Step

EDGES_AT_MOST = 5_000


@dataclass
class Told:
    """A notification: whom it is for, its firing alerts, and those that the one before it told of and it doesn't."""

    row: RowKey
    firing: tuple[Pairs, ...]
    gone: set[Pairs]


@dataclass
class Known:
    """By moment: notifications, beginnings and ends of silences, ends of alerts, and edges of time intervals. By event: the posted
    alerts, and the silences that it changed. `left_out` says what was too much."""

    told: dict[int, list[Told]] = field(default_factory=dict)
    begins: dict[int, list[Silence]] = field(default_factory=dict)
    ends: dict[int, set[str]] = field(default_factory=dict)
    resolved: dict[int, set[Pairs]] = field(default_factory=dict)
    edges: set[int] = field(default_factory=set)
    posts: dict[int, list[Posted]] = field(default_factory=dict)
    changed: dict[int, list[Silence]] = field(default_factory=dict)
    left_out: str = ""

    def of(self, some: set[Pairs]) -> Known:
        """Returns what concerns some alerts. All posts stay, since an alert may move the flush of others."""
        told = {
            at: [each for each in listed if not some.isdisjoint(each.firing) or not some.isdisjoint(each.gone)]
            for at, listed in self.told.items()
        }
        resolved = {at: ended & some for at, ended in self.resolved.items() if not ended.isdisjoint(some)}
        return replace(self, told={at: listed for at, listed in told.items() if listed}, resolved=resolved)

    @property
    def moments(self) -> set[int]:
        return {*self.told, *self.begins, *self.ends, *self.resolved, *self.edges}


def known_of(steps: list[Step], loaded: list[Loaded]) -> Known:
    """Collects what is known after the first pass."""
    known = Known(posts=posts_in(steps, loaded))
    known.resolved = ends_in(steps, known.posts)
    _add_notes(known, steps)
    _add_silences(known, steps)
    _add_edges(known, steps, loaded)
    _note_shared_entries(known, loaded)
    return known


def _add_notes(known: Known, steps: list[Step]) -> None:
    last: dict[object, set[Pairs]] = {}
    for note in (note for step in steps for note in step.notes):
        firing = set(note.firing)
        gone = last.get(note.key, set()) - firing
        last[note.key] = firing
        row = (note.receiver, note.integration, note.place)
        known.told.setdefault(note.at, []).append(Told(row, note.firing, gone))


def _add_silences(known: Known, steps: list[Step]) -> None:
    before: dict[str, Silence] = {}
    for step in steps:
        if step.silences is None:
            continue
        changed = [each for each in step.silences if before.get(each.id) != each]
        for each in changed:
            known.begins.setdefault(each.start, []).append(each)
            known.ends.setdefault(each.end, set()).add(each.id)
        known.changed[step.number] = changed
        before = {each.id: each for each in step.silences}


def _add_edges(known: Known, steps: list[Step], loaded: list[Loaded]) -> None:
    seconds: set[int] = set()
    for each in loaded:
        seconds |= edges_of(each.config)
    if not steps or not seconds:
        return
    first, last = min(step.at for step in steps) // DAY, max(step.at for step in steps) // DAY
    if len(seconds) * (last - first + 1) > EDGES_AT_MOST:
        known.left_out = "the edges of time intervals, over so many days"
        return
    known.edges = {day * DAY + second * SECOND for day in range(first, last + 1) for second in seconds}


def _note_shared_entries(known: Known, loaded: list[Loaded]) -> None:
    """Notes routes of which one may change what the notification log says for the other without a notification."""
    pairs = {pair for each in loaded for pair in sharing_entries(routes_of(each.config))}
    if pairs and not known.left_out:
        listed = ", ".join(f"{one} and {other}" for one, other in sorted(pairs)[:3])
        known.left_out = f"flushes that change the notification log alone, where routes share its entries ({listed})"
