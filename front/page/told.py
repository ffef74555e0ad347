"""What is told of a run beside its states: its story, all reasons of its spans, and what would have been without a silence or a source."""

from __future__ import annotations

import json
import time
from collections import Counter
from dataclasses import dataclass, field
from functools import partial
from pathlib import Path
from typing import Any, Callable, Counter as TypingCounter, Optional

from ..program import Source
from ..script import Event, Script, event_of, lines_of, plain_id, script_of
from ..story import Pairs, Row, Span, Story
from ..story.build import story_from
from ..story.mutes import sources_of
from ..story.reasons import Reasoned, Reasons, muted_by, reasons_of
from ..story.sections import by_section, entries_of
from ..story.walk import Step, walk
from .workers import Task, count_done

# Trials of a run: as many as make this many events in all, but some always, and none is begun after so many seconds.
TRIALS_AT_MOST, FEW_TRIALS = 200, 16
EVENTS_AT_MOST = 160_000
SECONDS_AT_MOST = 12.0

RowKey = tuple[Pairs, str, str, int]
Change = Callable[[dict[str, Any], Event], dict[str, Any]]
Notes = TypingCounter[Any]


@dataclass(frozen=True)
class Outcome:
    """A row without what muted it: its first notification, or None, and its spans where it was muted by that."""

    key: RowKey
    first: int | None
    spans: list[Span]


@dataclass(frozen=True)
class Without:
    """What would have been without a silence (its id), or without a source (its labels)."""

    what: str | Pairs
    more: int
    fewer: int
    outcomes: list[Outcome]


@dataclass
class Told:
    """A story, its spans with all their reasons, its notifications and refused events, and the trials. `mutes` are the silences and sources that
    could be tried, those first that cost most."""

    story: Story
    reasons: Reasons
    reasoned: dict[RowKey, list[Reasoned]]
    notes: Notes
    refused: set[int]
    mutes: list[str | Pairs]
    trials: list[Without] = field(default_factory=list)

    def asked(self, alert: Pairs) -> bool:
        """Returns whether all reasons of an alert were asked."""
        return self.reasons.mutes.has(alert)


@dataclass(frozen=True)
class Telling:
    """What is told of a run: its files, and the labels of the alerts that are named, a part of theirs suffices. `last_day` is the last day of
    which time intervals are known, if not all are."""

    source: Source
    config: dict[str, Any]
    named: tuple[Pairs, ...] = ()
    last_day: Optional[int] = None


def told(telling: Telling) -> Told:
    """Tells the story of a run, with all reasons of as many alerts as isn't too much: first those that are named, and then as they are listed."""
    source = telling.source
    script = script_of(Path(source.script).read_bytes())
    steps = walk(source, script)
    story = story_from(source, telling.config, script, steps)
    listed = by_section(entries_of(story))
    named = [alert for alert in listed if any(set(labels) <= set(alert) for labels in telling.named)]
    reasons = reasons_of(source, story, dict.fromkeys([*named, *listed]), telling.last_day)
    reasoned = {key_of(row): reasons.of_row(row) for row in story.rows}
    refused = {step.number for step in steps if step.refused is not None}
    return Told(story, reasons, reasoned, _notes(steps), refused, _mutes(story, set(named)))


def key_of(row: Row) -> RowKey:
    return row.alert, row.receiver, row.integration, row.place


def trying(found: Told, telling: Telling, room: Path) -> list[Task]:
    """Returns the tasks that try what would have been, those first that may have cost most. Each gives a trial, or None if it was too late."""
    at_most = max(FEW_TRIALS, min(TRIALS_AT_MOST, EVENTS_AT_MOST // max(1, found.story.events)))
    until = time.monotonic() + SECONDS_AT_MOST
    return [
        partial(_try, found, telling, room / f"without-{index}", what, until)
        for index, what in enumerate(found.mutes[:at_most])
    ]


def _try(found: Told, telling: Telling, file: Path, what: str | Pairs, until: float) -> Optional[Without]:
    """Replays the script without a silence or a source, and asks about the alerts that it muted."""
    if time.monotonic() > until:
        return None
    change = without_silence(what) if isinstance(what, str) else without_source(what)
    script = _changed(Path(telling.source.script), change, found.refused)
    file.write_bytes(script.text(script.lines))
    source = Source(telling.source.program, telling.source.config, str(file))
    steps = walk(source, script)
    muted = {row.alert for row in found.story.rows if any(muted_by(span) == what for span in row.spans)}
    only = muted | sources_of(found.story, muted)
    other = story_from(source, telling.config, script, steps, only)
    count_done()
    before, after = found.notes, _notes(steps)
    outcomes = _outcomes(found.story, {key_of(row): row for row in other.rows}, what)
    return Without(what, sum((after - before).values()), sum((before - after).values()), outcomes)


def _notes(steps: list[Step]) -> Notes:
    """Counts notifications by whom they are for, and which alerts of which group they tell of."""
    return Counter((note.key, note.firing, note.resolved) for step in steps for note in step.notes)


def _changed(path: Path, change: Change, refused: set[int]) -> Script:
    """Returns a script with each event that wasn't refused changed."""
    script = script_of(path.read_bytes())
    lines = []
    for number, line in enumerate(script.lines, 1):
        value = json.loads(line)
        changed = value if number in refused else change(value, event_of(line))
        lines.append(line if changed is value else json.dumps(changed, ensure_ascii=False).encode())
    return Script(lines, script.numbers, script.version)


def _mutes(story: Story, named: set[Pairs]) -> list[str | Pairs]:
    """Returns the silences and the sources that muted rows: first those that muted alerts that are named, and then those that cost the most
    notifications."""
    weights: dict[str | Pairs, tuple[bool, int, int]] = {}
    for row in story.rows:
        lengths: TypingCounter[str | Pairs] = Counter()
        for span in row.spans:
            what = muted_by(span)
            if what is not None:
                lengths[what] += span.end - span.start
        for what, length in lengths.items():
            is_named, rows, lasted = weights.get(what, (False, 0, 0))
            weights[what] = (is_named or row.alert in named, rows + (not row.is_notified), lasted + length)
    return sorted(weights, key=lambda what: (weights[what], str(what)), reverse=True)


def _outcomes(story: Story, others: dict[RowKey, Row], what: str | Pairs) -> list[Outcome]:
    outcomes = []
    for row in story.rows:
        muted = [span for span in row.spans if muted_by(span) == what]
        other = others.get(key_of(row))
        if muted and other:
            first = next((sent.at for sent in other.sent if sent.is_firing), None)
            outcomes.append(
                Outcome(key_of(row), first, [part for span in muted for part in other.spans_in(span.start, span.end)])
            )
    return outcomes


def without_silence(id_: str) -> Change:
    """Returns the change that leaves out a silence: its post becomes a tick, and so do its changes and its expiry. Where it was made by
    changing another one, that one still ends there."""

    def change(value: dict[str, Any], event: Event) -> dict[str, Any]:
        tick = {"at": value["at"], "tick": True}
        if event.act == "expire":
            return tick if plain_id(event.value) == id_ else value
        if event.act != "silence":
            return value
        changed = plain_id(event.value.get("id") or "")
        if changed == id_:
            return tick
        if plain_id(event.new_id or "") != id_:
            return value
        return {"at": value["at"], "expire": changed} if changed else tick

    return change


def without_source(labels: Pairs) -> Change:
    """Returns the change that leaves out an alert from all posts. A post of nothing else becomes a tick."""

    def change(value: dict[str, Any], event: Event) -> dict[str, Any]:
        if event.act != "alerts":
            return value
        kept = [alert for alert in event.value if _pairs(alert["labels"]) != labels]
        if len(kept) == len(event.value):
            return value
        return {**value, "alerts": kept} if kept else {"at": value["at"], "tick": True}

    return change


def _pairs(labels: dict[str, str]) -> Pairs:
    return tuple(sorted(pair for pair in labels.items() if pair[1]))


def reloads_of(script: bytes) -> list[str]:
    """Returns the moments of the reloads of a script."""
    return [event_of(line).at for line in lines_of(script) if b'"reload"' in line and event_of(line).act == "reload"]
