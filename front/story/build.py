"""Puts a story together: a first pass over the script, and then passes with ticks until no answer names a moment that wasn't asked."""

from __future__ import annotations

import tempfile
from bisect import bisect_left
from collections import defaultdict
from pathlib import Path
from typing import Any, Optional

from ..program import Source, session
from ..script import Script, plain_id, script_of
from .ask import Asker
from .config import routes_of
from .known import Known, known_of
from .model import AlertStory, First, Mark, Pairs, Row, Sent, SilenceStory, Story, WAITING, TOLD
from .posts import Loaded
from .record import RowKey, Tracked
from ..refusals import refused_event
from .ticks import ticked
from .walk import Note, Step, walk
from ..moments import nanoseconds

PASSES_AT_MOST = 8
TICKS_AT_MOST = 100_000


def story_of(source: Source, config: dict[str, Any]) -> Story:
    """Returns the story of a script under a configuration, whose value is given too. Raises the program's fault if it refuses a file."""
    script = script_of(Path(source.script).read_bytes())
    return story_from(source, config, script, walk(source, script))


def story_from(
    source: Source, config: dict[str, Any], script: Script, steps: list[Step], only: Optional[set[Pairs]] = None
) -> Story:
    """Returns the story of a script that was walked over, or of some of its alerts alone."""
    loaded = [Loaded(0, config), *(Loaded(step.number, step.event.value) for step in steps if _is_loaded(step))]
    known = known_of(steps, loaded) if only is None else known_of(steps, loaded).of(only)
    tracked, left_out = _asked(source, script, steps, known, loaded, only)
    return _put_together(steps, loaded, tracked, left_out)


def _is_loaded(step: Step) -> bool:
    return step.event.act == "reload" and step.refused is None


def _asked(
    source: Source,
    script: Script,
    steps: list[Step],
    known: Known,
    loaded: list[Loaded],
    only: Optional[set[Pairs]],
) -> tuple[list[Tracked], str]:
    """Asks in passes. Returns the alerts with what was recorded of them, and what was left out."""
    wanted = known.moments
    with tempfile.TemporaryDirectory() as room:
        path = Path(room) / "ticked.jsonl"
        for _ in range(PASSES_AT_MOST):
            script_ = ticked(script, steps, wanted)
            path.write_bytes(script_.text)
            named = (source.config_name or source.config, source.script_name or source.script)
            with session(Source(source.program, source.config, str(path), *named)) as opened:
                asker = Asker(opened, known, loaded, only)
                asker.ask(script_.samples)
            if not asker.past - wanted or len(wanted) > TICKS_AT_MOST:
                break
            wanted = wanted | asker.past
    left_out = known.left_out or ("some moments at which answers may change" if asker.past - wanted else "")
    return list(asker.watch.alerts.values()), left_out


def _put_together(steps: list[Step], loaded: list[Loaded], tracked: list[Tracked], left_out: str) -> Story:
    by_number = {step.number: step for step in steps}
    accepted = [step.at for step in steps if step.refused is None]
    notes = [note for step in steps for note in step.notes]
    _add_sent({each.labels: each for each in tracked}, notes)
    alerts = [
        AlertStory(each.labels, each.firings, _rows(each)) for each in sorted(tracked, key=lambda each: each.labels)
    ]
    return Story(
        start=accepted[0] if accepted else 0,
        end=accepted[-1] if accepted else 0,
        events=len(steps),
        alerts=[alert for alert in alerts if alert.firings or alert.rows],
        receivers=_receivers(loaded, notes),
        marks=[mark for mark in map(_mark, steps) if mark],
        silences=_silences(steps),
        configs=[each.config for each in loaded],
        config_starts=[by_number[each.number].at if each.number else 0 for each in loaded],
        unasked=left_out,
    )


def _add_sent(tracked: dict[Pairs, Tracked], notes: list[Note]) -> None:
    for note in notes:
        key: RowKey = (note.receiver, note.integration, note.place)
        for listed, is_firing in ((note.firing, True), (note.resolved, False)):
            for labels in listed:
                if labels in tracked:
                    tracked[labels].row(key).sent.append(Sent(note.at, is_firing, note.route))


def _rows(tracked: Tracked) -> list[Row]:
    rows = [tracked.rows[key] for key in sorted(tracked.rows)]
    for row in rows:
        told = [sent.at for sent in row.sent if sent.is_firing]
        for firing in tracked.firings:
            spans = row.spans_in(firing.posted, firing.end)
            index = bisect_left(told, firing.posted)
            at = told[index] if index < len(told) and told[index] <= firing.end else None
            if spans or at is not None:
                first = firing.end if at is None else at
                known = (
                    next((nanoseconds(span.line["at"]) for span in spans if span.verdict == TOLD), None)
                    if at is None
                    else None
                )
                waited = sum(
                    min(span.end, first) - span.start
                    for span in spans
                    if span.verdict == WAITING and span.start < first
                )
                row.firsts.append(First(firing, at, known, max(0, first - firing.fired), waited))
    return rows


def _receivers(loaded: list[Loaded], notes: list[Note]) -> dict[str, int]:
    counts: dict[str, int] = defaultdict(int)
    for each in loaded:
        for route in routes_of(each.config):
            counts.setdefault(route.receiver, 0)
    for note in notes:
        counts[note.receiver] += 1
    return dict(counts)


def _mark(step: Step) -> Mark | None:
    act, value = step.event.act, step.event.value
    if step.refused is not None:
        return Mark(step.at, "refused", refused_event(step.refused, act), step.number)
    if act == "label":
        return Mark(step.at, "label", str(value), step.number)
    return Mark(step.at, "reload", "the configuration was reloaded", step.number) if act == "reload" else None


def _silences(steps: list[Step]) -> dict[str, SilenceStory]:
    """Returns the silences as listed last, with who made them and why. A change in place leaves the id, and any other has a new one."""
    found: dict[str, SilenceStory] = {}
    for step in steps:
        posted = step.event.value if step.event.act == "silence" and step.refused is None else None
        ids = {each.id for each in step.silences or []}
        for each in step.silences or []:
            story = found.setdefault(each.id, SilenceStory(each.id, "", "", each.start, each.end))
            story.start, story.end = each.start, each.end
        if posted is not None:
            new_id = plain_id(step.event.new_id or "")
            story_ = found.get(new_id if new_id in ids else plain_id(str(posted.get("id") or "")))
            if story_ is not None:
                story_.created_by, story_.comment = _text(posted.get("createdBy")), _text(posted.get("comment"))
    return found


def _text(value: Any) -> str:
    return value if isinstance(value, str) else ""
