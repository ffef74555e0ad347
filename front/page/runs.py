"""A run: one script under one configuration, collected from sessions and written for the page."""
from __future__ import annotations

import json
import re
from dataclasses import dataclass
from functools import partial
from pathlib import Path
from typing import Any

from ..moments import nanoseconds
from ..progress import Progress
from ..script import ACTS, Event, event_of
from . import flushes, histories
from .configs import Configs
from .histories import Entry, Key
from .rows import RowWriter
from .states import LISTS, Seen, Watched, watch
from .tables import Pairs, Tables
from .told import Telling, Told, told, trying
from .verdicts import Why, asking, containing, explained, known_alerts, planned
from .workers import Part, beside, over


NOT_GIVEN = re.compile(r"0001-01-01T00:00:00(\.0{1,9})?Z")


@dataclass
class Run:
    """What was collected of one run, with the events of its part. `named` has the alerts that each label set of `--explain` fits, and
    `tried` is the event that was put in, where one was."""

    name: str
    watched: Watched
    events: list[Event]
    explained: list[Why]
    flushes: dict[Key, list[tuple[int, str]]]
    told: Told
    named: list[list[Pairs]]
    tried: int | None = None


@dataclass(frozen=True)
class Thinning:
    """What is left out so that a page stays small: states between each so many events, explanations of alerts that weren't named."""

    stride: int = 1
    named_alone: bool = False


@dataclass(frozen=True)
class Wanted:
    """What is collected of each run: the alerts that are named, with a folder for scripts with ticks, and where progress is drawn."""

    named: list[Pairs]
    room: Path
    progress: Progress


def collect(name: str, telling: Telling, lines: list[bytes], part: Part, wanted: Wanted, has_trials: bool) -> Run:
    """Collects a run over the part. The lines are those of the script's events. The story is told beside the rest."""
    source = telling.source
    with beside(partial(told, telling)) as telling_of:
        watched = watch(source, part, wanted.progress, f"{name}: states")
        known = known_alerts(watched)
        named = [containing(known, labels) for labels in wanted.named]
        plan = planned(watched, [labels for each in named for labels in each])
        hidden = partial(flushes.flushes_between, source, lines, watched, wanted.room)
        between, *answers = over([hidden, *asking(source, plan)], part, f"{name}: explanations", wanted.progress)
        events = [event_of(line) for line in lines[part.first - 1 : part.last]]
        found = telling_of()
    if has_trials and found.mutes:
        tasks = trying(found, telling, wanted.room)
        tried = over(tasks, Part(1, len(tasks)), f"{name}: what would have been", wanted.progress)
        found.trials = [trial for trial in tried if trial is not None]
    return Run(name, watched, events, explained(plan, answers), between, found, named)


def notes_of(run: Run) -> list[tuple[int, dict[str, Any]]]:
    """Returns the notifications of the part, each with the number of its event."""
    return [(seen.cursor, line) for seen in _shown(run) for line in map(json.loads, seen.printed) if "receiver" in line]


def rows_of(run: Run, tables: Tables, configs: Configs) -> RowWriter:
    """Returns what writes the rows of a run."""
    return RowWriter(run.told, *_time_of(run), tables, configs)


def written(run: Run, thinning: Thinning, tables: Tables, rows: RowWriter) -> dict[str, Any]:
    """Returns the run as the page has it. Its verdicts come last, since all else may name some."""
    part = run.watched.part
    stops = [cursor for i, cursor in enumerate(run.watched.stops) if i % thinning.stride == 0 or cursor == part.last]
    lists = {name: _entries(run, name, stops, tables) for name in LISTS}
    return {
        "name": run.name,
        "first": part.first,
        "start": tables.text(run.watched.seen[0].now),
        "stops": [] if len(stops) == len(part) + 1 else stops,
        "tried": run.tried or 0,
        "events": [_event(seen, event, tables) for seen, event in zip(_shown(run), run.events)],
        "notes": [[cursor, *note(line, tables)] for cursor, line in notes_of(run)],
        "alerts": [[*entry.key, _flat(entry.values)] for entry in lists["alerts"]],
        "silences": [[*entry.key, _flat(entry.values)] for entry in lists["silences"]],
        "groups": [[*entry.key, _flat(_members_as_differences(entry))] for entry in lists["groups"]],
        "log": [[*entry.key, _flat(entry.values)] for entry in lists["log"]],
        "flushes": flushes.written(run.flushes, tables),
        **rows.written(),
        **_why(run, thinning.named_alone, rows, tables),
    }


def _time_of(run: Run) -> tuple[int, int]:
    """Returns from when to when the part is: from the beginning if it has the first event."""
    seen = run.watched.seen
    return (0 if run.watched.part.first == 1 else nanoseconds(seen[0].now)), nanoseconds(seen[-1].now)


def note(line: dict[str, Any], tables: Tables) -> list[Any]:
    """Returns what is written of a notification."""
    firing = [number for alert in line["firing"] for number in _notified(alert, ("startsAt",), tables)]
    resolved = [number for alert in line["resolved"] for number in _notified(alert, ("startsAt", "endsAt"), tables)]
    receiver, integration = tables.text(line["receiver"]), tables.text(line["integration"])
    group = tables.labels(line["groupLabels"])
    return [tables.text(line["at"]), receiver, integration, line["place"], line["route"], group, firing, resolved]


def act(event: Event, tables: Tables) -> list[Any]:
    """Returns what is written of an event: its moment as the script has it, the number of its act, and what the act holds."""
    return [tables.text(event.at), ACTS.index(event.act), _held(event, tables)]


def outcome(printed: list[bytes]) -> tuple[int, list[int]]:
    """Returns the reason that refused an event, or 0, and the positions of the alerts that were skipped."""
    reason = 0
    skipped: list[int] = []
    for line in map(json.loads, printed):
        reason = line.get("reason", reason)
        skipped = line.get("skipped", skipped)
    return reason, skipped


def _shown(run: Run) -> list[Seen]:
    return run.watched.seen[1:]


def _notified(alert: dict[str, Any], moments: tuple[str, ...], tables: Tables) -> list[int]:
    return [
        tables.labels(alert["labels"]),
        *(tables.text(alert[key]) for key in moments),
        tables.labels(alert["annotations"]),
    ]


def _event(seen: Seen, event: Event, tables: Tables) -> list[Any]:
    return [*act(event, tables), tables.text(seen.now), seen.moves, *outcome(seen.printed)]


def _held(event: Event, tables: Tables) -> Any:
    value = event.value
    if event.act == "alerts":
        return [_posted(alert, tables) for alert in value]
    if event.act == "silence":
        matchers = [_posted_matcher(each, tables) for each in value["matchers"]]
        moments = [tables.text(value["startsAt"]), tables.text(value["endsAt"])]
        maker = [tables.text(_said(value.get(key))) for key in ("createdBy", "comment")]
        return [tables.text(event.new_id), tables.text(value.get("id") or None), *moments, matchers, *maker]
    return tables.text(value) if event.act in ("expire", "label") else 0


def _said(text: Any) -> str | None:
    """Returns a text of the script that the program doesn't read, if it is one."""
    return text if isinstance(text, str) and text else None


def _posted(alert: dict[str, Any], tables: Tables) -> list[int]:
    moments = [tables.text(_given(alert.get(key))) for key in ("startsAt", "endsAt")]
    return [tables.labels(alert["labels"]), *moments, tables.labels(alert.get("annotations") or {})]


def _given(moment: str | None) -> str | None:
    """Returns a moment of a post, or None if it counts as not given."""
    return None if not moment or NOT_GIVEN.fullmatch(moment) else moment


def _posted_matcher(matcher: dict[str, Any], tables: Tables) -> list[int]:
    return histories.matcher_of({"isEqual": True, "isRegex": False, **_stated(matcher)}, tables)


def _stated(matcher: dict[str, Any]) -> dict[str, Any]:
    return {key: value for key, value in matcher.items() if value is not None}


def _entries(run: Run, name: str, stops: list[int], tables: Tables) -> list[Entry]:
    entries = histories.histories(run.watched, name, tables)
    return entries if len(stops) == len(run.watched.stops) else histories.thinned(entries, stops)


def _flat(values: histories.History) -> list[Any]:
    return [each for cursor, value in values for each in (cursor, 0 if value is None else value)]


def _members_as_differences(entry: Entry) -> histories.History:
    """Writes members that joined and left, and where the next flush alone differs its moment alone."""
    written_values: histories.History = []
    members: list[int] = []
    flushed = empty = None
    for cursor, value in entry.values:
        if value is None:
            written_values.append((cursor, None))
            members, flushed, empty = [], None, None
            continue
        moment, new_empty, new_flushed, new_members = value
        if (new_empty, new_flushed, new_members) == (empty, flushed, members):
            written_values.append((cursor, moment))
        else:
            joined = sorted(set(new_members) - set(members))
            left = sorted(set(members) - set(new_members))
            written_values.append((cursor, [moment, new_empty, new_flushed, joined, left]))
        members, flushed, empty = new_members, new_flushed, new_empty
    return written_values


def _why(run: Run, named_alone: bool, rows: RowWriter, tables: Tables) -> dict[str, Any]:
    """Writes each verdict and each list of verdicts once, and for each alert the cursors and its list there."""
    answers: dict[tuple[int, ...], int] = {}
    named = {labels for each in run.named for labels in each}
    alerts = [why for why in run.explained if why.labels in named or not named_alone]
    written_alerts = [_why_of(why, rows, answers, tables) for why in alerts]
    verdicts = [_verdict(json.loads(line), tables) for line in rows.verdicts]
    return {"verdicts": verdicts, "answers": list(answers), "why": written_alerts}


def _why_of(why: Why, rows: RowWriter, answers: dict[tuple[int, ...], int], tables: Tables) -> list[Any]:
    flat: list[int] = []
    for cursor, lines in why.answers:
        numbers = tuple(map(rows.verdict, lines))
        flat += [cursor, answers.setdefault(numbers, len(answers))]
    return [tables.labels(dict(why.labels)), flat]


def _verdict(line: dict[str, Any], tables: Tables) -> list[Any]:
    """Writes a verdict: its name, receiver, route, integration and place, and then whatever else its line has, by key."""
    rest = {
        key: value for key, value in line.items() if key not in ("verdict", "receiver", "route", "integration", "place")
    }
    head = [tables.text(line["verdict"]), tables.text(line.get("receiver")), line.get("route", 0)]
    head += [tables.text(line.get("integration")), line.get("place", 0)]
    return [*head, *(part for key, value in rest.items() for part in (tables.text(key), _rest(value, tables)))]


def _rest(value: Any, tables: Tables) -> Any:
    """Writes a text as its number in a list, labels as the number of their set in a list of two, and anything else as it is."""
    if isinstance(value, str):
        return [tables.text(value)]
    if isinstance(value, dict):
        return [0, tables.labels(value)]
    return value
