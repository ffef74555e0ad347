"""Collects what a page is made of, and puts it together."""

from __future__ import annotations

import argparse
import json
from dataclasses import dataclass, replace
from pathlib import Path
from typing import Any

from ..diff import without_reloads
from ..inputs import Given, Inputs, opened, shown, times_of
from ..moments import DAY, moment_text, nanoseconds
from ..program import Fault, Source, answers_of
from ..progress import Progress
from ..refusals import REASONS
from ..script import Event, Script, event_of, script_of
from ..story.times import DAYS_AFTER
from ..telling import count_text
from . import document
from .compare import compare
from .configs import Configs
from .rows import differences
from .runs import Run, Thinning, Wanted, act, collect, note, notes_of, outcome, rows_of, written
from .states import count_events
from .tables import Pairs, Tables
from .told import Telling, reloads_of
from .workers import Part

EVENTS_AT_MOST = 20_000
PAGE_BYTES_AT_MOST = 10_000_000


class Options(argparse.Namespace):
    """The words of the command line."""

    config: str
    script: str
    output: str | None
    title: str | None
    against: str | None
    ignore_reloads: bool
    tried: str | None
    start: str | None
    end: str | None
    explain: list[str]
    named: list[Pairs]


@dataclass(frozen=True)
class Trial:
    """An event that never happened: where it was tried, and what the session answered."""

    event: Event
    cursor: int
    moves: int
    printed: list[bytes]


@dataclass(frozen=True)
class Replay:
    """What is replayed for a run: the files, the value of the configuration, and the last day of which its time intervals are known, if not all."""

    source: Source
    config: dict[str, Any]
    last_day: int | None


@dataclass(frozen=True)
class Collected:
    """All that a page is made of. The runs are those of the script, of the other configuration, and with the tried event."""

    runs: list[Run]
    kinds: list[str]
    trial: Trial | None
    events: int
    wanted: Part
    notices: list[str]


def make(options: Options) -> str:
    """Returns the page as a text."""
    progress = Progress()
    try:
        with opened() as inputs:
            return _fitting(_collected(options, inputs, Wanted(options.named, inputs.room, progress)), options)
    finally:
        progress.clear()


def _collected(options: Options, inputs: Inputs, wanted: Wanted) -> Collected:
    given = inputs.script(options.script)
    used = without_reloads(given) if options.ignore_reloads else given
    replay = _replay(options.config, inputs, used)
    count = count_events(replay.source)
    script = script_of(used.data) if count else Script([], [], b"")
    other = _other(options, inputs, used)
    whole = _part(options, script.lines)
    part = Part(whole.first, min(whole.last, whole.first + EVENTS_AT_MOST - 1))
    trial = _trial(replay.source, options.tried) if options.tried is not None else None
    names = _names([path for path in (options.config, options.against) if path is not None])
    runs, kinds = [_run(names[0], replay, script.lines, part, wanted, True)], ["as it was"]
    if other is not None:
        runs.append(_run(names[1], other, script.lines, part, wanted, False))
        kinds.append("against")
    if trial is not None and part.first - 1 <= trial.cursor <= part.last:
        runs.append(_with_tried(options, names[0], replay, script, part, trial, wanted))
        kinds.append("tried")
    notices = [*_explain_notices(runs[0], options), *_reload_notices(options, runs[0], given.data)]
    return Collected(runs, kinds, trial, count, whole, notices)


def _run(name: str, replay: Replay, lines: list[bytes], part: Part, wanted: Wanted, has_trials: bool) -> Run:
    telling = Telling(replay.source, replay.config, tuple(wanted.named), replay.last_day)
    return collect(name, telling, lines, part, wanted, has_trials)


def _replay(path: str, inputs: Inputs, script: Given) -> Replay:
    """Reads a configuration. Its time intervals are known for some days after the script, so that the page can say until when they mute."""
    config = inputs.config(path, script, DAYS_AFTER)
    times = times_of(script.data)
    last_day = times[1] // DAY + DAYS_AFTER if config.in_zones and times else None
    return Replay(inputs.source(config, script), config.value, last_day)


def _other(options: Options, inputs: Inputs, script: Given) -> Replay | None:
    """Returns what is replayed under the other configuration, if one is given."""
    if options.against is None:
        return None
    replay = _replay(options.against, inputs, script)
    count_events(replay.source)
    return replay


def _part(options: Options, lines: list[bytes]) -> Part:
    """Returns the events that are wanted."""
    count = len(lines)
    first = 1 if options.start is None else _position(options.start, lines, "--from")
    last = count if options.end is None else _position(options.end, lines, "--to")
    if first < 1 or last > count or first > last + 1 or (first > last and (options.start or options.end) is not None):
        raise Fault(f"amreplay: there is no event from {options.start or 1} to {options.end or count}", 2)
    return Part(first, last)


def _position(text: str, lines: list[bytes], option: str) -> int:
    """Returns the number of an event: as it is written, or of the first from a moment on, or of the last up to it."""
    if text.isascii() and text.isdigit():
        return int(text)
    try:
        moment = nanoseconds(text)
    except ValueError:
        raise Fault(f"amreplay: {option} takes the number of an event, or a moment", 2) from None
    moments = [nanoseconds(event_of(line).at) for line in lines]
    if option == "--from":
        return next((i for i, at in enumerate(moments, 1) if at >= moment), len(lines) + 1)
    return next((i for i in range(len(lines), 0, -1) if moments[i - 1] <= moment), 0)


def _trial(source: Source, text: str) -> Trial:
    """Tries an event after all events that aren't after it."""
    try:
        event = event_of(text.encode())
    except (ValueError, StopIteration, KeyError, TypeError):
        raise Fault("amreplay: --try takes a line of a script", 2) from None
    _, answer = answers_of(source, [f"seek-time {event.at}", f"trial {' '.join(text.splitlines())}"])
    if "refused" in answer.last:
        raise Fault(f"amreplay: --try takes a line of a script; the session refused it, {answer.last['refused']}", 2)
    return Trial(event, answer.last["cursor"], answer.last["moves"], answer.lines)


def _with_tried(
    options: Options, name: str, replay: Replay, script: Script, part: Part, trial: Trial, wanted: Wanted
) -> Run:
    """Collects the run of the script with the tried event in its place."""
    tried = (options.tried or "").replace("\n", " ").encode()
    lines = [*script.lines[: trial.cursor], tried, *script.lines[trial.cursor :]]
    file = wanted.room / "tried.jsonl"
    file.write_bytes(script.text(lines))
    changed = replace(replay, source=replace(replay.source, script=str(file)))
    run = _run(name, changed, lines, Part(part.first, part.last + 1), wanted, False)
    run.tried = trial.cursor + 1
    return run


def _explain_notices(run: Run, options: Options) -> list[str]:
    """Says of --explain how many alerts have its labels, if it isn't one."""
    counts = [(text, len(found)) for text, found in zip(options.explain, run.named) if len(found) != 1]
    return [
        f"--explain {text}: {count or 'no'} alert{'s have' if count else ' has'} these labels."
        for text, count in counts
    ]


def _reload_notices(options: Options, run: Run, script: bytes) -> list[str]:
    """Says that the script reloads, where that matters to a comparison, and whether its reloads are left out."""
    if options.ignore_reloads:
        return [f"Left out: {count_text(len(reloads_of(script)), 'reload')} of the script."]
    reloads = [moment_text(mark.at) for mark in run.told.story.marks if mark.kind == "reload"]
    if options.against is None or not reloads:
        return []
    return [
        f"The script reloads its configuration at {', '.join(reloads[:3])}{', and later' if len(reloads) > 3 else ''}: "
        "from then on both runs have what it loads. --ignore-reloads leaves that out."
    ]


def _fitting(collected: Collected, options: Options) -> str:
    """Returns the page. Where it is too large, explanations that weren't asked for are left out first, and then states."""
    longest = max(len(run.watched.seen) for run in collected.runs)
    thinning = Thinning()
    while True:
        text = document.page(_title(options), _data(collected, thinning, options))
        size = len(text.encode())
        if size <= PAGE_BYTES_AT_MOST:
            return text
        if thinning.stride > longest:
            raise Fault(f"amreplay: the page would have {size:,} bytes; cut a part with --from and --to", 1)
        thinning = Thinning(thinning.stride * 2, True) if thinning.named_alone else Thinning(1, True)


def _data(collected: Collected, thinning: Thinning, options: Options) -> dict[str, Any]:
    tables, configs = Tables(), Configs()
    rows = [rows_of(run, tables, configs) for run in collected.runs]
    trials = rows[0].trials()
    differ = [differences(rows[0], other, tables) for other in rows[1:]]
    notes = [[line for _, line in notes_of(run)] for run in collected.runs]
    compared = [compare(notes[0], other) for other in notes[1:]]
    first = collected.runs[0]
    return {
        "heading": options.title or "",
        "script": _names([options.script])[0],
        "total": collected.events,
        "wanted": [collected.wanted.first, collected.wanted.last],
        "runs": [written(run, thinning, tables, each) for run, each in zip(collected.runs, rows)],
        "kinds": collected.kinds,
        "compared": [[each.first_alone, each.second_alone, each.moved] for each in compared],
        "trial": _written_trial(collected.trial, tables) if collected.trial else 0,
        "differences": differ,
        "trials": trials,
        "named": [tables.labels(dict(labels)) for each in first.named for labels in each],
        "mutes": len(first.told.mutes),
        "notices": collected.notices,
        "reasons": REASONS,
        "configs": configs.written(),
        **tables.written(),
    }


def _written_trial(trial: Trial, tables: Tables) -> list[Any]:
    notes = [note(line, tables) for line in map(json.loads, trial.printed) if "receiver" in line]
    return [act(trial.event, tables), trial.cursor, trial.moves, *outcome(trial.printed), notes]


def _title(options: Options) -> str:
    script, config = _names([options.script])[0], _names([options.config])[0]
    return options.title or f"Incident: {script} under {config}"


def _names(paths: list[str]) -> list[str]:
    """Returns short names of files: as many of the last parts of their paths as tell them apart."""
    parts = [Path(shown(path)).parts for path in paths]
    longest = max(map(len, parts))
    for count in range(1, longest):
        names = [str(Path(*each[-count:])) if each else shown(path) for each, path in zip(parts, paths)]
        if len(set(names)) == len(set(paths)):
            return names
    return [shown(path) for path in paths]
