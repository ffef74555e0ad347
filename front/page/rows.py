"""Writes a story for the page: a row for each alert and integration, with its spans and their reasons."""

from __future__ import annotations

import json
from dataclasses import replace
from typing import Any

from ..moments import moment_text
from ..story import Row, Span
from ..story.differing import KINDS, LOST, NEW, SAME, Difference, differences_of, moment_of
from ..story.mutes import MUTES
from ..story.reasons import Reasoned
from ..story.sections import SECTIONS, Entry, Told as ToldOf, entries_of
from ..story.times import TIMES
from .configs import Configs
from .tables import Tables
from .told import Told, Without, key_of


ALSO_AT_MOST = 8
HELD_AT_MOST = 500


class RowWriter:
    """Writes the rows of one run. Each verdict is written once, as the program's own line."""

    def __init__(self, told: Told, first: int, last: int, tables: Tables, configs: Configs) -> None:
        self.verdicts: dict[bytes, int] = {}
        self.story = told.story
        self._told = told
        self._first = first
        self._last = last
        self._tables = tables
        self._configs = configs
        self._numbers = [configs.number(config) for config in told.story.configs]
        self._rows = [row for row in told.story.rows if any(self._is_shown(span) for span in row.spans)]
        self._indexes = {key_of(row): index for index, row in enumerate(self._rows)}

    def written(self) -> dict[str, Any]:
        """Returns the rows, the receivers and the configurations of the run, as the page has them."""
        story = self._told.story
        starts = [0, *(self._moment(at) for at in story.config_starts[1:])]
        return {
            "rows": [self._row(row) for row in self._rows],
            "entries": [self._entry(entry) for entry in entries_of(story) if self._has(entry)],
            "receivers": [[self._tables.text(name), count] for name, count in sorted(story.receivers.items())],
            "configs": [list(each) for each in zip(starts, self._numbers)],
            "firstAlone": self._first_alone(),
            "times": self._times(),
            "unasked": self._tables.text(f"Not all was asked: {story.unasked}." if story.unasked else None),
        }

    def trials(self) -> list[Any]:
        """Returns the trials, as the page has them."""
        return [self._trial(trial) for trial in self._told.trials]

    def _times(self) -> list[Any]:
        """Writes when the time intervals hold that routes use: whether they mute, whether routes are active then, and from when to when."""
        story, times = self._told.story, self._told.reasons.times
        if not times.is_whole:
            return []
        edges = [max(self._first, story.start), *story.config_starts[1:], self._last]
        held: dict[str, list[tuple[int, int]]] = {}
        uses: dict[str, set[str]] = {}
        for config, (start, end) in enumerate(zip(edges, edges[1:])):
            for name, use in times.used(config):
                uses.setdefault(name, set()).add(use)
                found = times.held(config, name, max(start, edges[0]), min(end, self._last))
                listed = held.setdefault(name, [])
                listed += [each for each in found if each not in listed]
        return [
            [
                self._tables.text(name),
                int("mute" in uses[name]),
                int("active" in uses[name]),
                [self._moment(at) for span in _merged(spans)[:HELD_AT_MOST] for at in span],
            ]
            for name, spans in held.items()
        ]

    def _first_alone(self) -> list[int]:
        """Returns the alerts of whose mutes the first alone is known."""
        muted = {row.alert for row in self._rows if any(span.verdict in MUTES for span in row.spans)}
        return [self._tables.labels(dict(alert)) for alert in sorted(muted) if not self._told.asked(alert)]

    def verdict(self, line: bytes) -> int:
        """Returns the number of a verdict, by the program's line."""
        return self.verdicts.setdefault(line, len(self.verdicts))

    def index(self, row: Row) -> int:
        """Returns the index of a row on the page, or -1."""
        return self._indexes.get(key_of(row), -1)

    def span(self, span: Span) -> list[Any]:
        """Returns a span as the page has it."""
        return self._span(Reasoned(span))

    def _has(self, entry: Entry) -> bool:
        return entry.firing.posted <= self._last and entry.firing.end >= self._first

    def _entry(self, entry: Entry) -> list[Any]:
        """Writes a firing of an alert: from when to when, its section, and what each row got of it first."""
        firing = entry.firing
        told = [
            [
                self.index(each.row),
                self._moment_or_0(each.first.at),
                self._moment_or_0(each.first.known),
                each.first.delay // 1_000_000,
                int(each.is_late),
            ]
            for each in entry.told
            if self.index(each.row) >= 0
        ]
        end = 0 if firing.is_open else self._moment(firing.end)
        return [
            self._tables.labels(dict(entry.alert)),
            self._moment(firing.fired),
            end,
            SECTIONS.index(entry.section),
            told,
        ]

    def _moment_or_0(self, moment: int | None) -> int:
        return 0 if moment is None else self._moment(moment)

    def _is_shown(self, span: Span) -> bool:
        return span.start <= self._last and span.end > self._first

    def _moment(self, moment: int) -> int:
        return self._tables.text(moment_text(moment))

    def _row(self, row: Row) -> list[Any]:
        spans = _joined([self._span(each) for each in self._told.reasoned[key_of(row)] if self._is_shown(each.span)])
        names = [self._tables.text(row.receiver), self._tables.text(row.integration or None), row.place]
        return [self._tables.labels(dict(row.alert)), *names, spans]

    def _span(self, reasoned: Reasoned) -> list[Any]:
        span = replace(
            reasoned.span, start=max(reasoned.span.start, self._first), end=min(reasoned.span.end, self._last)
        )
        also = [[self._verdict_of(each), *self._muting(each, span.start)] for each in reasoned.also[:ALSO_AT_MOST]]
        more = max(0, len(reasoned.also) - ALSO_AT_MOST)
        written = [
            self._moment(span.start),
            self._moment(span.end),
            self._verdict_of(span),
            *self._muting(span, span.start),
        ]
        if also:
            return [*written, also, more] if more else [*written, also]
        return written if written[3] else written[:3]

    def _verdict_of(self, span: Span) -> int:
        return self.verdict(json.dumps(span.line, ensure_ascii=False, separators=(",", ":"), sort_keys=True).encode())

    def _muting(self, span: Span, at: int) -> list[Any]:
        """Writes which intervals muted at a moment, and until when; or 0 and 0."""
        if span.verdict not in TIMES:
            return [0, 0]
        names, until = self._told.reasons.times.muting(span.config, span.line["route"], at)
        return [[self._tables.text(name) for name in names], 0 if until is None else self._moment(until)]

    def _trial(self, trial: Without) -> list[Any]:
        is_silence = isinstance(trial.what, str)
        what = self._tables.text(trial.what) if isinstance(trial.what, str) else self._tables.labels(dict(trial.what))
        rows = [
            [self._indexes[each.key], self._moment_or_0(each.first), [self.span(span) for span in each.spans]]
            for each in trial.outcomes
            if each.key in self._indexes
        ]
        return [0 if is_silence else 1, what, trial.more, trial.fewer, rows]


def _merged(spans: list[tuple[int, int]]) -> list[tuple[int, int]]:
    """Joins times that follow each other."""
    merged: list[tuple[int, int]] = []
    for start, end in spans:
        if merged and merged[-1][1] >= start:
            merged[-1] = (merged[-1][0], max(end, merged[-1][1]))
        else:
            merged.append((start, end))
    return merged


def _joined(spans: list[list[Any]]) -> list[list[Any]]:
    """Joins spans that follow each other and say the same, as before and after a reload."""
    joined: list[list[Any]] = []
    for span in spans:
        if joined and joined[-1][1] == span[0] and joined[-1][2:] == span[2:]:
            joined[-1][1] = span[1]
        else:
            joined.append(span)
    return joined


def differences(first: RowWriter, second: RowWriter, tables: Tables) -> dict[str, Any]:
    """Returns how the first notifications of two runs differ, as the page has it: how many are the same, and the others in the order of their kinds."""
    found = differences_of(first.story, second.story)
    others = sorted((each for each in found if each.kind != SAME), key=lambda each: KINDS.index(each.kind))
    same = sum(each.kind == SAME and moment_of(each.before) is not None for each in found)
    return {"same": same, "others": [_difference(each, first, second, tables) for each in others]}


def _difference(each: Difference, first: RowWriter, second: RowWriter, tables: Tables) -> list[Any]:
    """Writes a difference: its kind, the row, both moments, the gain, and the longest reason of the run that has no notification."""
    moments = [
        0 if at is None else tables.text(moment_text(at)) for at in (moment_of(each.before), moment_of(each.after))
    ]
    row = [
        tables.labels(dict(each.alert)),
        tables.text(each.row.receiver),
        tables.text(each.row.integration or None),
        each.row.place,
    ]
    reason: Any = 0
    if each.kind == LOST:
        reason = _reason(each.after, second)
    elif each.kind == NEW:
        reason = _reason(each.before, first)
    return [KINDS.index(each.kind), *row, *moments, each.gain // 1_000_000, reason]


def _reason(told: ToldOf | None, writer: RowWriter) -> Any:
    """Returns the longest reason, or -1 where the receiver had nothing to do with the alert."""
    if told is None:
        return -1
    longest = max(told.reasons, key=lambda span: span.end - span.start, default=None)
    return writer.span(longest) if longest else 0
