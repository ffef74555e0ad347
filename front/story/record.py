"""Keeps the answers of one alert as spans and firings."""

from __future__ import annotations

import functools
import json
from dataclasses import dataclass, field
from typing import Any, Optional

from ..moments import nanoseconds
from .model import DUE, NOWHERE, TOLD, WAITING, Firing, Pairs, Row, Span

RowKey = tuple[str, str, int]
NOT_FIRING = ("Unknown", "Ended")
# Of several routes to one integration that verdict counts that is nearest to a notification.
ORDER = {TOLD: 0, DUE: 1, WAITING: 2, NOWHERE: 9}
ANOTHER_ORDER = 3


@dataclass(frozen=True)
class Verdict:
    """A line of an answer, and what is looked up of it often. `kind` is what the answers of one span have in common: for a reason, all
    that it names."""

    line: dict[str, Any]
    name: str
    row: Optional[RowKey]
    route: int
    due: Optional[int]
    source: Optional[Pairs]
    silence: Optional[str]
    kind: tuple[Any, ...]
    order: int


@functools.lru_cache(maxsize=1 << 16)
def verdict_of(text: bytes) -> Verdict:
    """Reads a line of an answer."""
    line = json.loads(text)
    name, source, silence = line["verdict"], line.get("source"), line.get("id")
    due = line["due"] if name == WAITING else line["at"] if name == DUE else None
    row = (line["receiver"], line.get("integration", ""), line.get("place", 0)) if "receiver" in line else None
    pairs = None if source is None else tuple(source.items())
    route = line.get("route", -1)
    kind = (name,) if name in (WAITING, DUE, TOLD) else (name, route, line.get("rule"), pairs, silence)
    order = ORDER.get(name, ANOTHER_ORDER)
    return Verdict(line, name, row, route, None if due is None else nanoseconds(due), pairs, silence, kind, order)


@dataclass
class _Open:
    """A span that hasn't ended."""

    start: int
    verdict: Verdict
    config: int


@dataclass
class Tracked:
    """One alert: its last answer, and what was recorded of it."""

    labels: Pairs
    by_name: dict[str, str]
    command: str
    answer: list[Verdict] = field(default_factory=list)
    text: bytes = b""
    is_active: bool = False
    rows: dict[RowKey, Row] = field(default_factory=dict)
    firings: list[Firing] = field(default_factory=list)
    _open: dict[RowKey, _Open] = field(default_factory=dict)
    _began: tuple[int, int] = (0, 0)

    @staticmethod
    def of(labels: Pairs) -> Tracked:
        return Tracked(labels, dict(labels), "explain " + json.dumps(dict(labels), ensure_ascii=False))

    def record(self, at: int, text: bytes, config: int, fired: int | None) -> bool:
        """Records an answer. Returns whether it differs from the one before. `fired` is the start that was posted now, if any."""
        if text == self.text:
            return False
        self.text = text
        self.answer = [verdict_of(line) for line in text.split(b"\n")[:-1]]
        is_active = bool(self.answer) and self.answer[0].name not in NOT_FIRING
        if is_active and not self.is_active:
            self._begin_firing(at, fired)
        if self.is_active and not is_active:
            self._end_firing(at, False)
        self.is_active = is_active
        self._turn_to(_of_rows(self.answer) if is_active else {}, at, config)
        return True

    def finish(self, at: int) -> None:
        """Ends what is open, at the end of the story."""
        for key, span in self._open.items():
            if span.start == at:
                self.row(key).final = Span(at, at, span.verdict.line, span.config)
        self._turn_to({}, at, 0)
        if self.is_active:
            self._end_firing(at, True)

    def row(self, key: RowKey) -> Row:
        if key not in self.rows:
            self.rows[key] = Row(self.labels, *key)
        return self.rows[key]

    def is_told(self, key: RowKey) -> bool:
        span = self._open.get(key)
        return span is not None and span.verdict.name == TOLD

    def _begin_firing(self, at: int, fired: int | None) -> None:
        """Begins a firing. One that is posted again with a start before its last end goes on."""
        if self.firings and fired is not None and fired < self.firings[-1].end:
            last = self.firings.pop()
            self._began = (last.fired, last.posted)
        else:
            self._began = (at if fired is None else min(fired, at), at)

    def _end_firing(self, at: int, is_open: bool) -> None:
        self.firings.append(Firing(len(self.firings) + 1, *self._began, at, is_open))

    def _turn_to(self, verdicts: dict[RowKey, Verdict], at: int, config: int) -> None:
        for key, span in list(self._open.items()):
            verdict = verdicts.get(key)
            if (
                verdict is None
                or verdict.kind != span.verdict.kind
                or (config != span.config and len(verdict.kind) > 1)
            ):
                del self._open[key]
                if span.start < at:
                    _add(self.row(key).spans, span, at)
        for key, verdict in verdicts.items():
            if key not in self._open:
                self._open[key] = _Open(at, verdict, config)


def _of_rows(answer: list[Verdict]) -> dict[RowKey, Verdict]:
    verdicts: dict[RowKey, Verdict] = {}
    for verdict in answer:
        key = verdict.row
        if key is not None and (key not in verdicts or verdict.order < verdicts[key].order):
            verdicts[key] = verdict
    return verdicts


def _add(spans: list[Span], span: _Open, end: int) -> None:
    """Adds a span that ends, or lengthens the one before if nothing lies between and both say the same."""
    last = spans[-1] if spans else None
    verdict = span.verdict
    if last and last.end == span.start and len(verdict.kind) == 1 and last.verdict == verdict.name:
        spans[-1] = Span(last.start, end, last.line, last.config)
    else:
        spans.append(Span(span.start, end, verdict.line, span.config))
