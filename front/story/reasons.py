"""All reasons of a span: the program's verdict is the first of them, and the others are what mutes the alert besides."""

from __future__ import annotations

from dataclasses import dataclass, replace
from typing import Iterable, Optional

from ..program import Source
from .model import Pairs, Row, Span, Story
from .mutes import MUTES, Mutes, mutes_of
from .times import TIMES, Times


@dataclass(frozen=True)
class Reasoned:
    """A part of a span, and what else mutes the alert all through it, in the order in which the program would name it."""

    span: Span
    also: tuple[Span, ...] = ()


class Reasons:
    """Finds all reasons of the spans of a story's rows."""

    def __init__(self, mutes: Mutes, times: Times) -> None:
        self.mutes = mutes
        self.times = times

    def of_row(self, row: Row) -> list[Reasoned]:
        """Returns the spans of a row, cut where a further reason begins or ends."""
        return [part for span in row.spans for part in self.of_span(row.alert, span)]

    def of_span(self, alert: Pairs, span: Span) -> list[Reasoned]:
        """Returns a span of an alert, cut where a further reason begins or ends."""
        near = self.others(alert, span)
        if not near:
            return [Reasoned(span)]
        edges = {edge for each in near for edge in (each.start, each.end) if span.start < edge < span.end}
        cuts = sorted({span.start, span.end, *edges})
        return _joined(
            Reasoned(
                replace(span, start=start, end=end),
                tuple(sorted((each for each in near if each.start <= start and end <= each.end), key=_order)),
            )
            for start, end in zip(cuts, cuts[1:])
        )

    def others(self, alert: Pairs, span: Span) -> list[Span]:
        """Returns what else mutes an alert within a span, cut to it."""
        if span.verdict not in MUTES:
            return []
        near = [
            replace(each, start=max(each.start, span.start), end=min(each.end, span.end))
            for each in [*self.mutes.of(alert), *self._times(span)]
            if each.start < span.end and each.end > span.start and not _is_same(each, span)
        ]
        return sorted(near, key=lambda each: (each.start, _order(each)))

    def _times(self, span: Span) -> list[Span]:
        if span.verdict in TIMES:
            return []
        return self.times.of_route(span.config, int(span.line["route"]), span.start, span.end)


def reasons_of(source: Source, story: Story, wanted: Iterable[Pairs], last_day: Optional[int] = None) -> Reasons:
    """Returns the reasons of a story's spans. Silences and sources are those of some alerts, in their order, as many as aren't too much."""
    return Reasons(mutes_of(source, story, wanted), Times(source.program, story, last_day))


def muted_by(span: Span) -> Optional[str | Pairs]:
    """Returns the id of the silence, or the labels of the source, that a span is muted by."""
    if span.verdict == "Silenced":
        return str(span.line["id"])
    if span.verdict == "Inhibited":
        return tuple(sorted(span.line["source"].items()))
    return None


def _is_same(one: Span, other: Span) -> bool:
    return one.verdict == other.verdict and muted_by(one) == muted_by(other)


def _order(span: Span) -> tuple[int, int, str]:
    return MUTES.index(span.verdict), span.line.get("rule", 0), str(muted_by(span))


def _joined(parts: Iterable[Reasoned]) -> list[Reasoned]:
    """Joins parts that follow each other and have the same reasons."""
    found: list[Reasoned] = []
    for part in parts:
        last = found[-1] if found else None
        if last and [each.line for each in last.also] == [each.line for each in part.also]:
            found[-1] = Reasoned(replace(last.span, end=part.span.end), last.also)
        else:
            found.append(part)
    return found
