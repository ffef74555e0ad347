"""What a story is: for each alert and receiver, the verdicts over time, and when it was notified of the alert."""

from __future__ import annotations

from dataclasses import dataclass, field
from typing import Any, Optional

Pairs = tuple[tuple[str, str], ...]

# Verdicts with which a receiver isn't kept from a notification. All others but `Nowhere` are reasons why it gets none.
WAITING, DUE, TOLD, NOWHERE = "Waiting", "Due", "Told", "Nowhere"


@dataclass(frozen=True)
class Span:
    """From `start` to just before `end` the program's verdict was this one. `line` is its own line at the start, and `config` the
    index in `Story.configs` of the configuration in force."""

    start: int
    end: int
    line: dict[str, Any]
    config: int = 0

    @property
    def verdict(self) -> str:
        return str(self.line["verdict"])


@dataclass(frozen=True)
class Sent:
    """A notification that a receiver got with this alert, as firing or as resolved."""

    at: int
    is_firing: bool
    route: int


@dataclass(frozen=True)
class Firing:
    """One time that an alert fired: from its start, from its first post, and until it was resolved or the script ended. `number` counts
    from 1 the firings of an alert, and is_open says that it fires at the end of the script."""

    number: int
    fired: int
    posted: int
    end: int
    is_open: bool


@dataclass(frozen=True)
class First:
    """What a receiver first got of one firing. `at` is None if it got nothing in that time, and `known` is the moment of an earlier
    notification with the alert firing that still held then. `delay` is from the firing's start, and `waited` is as much of it as
    its group's first flush took."""

    firing: Firing
    at: int | None
    known: int | None
    delay: int
    waited: int

    @property
    def is_notified(self) -> bool:
        return self.at is not None or self.known is not None


@dataclass
class Row:
    """One alert and one integration of a receiver: its spans, with gaps while the alert doesn't fire, what it was sent, and the first
    notification of each firing. `final` is a verdict that only the last moment of the story has. A receiver without integrations has one
    row, with an empty `integration`."""

    alert: Pairs
    receiver: str
    integration: str
    place: int
    spans: list[Span] = field(default_factory=list)
    sent: list[Sent] = field(default_factory=list)
    firsts: list[First] = field(default_factory=list)
    final: Optional[Span] = None

    @property
    def goes_nowhere(self) -> bool:
        return not self.integration

    @property
    def is_notified(self) -> bool:
        return any(sent.is_firing for sent in self.sent)

    def spans_in(self, start: int, end: int) -> list[Span]:
        """Returns the spans of a time, cut to it."""
        cut = [Span(max(span.start, start), min(span.end, end), span.line, span.config) for span in self.spans]
        return [span for span in cut if span.start < span.end]


@dataclass
class AlertStory:
    """One alert: its label set, its firings, and its rows by receiver, integration and place."""

    labels: Pairs
    firings: list[Firing]
    rows: list[Row]


@dataclass(frozen=True)
class Mark:
    """Something that happened at a moment: a `label`, a `reload`, or a `refused` event (its text then says why). `event` is the
    event's number, from 1."""

    at: int
    kind: str
    text: str
    event: int


@dataclass
class SilenceStory:
    """A silence: who made it and why, as the script's line has it, and when it was active as the program listed it last."""

    id: str
    created_by: str
    comment: str
    start: int
    end: int


@dataclass
class Story:
    """What a script did under a configuration. `configs` are the configurations in force, in order: that of the start, and those of
    accepted reloads. `receivers` has the number of notifications of each receiver that one of them names. `unasked` says what wasn't
    asked, and is empty otherwise."""

    start: int
    end: int
    events: int
    alerts: list[AlertStory]
    receivers: dict[str, int]
    marks: list[Mark]
    silences: dict[str, SilenceStory]
    configs: list[dict[str, Any]]
    config_starts: list[int]
    unasked: str = ""

    @property
    def rows(self) -> list[Row]:
        return [row for alert in self.alerts for row in alert.rows]
