"""The script as it is: what each event is and printed, the clock after it, and the silences. The first pass over it, in one session."""

from __future__ import annotations

import json
from dataclasses import dataclass, field
from typing import Any, Iterator

from ..moments import nanoseconds
from ..program import Source, converse
from ..script import Event, Script, event_of
from .model import Pairs

LISTING = ("silence", "expire")


@dataclass(frozen=True)
class Note:
    """A notification, as far as the story needs it."""

    at: int
    receiver: str
    integration: str
    place: int
    route: int
    group: Pairs
    firing: tuple[Pairs, ...]
    resolved: tuple[Pairs, ...]

    @property
    def key(self) -> tuple[str, str, int, Pairs]:
        return self.receiver, self.integration, self.place, self.group


@dataclass(frozen=True)
class Silence:
    """A silence as the program listed it after an event."""

    id: str
    start: int
    end: int
    matchers: tuple[tuple[str, str, bool, bool], ...]


@dataclass
class Step:
    """One event: its number, what it is, whether it was refused and why, the clock after it, its notifications, the positions of
    skipped alerts, and the silences after it if they may have changed."""

    number: int
    event: Event
    at: int
    refused: int | None
    refused_at: str
    notes: list[Note] = field(default_factory=list)
    skipped: set[int] = field(default_factory=set)
    silences: list[Silence] | None = None


def walk(source: Source, script: Script) -> list[Step]:
    """Steps over the script. Raises the program's fault if it refuses a file."""
    events = [event_of(line) for line in script.lines] if _is_accepted(source) else []
    answers = converse(source, _commands(events))
    steps = []
    read: dict[bytes, Silence] = {}
    for number, event in enumerate(events, 1):
        step = _step(number, event, next(answers).lines)
        if event.act in LISTING:
            step.silences = [read.get(line) or read.setdefault(line, _silence(line)) for line in next(answers).lines]
        steps.append(step)
    for _ in answers:
        pass
    return steps


def _is_accepted(source: Source) -> bool:
    """Returns True, or raises the program's fault: only a script that the program accepts is read here."""
    return all(answer.refused is None for answer in converse(source, ["cursor"]))


def _commands(events: list[Event]) -> Iterator[str]:
    for event in events:
        yield "step"
        if event.act in LISTING:
            yield "silences"


def _step(number: int, event: Event, lines: list[bytes]) -> Step:
    step = Step(number, event, nanoseconds(event.at), None, "")
    for line in (json.loads(text.decode()) for text in lines):
        if "receiver" in line:
            step.notes.append(_note(line))
        elif "reason" in line:
            step.refused, step.refused_at = line["reason"], line.get("path", "")
        elif "skipped" in line:
            step.skipped = set(line["skipped"])
    return step


def _note(line: dict[str, Any]) -> Note:
    firing, resolved = (tuple(pairs_of(alert["labels"]) for alert in line[key]) for key in ("firing", "resolved"))
    group = pairs_of(line["groupLabels"])
    return Note(
        nanoseconds(line["at"]),
        line["receiver"],
        line["integration"],
        line["place"],
        line["route"],
        group,
        firing,
        resolved,
    )


def _silence(text: bytes) -> Silence:
    line = json.loads(text)
    matchers = tuple((each["name"], each["value"], each["isEqual"], each["isRegex"]) for each in line["matchers"])
    return Silence(line["id"], nanoseconds(line["startsAt"]), nanoseconds(line["endsAt"]), matchers)


def pairs_of(labels: dict[str, str]) -> Pairs:
    """Returns the pairs of an object by name. A label with an empty value is none. Texts go by code points, as the program's do."""
    return tuple(sorted(pair for pair in labels.items() if pair[1]))
