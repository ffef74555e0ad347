"""Why, at each event: what a session answers to `explain` there, of the alerts that were named, and of all if they aren't too many."""

from __future__ import annotations

import json
from dataclasses import dataclass, field
from functools import partial
from typing import Iterator

from ..program import Source, converse
from .states import Watched
from .tables import Pairs, pairs
from .workers import PIECES, Part, Task, count_done

ALL_AT_MOST = 150_000
FEW = 5_000

Answered = list[tuple[int, list[list[bytes]]]]


@dataclass
class Why:
    """The answers of one alert, each a list of verdict lines from the cursor on at which the session gave it."""

    labels: Pairs
    answers: list[tuple[int, list[bytes]]] = field(default_factory=list)


@dataclass(frozen=True)
class Plan:
    """The alerts that are asked about at every cursor of a part."""

    part: Part
    alerts: list[Pairs]


def planned(watched: Watched, named: list[Pairs]) -> Plan:
    """Plans the explanations of all alerts, or of those that are named if all are too many."""
    known = sorted({*known_alerts(watched), *named})
    is_small = len(known) * (len(watched.part) + 1) <= ALL_AT_MOST
    return Plan(watched.part, known if is_small else sorted(named))


def known_alerts(watched: Watched) -> set[Pairs]:
    """Returns the alerts that were listed, or that a notification told of."""
    known = set()
    for seen in watched.seen:
        known |= {pairs(json.loads(line)["labels"]) for line in (seen.changes["alerts"].new if seen.changes else [])}
        if seen.cursor >= watched.part.first:
            notes = [json.loads(line) for line in seen.printed]
            known |= {
                pairs(each["labels"]) for note in notes for key in ("firing", "resolved") for each in note.get(key, [])
            }
    return known


def containing(known: set[Pairs], labels: Pairs) -> list[Pairs]:
    """Returns the alerts that have all of some labels."""
    return sorted(each for each in known if set(labels) <= set(each))


def asking(source: Source, plan: Plan) -> list[Task]:
    """Returns the tasks that ask what is planned, one for each piece of the part."""
    if not plan.alerts:
        return []
    texts = [json.dumps(dict(labels), ensure_ascii=False) for labels in plan.alerts]
    pieces = plan.part.cut(PIECES if len(texts) * len(plan.part) > FEW else 1)
    return [partial(_ask_piece, source, piece, piece.first == plan.part.first, texts) for piece in pieces]


def explained(plan: Plan, pieces: list[Answered]) -> list[Why]:
    """Returns the explanations from the answers to each piece of a plan."""
    asked = [Why(labels) for labels in plan.alerts]
    for cursor, lists in (answer for piece in pieces for answer in piece):
        for why, lines in zip(asked, lists):
            if not why.answers or why.answers[-1][1] != lines:
                why.answers.append((cursor, lines))
    return asked


def _ask_piece(source: Source, piece: Part, is_first: bool, texts: list[str]) -> Answered:
    """Asks at each cursor of a piece in a session of its own, and before it if it is the first, and returns the lines of each answer."""
    answers = converse(source, _commands(piece, is_first, texts))
    next(answers)
    found = []
    for cursor in range(piece.first - 1, piece.last + 1):
        if cursor >= piece.first:
            next(answers)
            count_done()
        if cursor >= piece.first or is_first:
            found.append((cursor, [next(answers).lines for _ in texts]))
    return found


def _commands(piece: Part, is_first: bool, texts: list[str]) -> Iterator[str]:
    yield f"seek {piece.first - 1}"
    for cursor in range(piece.first - 1, piece.last + 1):
        if cursor >= piece.first:
            yield "step"
        if cursor >= piece.first or is_first:
            yield from (f"explain {labels}" for labels in texts)
