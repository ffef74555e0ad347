"""Notifications of two runs beside each other: those that are in one alone, and those that moved."""
from __future__ import annotations

import json
from collections import defaultdict
from dataclasses import dataclass
from typing import Any

Note = dict[str, Any]


@dataclass(frozen=True)
class Comparison:
    """Indexes in the two lists of notifications. What is in none of them is in both runs, at one moment."""

    first_alone: list[int]
    second_alone: list[int]
    moved: list[tuple[int, int]]


def compare(first: list[Note], second: list[Note]) -> Comparison:
    """Compares two lists of notifications. Those that tell the same of the same group to the same integration are one, and moved
    where their moments differ. Equal moments are matched first, and then what is left in order."""
    left, right = _unmatched(first, second)
    by_content: dict[str, list[int]] = defaultdict(list)
    for j in right:
        by_content[_content(second[j])].append(j)
    moved = [(i, by_content[_content(first[i])].pop(0)) for i in left if by_content[_content(first[i])]]
    gone, come = {i for i, _ in moved}, {j for _, j in moved}
    return Comparison([i for i in left if i not in gone], [j for j in right if j not in come], moved)


def _unmatched(first: list[Note], second: list[Note]) -> tuple[list[int], list[int]]:
    """Returns the indexes of those that aren't in the other list at the same moment."""
    waiting: dict[tuple[str, str], list[int]] = defaultdict(list)
    for j, note in enumerate(second):
        waiting[note["at"], _content(note)].append(j)
    left, met = [], set()
    for i, note in enumerate(first):
        same = waiting[note["at"], _content(note)]
        if same:
            met.add(same.pop(0))
        else:
            left.append(i)
    return left, [j for j in range(len(second)) if j not in met]


def _content(note: Note) -> str:
    """Returns whom a notification is for, and which alerts of which group it tells of."""
    alerts = [[alert["labels"] for alert in note[key]] for key in ("firing", "resolved")]
    return json.dumps(
        [note["receiver"], note["integration"], note["place"], note["groupLabels"], alerts], sort_keys=True
    )
