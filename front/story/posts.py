"""The alerts of posts: their labels, starts and ends, as the script has them."""

from __future__ import annotations

from bisect import bisect_right
from dataclasses import dataclass
from typing import Any

from ..moments import nanoseconds
from .config import timeout_of
from .model import Pairs
from .walk import Step, pairs_of

NOT_GIVEN = "0001-01-01T00:00:00"


@dataclass(frozen=True)
class Posted:
    """A valid alert of a post: its labels, its start as posted or None, and when it may end."""

    labels: Pairs
    start: int | None
    end: int


@dataclass(frozen=True)
class Loaded:
    """A configuration in force from after an event on, which is 0 or an accepted reload."""

    number: int
    config: dict[str, Any]


def posts_in(steps: list[Step], loaded: list[Loaded]) -> dict[int, list[Posted]]:
    """Returns the valid alerts of each accepted post, by the number of its event."""
    starts = [each.number for each in loaded]
    timeouts = [timeout_of(each.config) for each in loaded]
    return {
        step.number: _posted(step, timeouts[bisect_right(starts, step.number) - 1])
        for step in steps
        if step.event.act == "alerts" and step.refused is None
    }


def ends_in(steps: list[Step], posts: dict[int, list[Posted]]) -> dict[int, set[Pairs]]:
    """Returns the moments at which alerts may end, each with its alerts. A later post with a later end takes the earlier end away."""
    waiting: dict[Pairs, list[int]] = {}
    ends: dict[int, set[Pairs]] = {}
    for step in steps:
        for posted in posts.get(step.number, []):
            before = waiting.get(posted.labels, [])
            for end in before:
                if end <= step.at:
                    ends.setdefault(end, set()).add(posted.labels)
            waiting[posted.labels] = [*(end for end in before if end > max(step.at, posted.end)), posted.end]
    for labels, still in waiting.items():
        for end in still:
            ends.setdefault(end, set()).add(labels)
    return ends


def _posted(step: Step, timeout: int) -> list[Posted]:
    found = []
    for position, alert in enumerate(step.event.value, 1):
        if position not in step.skipped:
            start, end = _moment(alert.get("startsAt")), _moment(alert.get("endsAt"))
            found.append(Posted(pairs_of(alert["labels"]), start, step.at + timeout if end is None else end))
    return found


def _moment(text: str | None) -> int | None:
    return nanoseconds(text) if text and not text.startswith(NOT_GIVEN) else None
