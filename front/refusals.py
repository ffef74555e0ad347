"""The numbers of refusals in words. docs/RULES.md has them."""

from __future__ import annotations

EVENTS = {
    0: "memory ran out",
    16: "no alert of the post is valid",
    17: "the silence is invalid",
    18: "no silence has this id",
    19: "a silence has this newId already",
    20: "it is before the event before it",
    21: "more than 1,000,000 moves are due at or before it",
}

CONFIGURATIONS = {
    5: "a value has a wrong shape, or can't be read",
    6: "a route names a receiver that doesn't exist",
    7: "two receivers have one name",
    8: "the root route names no receiver, or has matchers, `continue: true` or time intervals",
    9: "a route sets a group_interval or a repeat_interval of zero",
    10: "a name in group_by is empty or repeated, or `...` isn't alone",
    11: "routes are more than 32 levels deep",
}

ACTS = {
    "alerts": "a post of alerts",
    "silence": "a silence",
    "expire": "the expiry of a silence",
    "reload": "a reload",
    "tick": "a tick",
    "label": "a label",
}


REASONS = {**EVENTS, **CONFIGURATIONS}


def refused_event(number: int, act: str) -> str:
    """Returns which event was refused, and why."""
    reason = REASONS.get(number, "for a reason without a name here")
    return f"{ACTS.get(act, 'an event')} was refused: {reason} ({number})"
