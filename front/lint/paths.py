"""The value at a path such as `route.routes[0].group_wait`."""

from __future__ import annotations

import re
from typing import Any

STEP = re.compile(r"\[(\d+)\]|\.?([^.\[]+)")


class _Absent:
    """What isn't there."""

    def __bool__(self) -> bool:
        return False


ABSENT: Any = _Absent()


def value_at(value: Any, path: str) -> Any:
    """Returns the value at a path, or ABSENT. Keys aren't escaped in a path, so the longest key that fits counts."""
    if not path:
        return value
    if isinstance(value, list):
        found = STEP.match(path)
        index = int(found[1]) if found and found[1] else len(value)
        return value_at(value[index], path[found.end() :]) if found and index < len(value) else ABSENT
    if not isinstance(value, dict):
        return ABSENT
    path = path.removeprefix(".")
    for key in sorted(value, key=len, reverse=True):
        if path == key or path.startswith((f"{key}.", f"{key}[")):
            inner = value_at(value[key], path[len(key) :])
            if inner is not ABSENT:
                return inner
    return ABSENT


def last_key(path: str) -> str:
    """Returns the last key of a path, without an index after it."""
    return re.sub(r"\[\d+\]$", "", path).rsplit(".", 1)[-1]
