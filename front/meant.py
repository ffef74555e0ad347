"""Which of some names was meant by one that isn't among them."""

from __future__ import annotations

import difflib
from typing import Iterable


def meant(name: str, known: Iterable[str]) -> str | None:
    """Returns the nearest of some names, or None if none is near."""
    listed = [each for each in known if each]
    by_lower = {each.lower(): each for each in listed}
    if name.lower() in by_lower:
        return by_lower[name.lower()]
    near = difflib.get_close_matches(name, listed, n=1, cutoff=0.7)
    return near[0] if near else None


def did_you_mean(name: str, known: Iterable[str]) -> str:
    """Returns `; did you mean NAME?`, or nothing."""
    near = meant(name, known)
    return f"; did you mean {near}?" if near else ""
