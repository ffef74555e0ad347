"""The tables of a page: texts and label sets, each written once and known by its number."""
from __future__ import annotations

from typing import Any

Pairs = tuple[tuple[str, str], ...]


class Tables:
    """Numbers texts from 1, so that 0 is none, and label sets (any objects of texts) from 0."""

    def __init__(self) -> None:
        self._texts: dict[str, int] = {}
        self._sets: dict[Pairs, int] = {}

    def text(self, text: str | None) -> int:
        return 0 if text is None else self._texts.setdefault(text, len(self._texts) + 1)

    def labels(self, labels: dict[str, str]) -> int:
        return self._sets.setdefault(pairs(labels), len(self._sets))

    def all_labels(self, listed: list[dict[str, str]]) -> list[int]:
        return [self.labels(labels) for labels in listed]

    def pairs_of(self, number: int) -> Pairs:
        return list(self._sets)[number]

    def written(self) -> dict[str, Any]:
        """Returns the tables as the page has them: texts, sets as lists of numbers, and each set's rank in the order of label sets."""
        sets = [[self.text(text) for pair in each for text in pair] for each in self._sets]
        in_order = sorted(self._sets)
        ranks = {each: rank for rank, each in enumerate(in_order)}
        return {"texts": list(self._texts), "sets": sets, "places": [ranks[each] for each in self._sets]}


def pairs(labels: dict[str, str]) -> Pairs:
    """Returns the pairs of an object of texts, by name. Texts go by code points, which is the order of their bytes."""
    return tuple(sorted(labels.items()))
