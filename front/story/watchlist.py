"""Whom to ask at a moment: the alerts whose answer may have changed. More may be asked than need be, and none is left out."""

from __future__ import annotations

import heapq
from collections import defaultdict
from typing import Any

from .config import Keyed, Route, Rule, keys_of, routes_of, rules_of
from .matching import may_match, may_match_all
from .model import WAITING, Pairs
from .record import Tracked, Verdict
from .walk import Silence

Group = tuple[object, ...]


class Watchlist:
    """All alerts that were posted, and where they may have to be asked again."""

    def __init__(self, config: dict[str, Any]) -> None:
        self.alerts: dict[Pairs, Tracked] = {}
        self._due: list[tuple[int, Pairs]] = []
        self._active: set[Pairs] = set()
        self._having: dict[str, dict[str, set[Pairs]]] = defaultdict(lambda: defaultdict(set))
        self._inhibited_by: dict[Pairs, set[Pairs]] = defaultdict(set)
        self._silenced_by: dict[str, set[Pairs]] = defaultdict(set)
        self.load(config)

    def load(self, config: dict[str, Any]) -> None:
        """Takes a configuration into force."""
        self._routes: list[Route] = routes_of(config)
        self._rules: list[Rule] = rules_of(config)
        self._grouping = [tuple(route.setting("group_by", self._routes) or ()) for route in self._routes]
        self._waiting: dict[int, dict[Group, set[Pairs]]] = defaultdict(dict)
        self._timed = {route.number for route in self._routes if route.intervals}
        self._targets: dict[Keyed, set[Pairs]] = defaultdict(set)
        self._target_keys: dict[Pairs, list[Keyed]] = {}
        self._source_keys: dict[Pairs, list[Keyed]] = {}
        for labels in self._active:
            # Its next answer is looked up anew, even if it is the same.
            self.alerts[labels].text = b""
            self._add_target(self.alerts[labels])

    def tracked(self, labels: Pairs) -> Tracked:
        if labels not in self.alerts:
            self.alerts[labels] = Tracked.of(labels)
        return self.alerts[labels]

    def active(self) -> set[Pairs]:
        return set(self._active)

    def active_of(self, some: set[Pairs]) -> set[Pairs]:
        return some & self._active

    def due_by(self, at: int) -> tuple[set[Pairs], set[int]]:
        """Returns the alerts with an answer that names a moment up to now, and those moments that are past."""
        found, past = set(), set()
        while self._due and self._due[0][0] <= at:
            due, labels = heapq.heappop(self._due)
            if any(verdict.due == due for verdict in self.alerts[labels].answer):
                found.add(labels)
                if due < at:
                    past.add(due)
        return found, past

    def in_time_intervals(self) -> set[Pairs]:
        """Returns the active alerts on routes with time intervals."""
        return {
            each for each in self._active if any(verdict.route in self._timed for verdict in self.alerts[each].answer)
        }

    def under(self, silence: Silence) -> set[Pairs]:
        """Returns the active alerts that a silence may mute."""
        return {
            each for each in self._some_under(silence) if may_match_all(silence.matchers, self.alerts[each].by_name)
        }

    def _some_under(self, silence: Silence) -> set[Pairs]:
        """Returns the active alerts that the most telling matcher of a silence may match: one that an absent label doesn't match."""
        telling = [matcher for matcher in silence.matchers if not may_match(matcher, "")]
        if not telling:
            return self._active
        plain = [
            self._having[name].get(value, set())
            for name, value, is_equal, is_regex in telling
            if is_equal and not is_regex
        ]
        if plain:
            return min(plain, key=len)
        having = self._having[telling[0][0]]
        return set().union(*(some for value, some in having.items() if may_match(telling[0], value)))

    def silenced_by(self, silence_id: str) -> set[Pairs]:
        return set(self._silenced_by.get(silence_id, ()))

    def inhibited_by(self, source: Pairs) -> set[Pairs]:
        return set(self._inhibited_by.get(source, ()))

    def beside(self, labels: Pairs) -> set[Pairs]:
        """Returns the alerts that wait in a group that this one is in if it is on the group's route: it may have moved the group's first flush."""
        by_name = self.alerts[labels].by_name
        found: set[Pairs] = set()
        for route, groups in self._waiting.items():
            if groups:
                found |= groups.get(self._group(route, by_name), set())
        return found - {labels}

    def _group(self, route: int, by_name: dict[str, str]) -> Group:
        """Returns the values of the names by which a route groups."""
        names = self._grouping[route]
        return tuple(sorted(by_name.items())) if "..." in names else tuple(by_name.get(name, "") for name in names)

    def may_be_inhibited_by(self, labels: Pairs) -> set[Pairs]:
        """Returns the active alerts that this one may inhibit."""
        if labels not in self._source_keys:
            self._source_keys[labels] = keys_of(self._rules, self.alerts[labels].by_name, is_source=True)
        return set().union(*(self._targets[key] for key in self._source_keys[labels] if key in self._targets))

    def turn(self, tracked: Tracked, before: list[Verdict]) -> None:
        """Moves an alert to where its new answer is looked up."""
        labels = tracked.labels
        for verdict in before:
            if verdict.source is not None:
                self._inhibited_by[verdict.source].discard(labels)
            elif verdict.silence is not None:
                self._silenced_by[verdict.silence].discard(labels)
            elif verdict.name == WAITING and verdict.route in self._waiting:
                self._stop_waiting(verdict.route, labels)
        for verdict in tracked.answer:
            self._note(labels, verdict)
        if tracked.is_active and labels not in self._active:
            self._activate(tracked)
        elif not tracked.is_active and labels in self._active:
            self._deactivate(tracked)

    def _note(self, labels: Pairs, verdict: Verdict) -> None:
        if verdict.source is not None:
            self._inhibited_by[verdict.source].add(labels)
        elif verdict.silence is not None:
            self._silenced_by[verdict.silence].add(labels)
        elif verdict.due is not None:
            heapq.heappush(self._due, (verdict.due, labels))
            if verdict.name == WAITING:
                group = self._group(verdict.route, self.alerts[labels].by_name)
                self._waiting[verdict.route].setdefault(group, set()).add(labels)

    def _stop_waiting(self, route: int, labels: Pairs) -> None:
        group = self._group(route, self.alerts[labels].by_name)
        waiting = self._waiting[route].get(group, set())
        waiting.discard(labels)
        if not waiting:
            self._waiting[route].pop(group, None)

    def _activate(self, tracked: Tracked) -> None:
        self._active.add(tracked.labels)
        for name, value in tracked.labels:
            self._having[name][value].add(tracked.labels)
        self._add_target(tracked)

    def _deactivate(self, tracked: Tracked) -> None:
        self._active.remove(tracked.labels)
        for name, value in tracked.labels:
            self._having[name][value].discard(tracked.labels)
        for key in self._target_keys.get(tracked.labels, ()):
            self._targets[key].discard(tracked.labels)

    def _add_target(self, tracked: Tracked) -> None:
        labels = tracked.labels
        if labels not in self._target_keys:
            self._target_keys[labels] = keys_of(self._rules, tracked.by_name, is_source=False)
        for key in self._target_keys[labels]:
            self._targets[key].add(labels)
