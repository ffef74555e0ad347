"""Asks the program at each sample about the alerts whose answer may have changed, and records the answers."""

from __future__ import annotations

from typing import Iterable, Optional

from ..program import Session
from .known import Known
from .model import Pairs
from .posts import Loaded
from .record import Tracked
from .ticks import Sample
from .watchlist import Watchlist


class Asker:
    """Asks in a session, sample by sample, about all alerts or some. `past` are moments that answers named, and at which no sample was."""

    def __init__(self, session: Session, known: Known, loaded: list[Loaded], only: Optional[set[Pairs]] = None) -> None:
        self._session = session
        self._only = only
        self._known = known
        self._loaded = loaded
        self._config = 0
        self._last = -1
        self.watch = Watchlist(loaded[0].config)
        self.past: set[int] = set()

    def ask(self, samples: list[Sample]) -> None:
        """Goes through the samples in order."""
        for sample in samples:
            self._ask_at(sample)
        end = samples[-1].at if samples else 0
        for tracked in self.watch.alerts.values():
            tracked.finish(end)

    def _ask_at(self, sample: Sample) -> None:
        fired: dict[Pairs, int | None] = {}
        wanted = self._by_moment(sample.at)
        if sample.step is not None:
            wanted |= self._by_event(sample, fired)
        if not wanted:
            return
        was_active = {labels for labels in fired if self.watch.tracked(labels).is_active}
        inhibited = self._record(sample, wanted, fired)
        for labels in fired:
            tracked = self.watch.alerts[labels]
            if tracked.is_active and labels not in was_active:
                inhibited |= self.watch.may_be_inhibited_by(labels)
            inhibited |= self.watch.beside(labels)
        self._record(sample, inhibited - wanted, {})

    def _by_moment(self, at: int) -> set[Pairs]:
        """Returns the alerts that are asked because of the moment."""
        wanted, past = self.watch.due_by(at)
        self.past |= past
        for told in self._known.told.get(at, []):
            wanted.update(each for each in told.firing if not self.watch.tracked(each).is_told(told.row))
            wanted |= told.gone
        for silence in self._known.begins.get(at, []):
            wanted |= self.watch.under(silence)
        for silence_id in self._known.ends.get(at, ()):
            wanted |= self.watch.silenced_by(silence_id)
        wanted |= self.watch.active_of(self._known.resolved.get(at, set()))
        if at in self._known.edges:
            wanted |= self.watch.in_time_intervals()
        return wanted

    def _by_event(self, sample: Sample, fired: dict[Pairs, int | None]) -> set[Pairs]:
        """Returns the alerts that are asked because of the event. `fired` gets the posted ones with their starts."""
        step = sample.step
        assert step is not None
        wanted: set[Pairs] = set()
        for posted in self._known.posts.get(step.number, []):
            fired[posted.labels] = posted.start
        for silence in self._known.changed.get(step.number, []):
            wanted |= self.watch.under(silence) | self.watch.silenced_by(silence.id)
        if step.event.act == "reload":
            self._config += 1
            self.watch.load(self._loaded[self._config].config)
            wanted |= self.watch.active()
        return wanted | set(fired)

    def _record(self, sample: Sample, wanted: Iterable[Pairs], fired: dict[Pairs, int | None]) -> set[Pairs]:
        """Asks about some alerts, and returns those that an alert inhibited that no longer fires."""
        asked = [self.watch.tracked(labels) for labels in wanted if self._only is None or labels in self._only]
        if not asked:
            return set()
        commands = [each.command for each in asked]
        if sample.cursor != self._last:
            commands.insert(0, f"seek {sample.cursor}")
            self._last = sample.cursor
        answers = self._session.ask_all(commands)[-len(asked) :]
        inhibited: set[Pairs] = set()
        for tracked, answer in zip(asked, answers):
            inhibited |= self._turn(tracked, sample.at, answer.text, fired.get(tracked.labels))
        return inhibited

    def _turn(self, tracked: Tracked, at: int, text: bytes, fired: int | None) -> set[Pairs]:
        before, was_active = tracked.answer, tracked.is_active
        if tracked.record(at, text, self._config, fired):
            self.watch.turn(tracked, before)
        return self.watch.inhibited_by(tracked.labels) if was_active and not tracked.is_active else set()
