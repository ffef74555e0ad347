"""What Prometheus's rule manager posts of an alert, made again from the samples that it left.

At each evaluation at which an alert fires, Prometheus writes a sample and posts the alert if it hasn't in the last resend
delay. At the first evaluation at which the alert no longer fires, it posts it as resolved, and repeats that for fifteen
minutes. A Prometheus that is started again knows nothing of that: it posts what fires as a new alert. In its first five
seconds it knows no Alertmanager yet, and what it posts is lost.
"""

from __future__ import annotations

from bisect import bisect_left, bisect_right
from dataclasses import dataclass, field
from typing import Iterator

from ..moments import MINUTE, SECOND

KEPT_RESOLVED = 15 * MINUTE
EVALUATIONS_BEFORE_SAMPLES = 2
WITHOUT_ALERTMANAGERS = 5 * SECOND
VALID_FOR = 4
USUAL_SHARE = 0.95


@dataclass(frozen=True)
class Post:
    """A post of one alert: when, and its start and end in it."""

    at: int
    starts_at: int
    ends_at: int
    is_resolved: bool = False


@dataclass(frozen=True)
class Outage:
    """A time without evaluations: after the last sign of life, and before the first one of the next process."""

    after: int
    before: int


@dataclass
class Life:
    """When a Prometheus evaluated its rules: up to an end, and not within the outages.

    `starts` are the moments at which its processes began, if they are known.
    """

    end: int
    outages: list[Outage] = field(default_factory=list)
    signs: list[int] = field(default_factory=list)
    starts: list[int] = field(default_factory=list)

    def __post_init__(self) -> None:
        self.outages.sort(key=lambda outage: outage.before)
        self._befores = [outage.before for outage in self.outages]

    def outage_between(self, last: int, next_one: int) -> Outage | None:
        """Returns the outage that kept an evaluation from being made, given the one before it."""
        index = bisect_right(self._befores, last)
        if index == len(self.outages):
            return None
        outage = self.outages[index]
        return None if outage.after >= next_one or self._has_sign(next_one, outage.before) else outage

    def is_lost(self, at: int) -> bool:
        """Returns whether a post of a moment reached no Alertmanager, since its process had just begun.

        A new process knows its Alertmanagers no later than it scrapes, which is when an outage without a known start ends.
        """
        index = bisect_right(self.starts, at)
        if index > 0 and at - self.starts[index - 1] < WITHOUT_ALERTMANAGERS:
            return True
        return self.outage_between(at - 1, at) is not None

    def _has_sign(self, start: int, end: int) -> bool:
        index = bisect_left(self.signs, start)
        return index < len(self.signs) and self.signs[index] < end


@dataclass(frozen=True)
class Timing:
    """The times by which a rule's alerts are posted."""

    interval: int
    resend_delay: int
    hold: int

    @property
    def valid_for(self) -> int:
        """How far ahead a post sets the end of an alert that fires."""
        return VALID_FOR * max(self.interval, self.resend_delay)


@dataclass(frozen=True)
class Run:
    """The evaluations at which an alert fired without a gap. `was_cut` if an outage came after it."""

    moments: list[int]
    was_cut: bool
    is_open: bool


def runs_of(firing: list[int], interval: int, life: Life) -> list[Run]:
    """Splits the samples of an alert where more than an interval lies between them."""
    pieces: list[list[int]] = []
    for at in firing:
        if not pieces or at - pieces[-1][-1] > interval * 3 // 2:
            pieces.append([])
        pieces[-1].append(at)
    return [_run(piece, interval, life) for piece in pieces]


def _run(moments: list[int], interval: int, life: Life) -> Run:
    following = moments[-1] + interval
    return Run(moments, life.outage_between(moments[-1], following) is not None, following > life.end)


def posts_of(
    firing: list[int], pending: list[int], timing: Timing, life: Life, first_samples: set[int]
) -> Iterator[Post]:
    """Yields the posts of an alert, given the moments at which its samples say that it fired and was pending.

    `first_samples` are the first samples of its group after each outage.
    """
    made = _made(firing, pending, timing, life, first_samples)
    return (post for post in made if not life.is_lost(post.at))


def _made(firing: list[int], pending: list[int], timing: Timing, life: Life, first_samples: set[int]) -> Iterator[Post]:
    runs = runs_of(firing, timing.interval, life)
    for i, run in enumerate(runs):
        before = runs[i - 1] if i else None
        moments = _unsampled(run, before, timing, life, first_samples) + run.moments
        yield from _firing_posts(moments, timing)
        if not run.was_cut and not run.is_open:
            resolved_at = run.moments[-1] + timing.interval
            until = min(_appears_again(firing, pending, resolved_at), life.end + 1)
            yield from _resolved_posts(moments, resolved_at, until, timing, life)


def _unsampled(run: Run, before: Run | None, timing: Timing, life: Life, first_samples: set[int]) -> list[int]:
    """Returns the evaluations of a new process that posted an alert and wrote no sample yet.

    Prometheus writes samples from its third evaluation on. An alert without `for` that fired before the outage fires at the
    first one again; one with `for` is pending until then.
    """
    first = run.moments[0]
    if before is None or not before.was_cut or timing.hold or first not in first_samples:
        return []
    outage = next((each for each in reversed(life.outages) if each.before <= first), None)
    if outage is None:
        return []
    moments = [first - n * timing.interval for n in range(EVALUATIONS_BEFORE_SAMPLES, 0, -1)]
    return [at for at in moments if at > max(outage.after, before.moments[-1])]


def _firing_posts(moments: list[int], timing: Timing) -> Iterator[Post]:
    last_sent: int | None = None
    for at in moments:
        if last_sent is None or last_sent + timing.resend_delay < at:
            last_sent = at
            yield Post(at, moments[0], at + timing.valid_for)


def _appears_again(firing: list[int], pending: list[int], after: int) -> int:
    """Returns when an alert is pending or fires again, which is when Prometheus forgets that it was resolved."""
    found = [moments[index] for moments in (firing, pending) if (index := bisect_left(moments, after)) < len(moments)]
    return min(found, default=1 << 62)


def _resolved_posts(moments: list[int], resolved_at: int, until: int, timing: Timing, life: Life) -> Iterator[Post]:
    last_sent: int | None = None
    at = resolved_at
    while at < until and at - resolved_at <= KEPT_RESOLVED and not life.outage_between(at - timing.interval, at):
        if last_sent is None or last_sent + timing.resend_delay < at:
            last_sent = at
            yield Post(at, moments[0], resolved_at, is_resolved=True)
        at += timing.interval


def life_of(pulses: list[int], starts: list[int], signs: list[int], end: int) -> Life:
    """Returns when a Prometheus evaluated, from the moments of its scrapes, its starts, and the samples of its alerts.

    If the starts of its processes are known, the outages are before them. Otherwise a pause between scrapes that is much
    longer than nearly all others is one. Nothing is known of what is after the last scrape and the last sample.
    """
    alive = sorted({*pulses, *signs})
    outages = _outages_by_starts(alive, starts) if starts else _outages_by_pauses(pulses)
    last = alive[-1] if alive else end
    return Life(min(end, last if pulses else end), outages, signs, sorted(starts))


def _outages_by_starts(alive: list[int], starts: list[int]) -> list[Outage]:
    """Returns the time between the last sign of life and the next start, for each start."""
    indexes = [(bisect_left(alive, start), start) for start in starts]
    return [Outage(alive[index - 1], start) for index, start in indexes if index > 0]


def _outages_by_pauses(pulses: list[int]) -> list[Outage]:
    usual = usual_pause(pulses)
    return [Outage(left, right) for left, right in zip(pulses, pulses[1:]) if right - left > usual * 5 // 2]


def usual_pause(pulses: list[int]) -> int:
    """Returns the length that nearly all pauses between scrapes don't exceed."""
    pauses = sorted(right - left for left, right in zip(pulses, pulses[1:]))
    return pauses[int((len(pauses) - 1) * USUAL_SHARE)] if pauses else 0


def first_samples_after(outages: list[Outage], moments: list[int]) -> set[int]:
    """Returns the first of a group's samples after each outage. The moments are in order."""
    indexes = [bisect_left(moments, outage.before) for outage in outages]
    return {moments[index] for index in indexes if index < len(moments)}
