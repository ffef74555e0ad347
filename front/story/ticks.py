"""The script with ticks at moments at which the program is asked, besides its events.

A tick before an event that was accepted changes nothing else: it makes moves that are due anyway. Before a refused event none is put, since
it would move the clock, nor after the last event."""

from __future__ import annotations

import json
from dataclasses import dataclass

from ..moments import moment_text
from ..script import Script
from .walk import Step


@dataclass(frozen=True)
class Sample:
    """A position in the script with ticks: its number of events, the moment, and the event there, or None for a tick."""

    cursor: int
    at: int
    step: Step | None


@dataclass
class Ticked:
    """The script with ticks: its text, its samples, and the moments of its ticks."""

    text: bytes
    samples: list[Sample]
    ticks: set[int]


def ticked(script: Script, steps: list[Step], wanted: set[int]) -> Ticked:
    """Puts ticks at the wanted moments: each after all accepted events up to its moment, and before the next accepted event. No tick is
    put before the first such event or after the last."""
    accepted = [step.at for step in steps if step.refused is None]
    ticks = sorted(at for at in wanted if accepted and accepted[0] <= at < accepted[-1])
    lines: list[bytes] = []
    samples: list[Sample] = []
    index = 0
    for step, line in zip(steps, script.lines):
        while step.refused is None and index < len(ticks) and ticks[index] < step.at:
            lines.append(json.dumps({"at": moment_text(ticks[index]), "tick": True}).encode())
            samples.append(Sample(len(lines), ticks[index], None))
            index += 1
        lines.append(line)
        if step.refused is None:
            samples.append(Sample(len(lines), step.at, step))
    return Ticked(script.text(lines), samples, set(ticks))
