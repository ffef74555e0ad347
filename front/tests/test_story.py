"""Tests that a story says at each moment what the program answers there: the scripts are replayed with many ticks, and all alerts are asked."""

from __future__ import annotations

import json
import random
import subprocess
import sys
import unittest
from pathlib import Path

from front.moments import SECOND, clock_text, nanoseconds
from front.program import Program, Source, session
from front.script import script_of
from front.story import AlertStory, Story, story_of
from front.story.record import verdict_of
from front.story.ticks import ticked
from front.story.walk import walk

from .random_incident import Dice
from .support import TOP, WithRoom, incidents

ASKED_AT_MOST = 12_000
SEEDS = 12


class EveryMoment(WithRoom):
    def test_the_incidents_of_the_repository(self) -> None:
        for name, config, script in incidents():
            with self.subTest(name):
                self.compare(Program.found().source(str(config), str(script)))

    def test_generated_incidents(self) -> None:
        for seed, alerts, events in ((1, 12, 120), (2, 40, 300), (3, 40, 300)):
            with self.subTest(seed):
                words = ["session", f"seed={seed}", f"alerts={alerts}", f"events={events}"]
                subprocess.run([sys.executable, TOP / "bench/generate", self.room, *words], check=True)
                self.compare(Program.found().source(str(self.room / "config.json"), str(self.room / "script.jsonl")))

    def test_random_incidents(self) -> None:
        for seed in range(SEEDS):
            with self.subTest(seed):
                dice = Dice(seed)
                self.compare(self.source(dice.config(), dice.events(60)))

    def compare(self, source: Source) -> None:
        """Compares the story with answers at its own edges, just before them, and at other moments."""
        story = story_of(source, json.loads(Path(source.config).read_bytes()))
        if story.unasked:
            return
        script = script_of(Path(source.script).read_bytes())
        steps = walk(source, script)
        # A tick after the events of a moment makes what they made due at it.
        with_ticks = ticked(script, steps, self.moments(story) | {step.at for step in steps})
        path = self.write("ticked.jsonl", with_ticks.text.decode())
        program, replayed = Program(source.program), Source(source.program, source.config, path)
        self.assertEqual(*([line for line in program.run(each) if "receiver" in line] for each in (source, replayed)))
        last = {sample.at: sample.cursor for sample in with_ticks.samples}
        with session(Source(source.program, source.config, path)) as opened:
            for at, cursor in last.items():
                if at < story.end:
                    commands = [f"explain {json.dumps(dict(alert.labels))}" for alert in story.alerts]
                    answers = opened.ask_all([f"seek {cursor}", *commands])[1:]
                    for alert, answer in zip(story.alerts, answers):
                        self.assertEqual(
                            self.said(alert, at),
                            self.answered(answer.lines),
                            (clock_text(at, True), alert.labels),
                        )

    def moments(self, story: Story) -> set[int]:
        edges = {
            edge
            for row in story.rows
            for span in row.spans
            for edge in (span.start, span.start - 1, span.end, span.end - 1)
        }
        at_most = max(1, ASKED_AT_MOST // max(1, len(story.alerts)))
        dice = random.Random(1)
        others = {dice.randrange(story.start, story.end + 1) // SECOND * SECOND for _ in range(min(200, at_most))}
        return set(dice.sample(sorted(edges), min(len(edges), at_most))) | others

    def said(self, alert: AlertStory, at: int) -> set[object]:
        found: set[object] = set()
        for row in alert.rows:
            for span in row.spans:
                if span.start <= at < span.end:
                    line = span.line
                    rest = (line.get("rule"), json.dumps(line.get("source")), line.get("id"))
                    found.add((row.receiver, row.integration, row.place, span.verdict, *rest))
        return found

    def answered(self, lines: list[bytes]) -> set[object]:
        best: dict[object, object] = {}
        order: dict[object, int] = {}
        for verdict in map(verdict_of, lines):
            if verdict.row is not None and verdict.order < order.get(verdict.row, 10):
                line = verdict.line
                rest = (line.get("rule"), json.dumps(line.get("source")), line.get("id"))
                best[verdict.row] = (*verdict.row, verdict.name, *rest)
                order[verdict.row] = verdict.order
        return set(best.values())


if __name__ == "__main__":
    unittest.main()
