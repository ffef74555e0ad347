"""What a page has collected, against the session's own lines."""
from __future__ import annotations

import json
import random
import unittest
from pathlib import Path
from typing import Any

from front.page import differences, states, verdicts
from front.page.cli import read_words
from front.page.making import make
from front.page.tables import Pairs, pairs

from .reader import Reader
from .support import EXAMPLES, LISTS, Session, TOP, WithRoom, data_of, hostile_files, page_of

NAMES = ("first-page", "a-page-that-never-came", "a-flapping-alert", "a-reload")
INCIDENTS = (
    "alerts/annotations-in-the-order-of-their-names",
    "alerts/invalid-alerts-are-skipped",
    "alerts/label-sets-in-their-order",
    "notification-log/log-entries-in-the-order-of-paths",
    "notification-log/siblings-share-log-entries",
    "reload/reloads-and-their-refusals",
    "script-format/moments-as-they-are-read-and-written",
    "session/all-listings",
    "session/refused-events-and-commands",
    "silences/matchers-of-silences-by-their-flags",
    "silences/silences-that-are-changed",
    "silences/the-least-silence-that-acts",
)


def files(folder: Path) -> tuple[Path, Path]:
    return folder / "config.json", folder / "script.jsonl"


def files_of_words(folder: Path) -> tuple[Path, Path]:
    """Returns the files that the words of an incident name."""
    _, config, script = (folder / "words").read_text().split()
    return folder / config, folder / script


class Collected(WithRoom):
    def check(self, config: Path, script: Path, *words: str) -> Reader:
        status, page, faults = page_of(config, script, *words)
        self.assertEqual((status, faults), (0, ""))
        reader, session = Reader(data_of(page)), Session(config, script)
        states, alerts = session.states(), reader.alerts()
        explanations = session.explanations(alerts, reader.last)
        for cursor in range(reader.first - 1, reader.last + 1):
            for name in LISTS:
                self.assertEqual(reader.listed(name, cursor), states[cursor][name], (name, cursor))
            if cursor >= reader.first:
                self.assertEqual(reader.printed(cursor), states[cursor]["printed"], cursor)
            self.assertEqual([reader.explained(cursor, labels) for labels in alerts], explanations[cursor], cursor)
        return reader

    def test_examples(self) -> None:
        for name in NAMES:
            with self.subTest(name):
                self.check(*files(EXAMPLES / name))

    def test_incidents(self) -> None:
        for name in INCIDENTS:
            with self.subTest(name):
                self.check(*files_of_words(TOP / "incidents" / name))

    def test_hostile_texts(self) -> None:
        self.check(*hostile_files(self.room))

    def test_a_part(self) -> None:
        reader = self.check(*files(EXAMPLES / "a-flapping-alert"), "--from", "2", "--to", "3")
        self.assertEqual((reader.first, reader.last), (2, 3))

    def test_a_part_by_moments(self) -> None:
        reader = self.check(
            *files(EXAMPLES / "a-flapping-alert"), "--from", "2024-05-01T22:10:00Z", "--to", "2024-05-02T01:30:00+02:00"
        )
        self.assertEqual((reader.first, reader.last), (2, 3))

    def test_log_entries_that_no_line_tells_of(self) -> None:
        """An email integration doesn't send resolved alerts, but their entry is written."""
        config, script = self.room / "config.json", self.room / "script.jsonl"
        route = {"receiver": "ops", "group_by": ["alertname"], "group_wait": "30s", "group_interval": "5m"}
        config.write_text(json.dumps({"route": route, "receivers": [{"name": "ops", "email_configs": [{}]}]}))
        alerts = [
            {"labels": {"alertname": name}, "startsAt": "2024-05-01T10:00:00Z", "endsAt": f"2024-05-01T10:{end:02}:00Z"}
            for name, end in (("Brief", 4), ("Longer", 14), ("Longest", 34))
        ]
        events: list[dict[str, Any]] = [{"at": "2024-05-01T10:00:00Z", "alerts": alerts}]
        events += [{"at": f"2024-05-01T10:{minute:02}:31Z", "tick": True} for minute in range(30)]
        script.write_text("".join(json.dumps(event) + "\n" for event in events))
        reader = self.check(config, script)
        silent = [cursor for cursor in range(1, reader.last + 1) if not reader.printed(cursor)]
        self.assertTrue(any(reader.listed("log", cursor) != reader.listed("log", cursor - 1) for cursor in silent))


class Flushes(WithRoom):
    """Flushes between events, which are found with ticks."""

    def found(self, name: str) -> list[list[str]]:
        data = data_of(page_of(*files(EXAMPLES / name))[1])
        return [[data["texts"][number - 1] for number in flat[1::2]] for _, _, flat in data["runs"][0]["flushes"]]

    def test_six_of_two_groups(self) -> None:
        moments = [f"2024-05-01T10:{minute}:30Z" for minute in ("05", "10", "15")]
        self.assertEqual(self.found("a-page-that-never-came"), [moments, moments])

    def test_a_night(self) -> None:
        night = self.found("a-flapping-alert")[0]
        self.assertEqual(
            len(night), 101, "two in each of the short times, and each five minutes from 23:00:30 to 07:00:30"
        )
        self.assertEqual(
            (night[0], night[3], night[4], night[-1]),
            ("2024-05-01T22:00:30Z", "2024-05-01T22:15:30Z", "2024-05-01T23:00:30Z", "2024-05-02T07:00:30Z"),
        )

    def test_none_hides(self) -> None:
        self.assertEqual(self.found("first-page"), [])


class InPieces(WithRoom):
    """Long parts: in several sessions at once, with lists at some events, and with explanations at some."""

    def setUp(self) -> None:
        super().setUp()
        kept = (states.BYTES_FOR_ONE_SESSION, states.LISTED_BYTES_AT_MOST, verdicts.ALL_AT_MOST, verdicts.FEW)
        self.addCleanup(self.restore, kept)
        self.config, self.script = self.room / "config.json", self.room / "script.jsonl"
        self.config.write_bytes((EXAMPLES / "a-page-that-never-came" / "config.json").read_bytes())
        self.script.write_text("".join(json.dumps(event) + "\n" for event in mixed_events(60)))

    @staticmethod
    def restore(kept: tuple[int, ...]) -> None:
        states.BYTES_FOR_ONE_SESSION, states.LISTED_BYTES_AT_MOST, verdicts.ALL_AT_MOST, verdicts.FEW = kept

    def made(self, *named: Pairs) -> str:
        options = read_words([str(self.config), str(self.script)])
        options.named = list(named)
        return make(options)

    def test_pieces_are_the_same_as_one(self) -> None:
        whole = self.made()
        states.BYTES_FOR_ONE_SESSION = verdicts.FEW = 0
        self.assertEqual(self.made(), whole)

    def test_lists_at_some_events(self) -> None:
        states.LISTED_BYTES_AT_MOST = 30_000
        reader, session = Reader(data_of(self.made())), Session(self.config, self.script)
        stops = reader.run["stops"]
        self.assertTrue(2 < len(stops) < 61 and stops[-1] == 60)
        own = session.states()
        for cursor in stops:
            for name in LISTS:
                self.assertEqual(reader.listed(name, cursor), own[cursor][name], (name, cursor))

    def test_explanations_of_those_that_are_named_alone(self) -> None:
        verdicts.ALL_AT_MOST = 0
        reader, session = Reader(data_of(self.made((("alertname", "A1"),)))), Session(self.config, self.script)
        self.assertEqual({labels["alertname"] for labels in reader.alerts()}, {"A1"})
        for cursor, own in enumerate(session.explanations(reader.alerts(), 60)):
            for labels, lines in zip(reader.alerts(), own):
                self.assertEqual(reader.explained(cursor, labels), lines)


def mixed_events(count: int) -> list[dict[str, object]]:
    """Returns posts, silences and ticks over an hour, the same each time."""
    rng = random.Random(7)
    events: list[dict[str, object]] = []
    for i in range(count):
        at = f"2024-05-01T10:{i % 60:02d}:00Z"
        labels = {"alertname": f"A{rng.randrange(4)}", "cluster": "eu", "severity": rng.choice(["critical", "warning"])}
        if i % 7 == 3:
            silence = {
                "matchers": [{"name": "alertname", "value": "A1"}],
                "startsAt": at,
                "endsAt": "2024-05-01T12:00:00Z",
            }
            events.append({"at": at, "silence": silence, "newId": f"00000000-0000-4000-8000-{i:012d}"})
        elif i % 3 == 0:
            events.append({"at": at, "tick": True})
        else:
            events.append(
                {
                    "at": at,
                    "alerts": [{"labels": labels, "endsAt": f"2024-05-01T10:{rng.randrange(i % 60, 60):02d}:30Z"}],
                }
            )
    return events


class Differences(unittest.TestCase):
    def test_against_sets(self) -> None:
        kept = differences.FIRST_BLOCK, differences.LARGEST_BLOCK, differences.MANY_LINES
        self.addCleanup(lambda: self.restore(kept))
        self.restore((4, 16, 4))
        rng = random.Random(1)
        for _ in range(3000):
            before = {key: rng.randrange(3) for key in rng.sample(range(40), rng.randrange(20))}
            after = dict(before)
            for _ in range(rng.randrange(6)):
                after[rng.randrange(40)] = rng.randrange(3)
                after.pop(rng.randrange(40), None)
            old, new = listing(before), listing(after)
            change = differences.change(old, new)
            self.assertEqual(
                sorted(change.gone), sorted(set(differences.lines_of(old)) - set(differences.lines_of(new)))
            )
            self.assertEqual(
                sorted(change.new), sorted(set(differences.lines_of(new)) - set(differences.lines_of(old)))
            )

    @staticmethod
    def restore(kept: tuple[int, int, int]) -> None:
        differences.FIRST_BLOCK, differences.LARGEST_BLOCK, differences.MANY_LINES = kept


def listing(entries: dict[int, int]) -> bytes:
    return b"".join(b"%02d%s=%d\n" % (key, b"x" * (key % 7), entries[key]) for key in sorted(entries))


class Order(unittest.TestCase):
    def test_labels_go_by_bytes(self) -> None:
        texts = ["\ud7ff", "\ue000", "\U0001f525", "z", "Z", ""]
        self.assertEqual(sorted(texts), sorted(texts, key=str.encode))
        self.assertEqual(pairs({"b": "1", "a": "2"}), (("a", "2"), ("b", "1")))
