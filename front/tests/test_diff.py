"""Tests `diff`: what is lost, new, later and earlier, and reloads."""

from __future__ import annotations

import json
from typing import Any

from .support import INCIDENT, WithRoom, run_word

CONFIG, CHANGED, SCRIPT = (str(INCIDENT / name) for name in ("config.json", "changed.json", "script.jsonl"))


class TheIncident(WithRoom):
    def test_the_fix_is_earlier_and_new(self) -> None:
        status, printed, errors = run_word("diff", CONFIG, CHANGED, SCRIPT)
        self.assertEqual((status, errors), (0, ""))
        self.assertIn("0 lost, 0 later, 1 new, 2 earlier, 27 the same", printed)
        self.assertIn("payments-pager (pagerduty): A 02:24:00, B 01:42:10: 41 m 50 s earlier\n", printed)
        self.assertIn("      A 01:47:00-02:03:00  inhibited by ClusterUnreachable", printed)
        self.assertIn("payments-pager: 6 under A, 10 under B", printed)

    def test_a_reload_is_said(self) -> None:
        _, printed, _ = run_word("diff", CONFIG, CHANGED, SCRIPT)
        self.assertIn(
            "the script reloads at 02:24:00: from then on both run under what it loads; --ignore-reloads leaves it out\n",
            printed,
        )
        _, printed, _ = run_word("diff", CONFIG, CHANGED, SCRIPT, "--ignore-reloads")
        self.assertIn("left out: the reload at 02:24:00\n", printed)
        self.assertIn("payments-pager (pagerduty): A never, B 01:42:10\n", printed)

    def test_something_lost_has_status_1(self) -> None:
        status, printed, _ = run_word("diff", CHANGED, CONFIG, SCRIPT)
        self.assertEqual(status, 1)
        self.assertIn("LOST: notified under A, and not under B (1)\n", printed)
        self.assertIn("      B 01:52:10-02:20:00  outside business-hours: route 4", printed)
        self.assertIn("A 01:42:10, B 02:24:00: 41 m 50 s later\n", printed)

    def test_the_same_is_nothing(self) -> None:
        status, printed, _ = run_word("diff", CONFIG, CONFIG, SCRIPT)
        self.assertEqual((status, len(printed.splitlines())), (0, 3))

    def test_json(self) -> None:
        status, printed, _ = run_word("diff", CHANGED, CONFIG, SCRIPT, "--output", "json", "--ignore-reloads")
        self.assertEqual(status, 1)
        value = json.loads(printed)
        self.assertEqual(value["reloads"], {"kept": [], "left_out": ["2026-11-24T02:24:00Z"]})
        lost = [each for each in value["differences"] if each["kind"] == "lost"]
        self.assertEqual({each["receiver"] for each in lost}, {"payments-pager"})
        self.assertEqual((lost[0]["before"], lost[0]["after"]), ("2026-11-24T01:42:10Z", None))


class SmallIncidents(WithRoom):
    def test_another_receiver_is_lost_and_new(self) -> None:
        def config(name: str) -> dict[str, Any]:
            return {"route": {"receiver": name}, "receivers": [{"name": name, "webhook_configs": [{}]}]}

        alert = {"labels": {"alertname": "X"}, "startsAt": "2024-05-01T10:00:00Z", "endsAt": "2024-05-01T11:00:00Z"}
        events = [{"at": "2024-05-01T10:00:00Z", "alerts": [alert]}, {"at": "2024-05-01T10:10:00Z", "tick": True}]
        files = (
            self.write_json("a.json", config("one")),
            self.write_json("b.json", config("two")),
            self.write_lines("script.jsonl", events),
        )
        status, printed, _ = run_word("diff", *files)
        self.assertEqual(status, 1)
        self.assertIn("    one (webhook): A 10:00:30, B not on a route of it\n", printed)
        self.assertIn("    two (webhook): A not on a route of it, B 10:00:30\n", printed)
