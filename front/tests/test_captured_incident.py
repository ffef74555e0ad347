"""Tests the whole way with what a real Prometheus and a real Alertmanager answered, and sent."""

from __future__ import annotations

import json
import os
import re
import tempfile
import unittest
from pathlib import Path

from front.program import TOP

from .support import run_word

INCIDENT = TOP / "examples/a-captured-incident"
SPAN = ["--from", "2026-11-27T03:11:30Z", "--to", "2026-11-27T03:13:25Z", "--history", "0"]


class CapturedIncident(unittest.TestCase):
    def setUp(self) -> None:
        self.addCleanup(os.chdir, os.getcwd())
        os.chdir(INCIDENT)

    def test_the_files_are_made_from_the_responses(self) -> None:
        with tempfile.TemporaryDirectory() as room:
            out = Path(room) / "out"
            status, _, errors = run_word("capture", "--responses", "responses", *SPAN, "--output", str(out))
            self.assertEqual(status, 0, errors)
            for name in ("config.json", "script.jsonl", "captured.md"):
                self.assertEqual((out / name).read_text(), Path(name).read_text(), name)

    def test_the_replay_predicts_what_was_sent(self) -> None:
        status, printed, errors = run_word("compare", "config.json", "script.jsonl", "--webhooks", "webhooks.jsonl")
        self.assertEqual((status, errors), (0, ""), printed)
        counts = "12 received, 12 replayed; 12 by receiver and group, 12 of them with the same alerts; greatest difference 0.160 s"
        self.assertTrue(printed.splitlines()[-1].startswith(counts), printed)

    def test_what_was_printed_has_the_alerts_that_were_sent(self) -> None:
        status, printed, _ = run_word(
            "compare", "config.json", "script.jsonl", "--webhooks", "webhooks.jsonl", "--output", "json"
        )
        lines = [json.loads(line) for line in printed.splitlines()]
        self.assertEqual((status, len(lines)), (0, 12))
        self.assertTrue(all(line["alerts"] and 0 <= line["difference"] < 0.2 for line in lines))

    def test_the_configuration_may_be_yaml_with_zones(self) -> None:
        original = json.loads(Path("responses/alertmanager/status.json").read_text())["config"]["original"]
        self.assertIn("location: Europe/Paris", original)
        with tempfile.TemporaryDirectory() as room:
            config = Path(room) / "alertmanager.yml"
            config.write_text(original)
            status, printed, _ = run_word("compare", str(config), "script.jsonl", "--webhooks", "webhooks.jsonl")
        self.assertEqual(status, 0, printed)

    def test_a_missing_notification_and_other_alerts_are_differences(self) -> None:
        with tempfile.TemporaryDirectory() as room:
            log = Path(room) / "webhooks.jsonl"
            lines = Path("webhooks.jsonl").read_text().splitlines(keepends=True)
            log.write_text("".join([*lines[:3], *lines[4:-1], lines[-1].replace('"host": "h1"', '"host": "h7"')]))
            status, printed, _ = run_word("compare", "config.json", "script.jsonl", "--webhooks", str(log))
        self.assertEqual(status, 1)
        self.assertEqual(len(re.findall("not received", printed)), 1)
        self.assertIn('only received: resolved {alertname="HostDown", cluster="live", host="h7"', printed)
        self.assertIn("11 received, 12 replayed; 11 by receiver and group, 10 of them with the same alerts", printed)

    def test_hostile_texts_stay_in_their_lines(self) -> None:
        hostile = json.dumps("\x1b[31m\n\u202e\ud800'\"</script>")
        with tempfile.TemporaryDirectory() as room:
            log = Path(room) / "webhooks.jsonl"
            log.write_text(
                Path("webhooks.jsonl")
                .read_text()
                .replace('"h1"', hostile)
                .replace('"receiver": "on"', f'"receiver": {hostile}')
            )
            for form in ("text", "json"):
                words = ["config.json", "script.jsonl", "--webhooks", str(log), "--output", form]
                status, printed, errors = run_word("compare", *words)
                self.assertEqual((status, errors), (1, ""))
                self.assertTrue(all(line.isprintable() for line in printed.split("\n")), printed)

    def test_logs_that_are_no_logs_name_their_line(self) -> None:
        with tempfile.TemporaryDirectory() as room:
            log = Path(room) / "webhooks.jsonl"
            for line in (
                "{",
                "[]",
                '{"receivedAt":"now","body":{}}',
                '{"receivedAt":"2026-11-27T03:11:30Z","body":{"alerts":5}}',
            ):
                log.write_text("\n" + line + "\n")
                status, printed, errors = run_word("compare", "config.json", "script.jsonl", "--webhooks", str(log))
                self.assertEqual((status, printed), (1, ""))
                self.assertRegex(
                    errors, "^amreplay: compare: .*webhooks.jsonl: line 2 isn't an object with receivedAt, .*\n$"
                )


if __name__ == "__main__":
    unittest.main()
