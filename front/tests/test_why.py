"""Tests the text and the JSON of `why`."""

from __future__ import annotations

import json
import unittest
from pathlib import Path
from typing import Any

from .support import INCIDENT, TOP, WithRoom, run_word

CONFIG, SCRIPT = str(INCIDENT / "config.json"), str(INCIDENT / "script.jsonl")
OPS: dict[str, Any] = {"route": {"receiver": "ops"}, "receivers": [{"name": "ops", "webhook_configs": [{}]}]}


def post(at: str, labels: dict[str, str], start: str, end: str) -> dict[str, Any]:
    return {
        "at": f"2024-05-01T{at}Z",
        "alerts": [{"labels": labels, "startsAt": f"2024-05-01T{start}Z", "endsAt": f"2024-05-01T{end}Z"}],
    }


def tick(at: str) -> dict[str, Any]:
    return {"at": f"2024-05-01T{at}Z", "tick": True}


class TheIncident(unittest.TestCase):
    def test_the_whole_text(self) -> None:
        status, printed, errors = run_word("why", CONFIG, SCRIPT)
        self.assertEqual((status, errors), (0, ""))
        self.assertEqual(printed, (INCIDENT / "why.txt").read_text("utf-8"))

    def test_one_alert_in_full(self) -> None:
        status, printed, _ = run_word(
            "why", CONFIG, SCRIPT, "--alert", "alertname=CheckoutErrorRate,service=checkout,cluster=eu-1"
        )
        self.assertEqual(status, 0)
        self.assertIn("1 firing: 1 late", printed)
        self.assertIn(
            '      02:36:00-02:48:00  silenced by marie, "acked, rolling back" (5b1e0000)\n      02:48:00-03:05:00  notified\n',
            printed,
        )

    def test_one_receiver(self) -> None:
        status, printed, _ = run_word("why", CONFIG, SCRIPT, "--receiver", "db-pager")
        self.assertEqual(status, 0)
        self.assertIn("1 firing: 1 late", printed)
        self.assertNotIn("sre-pager", printed)

    def test_json(self) -> None:
        status, printed, _ = run_word("why", CONFIG, SCRIPT, "--json")
        self.assertEqual(status, 0)
        value = json.loads(printed)
        never = {firing["labels"]["alertname"] for firing in value["firings"] if firing["section"] == "nobody"}
        self.assertEqual(never, {"CheckoutLatencyHigh", "PaymentQueueGrows"})
        row = next(row for row in value["rows"] if row["receiver"] == "db-pager" and row["integration"] == "email")
        self.assertEqual(row["spans"][1]["answer"]["verdict"], "Silenced")
        self.assertEqual(row["spans"][1]["reason"], 'silenced by marie, "DB maintenance CHG-4711" (5b1e0000)')

    def test_names_that_are_not_there(self) -> None:
        for words, said in (
            (
                ("--alert", "CheckoutErorRate"),
                'none of the 14 alerts has all of these labels (alertname="CheckoutErorRate" 0); did you mean CheckoutErrorRate?',
            ),
            (("--alert", '{"alertname":"HighCPU","cluster":"eu-1"}'), 'alertname="HighCPU" 1, cluster="eu-1" 10'),
            (("--receiver", "db-pagr"), "no route names db-pagr; did you mean db-pager?"),
            (("--alert", "a=b,"), "none of the 14 alerts"),
            (("--alert", "a=~b"), "labels are an object of texts"),
        ):
            with self.subTest(words):
                status, printed, errors = run_word("why", CONFIG, SCRIPT, *words)
                self.assertEqual((status, printed), (2, ""))
                self.assertIn(said, errors)


class SmallIncidents(WithRoom):
    def why(self, config: Any, events: list[Any], *words: str) -> str:
        status, printed, errors = run_word(
            "why", self.write_json("config.json", config), self.write_lines("script.jsonl", events), *words
        )
        self.assertEqual((status, errors), (0, ""))
        return printed

    def test_a_silence_between_two_events_is_told(self) -> None:
        silence: dict[str, Any] = {
            "matchers": [{"name": "alertname", "value": "High.*", "isRegex": True}],
            "startsAt": "2024-05-01T09:00:00Z",
            "endsAt": "2024-05-01T11:00:00Z",
            "createdBy": "marie",
            "comment": "deploy",
        }
        events = [
            {"at": "2024-05-01T09:00:00Z", "silence": silence, "newId": "7f2c9a10-3d4e-4b6a-9c1d-2e5f8a7b6c01"},
            post("10:00:00", {"alertname": "HighLatency"}, "10:00:00", "20:00:00"),
            tick("14:00:00"),
        ]
        printed = self.why(OPS, events)
        self.assertIn("ops (webhook): 11:00:30, 1 h after its start\n", printed)
        self.assertIn(
            '      10:00:30-11:00:00  silenced by marie, "deploy" (7f2c9a10)\n      11:00:00-11:00:30  waits for the next flush',
            printed,
        )

    def test_what_begins_at_the_last_moment_is_told(self) -> None:
        example = TOP / "examples/a-page-that-never-came"
        _, printed, _ = run_word("why", str(example / "config.json"), str(example / "script.jsonl"))
        self.assertIn("      10:20:00, the end  silenced (7f2c9a10)\n", printed)

    def test_an_alert_that_ends_before_the_first_flush(self) -> None:
        labels = {"alertname": "Short"}
        events = [post("10:00:00", labels, "10:00:00", "10:00:20"), tick("10:05:00")]
        printed = self.why(OPS, events)
        self.assertIn("NOBODY WAS NOTIFIED (1)\n  Short  fired 10:00:00 to 10:00:20\n", printed)
        self.assertIn(
            "    ops (webhook): never\n      10:00:00-10:00:20  waits for the first flush of its group\n", printed
        )

    def test_a_receiver_without_integrations_is_no_alarm(self) -> None:
        config = {"route": {"receiver": "null"}, "receivers": [{"name": "null"}]}
        printed = self.why(config, [post("10:00:00", {"alertname": "X"}, "10:00:00", "11:00:00"), tick("10:30:00")])
        self.assertIn("ONLY TO RECEIVERS WITHOUT INTEGRATIONS (1)", printed)
        self.assertNotIn("NOBODY", printed)

    def test_group_wait_is_not_late(self) -> None:
        config = {**OPS, "route": {"receiver": "ops", "group_wait": "10m"}}
        printed = self.why(config, [post("10:00:00", {"alertname": "X"}, "10:00:00", "11:00:00"), tick("10:30:00")])
        self.assertIn("1 firing: 1 as expected", printed)
        self.assertIn("ops (webhook) 10:10:00, 10 m after its start", printed)

    def test_labels_of_version_2_are_marks(self) -> None:
        events = [
            {"v": 2},
            {"at": "2024-05-01T10:00:00Z", "label": "deploy of 4711"},
            post("10:00:00", {"alertname": "X"}, "10:00:00", "11:00:00"),
        ]
        self.assertIn("10:00:00  event 1: deploy of 4711\n", self.why(OPS, events))

    def test_alerts_that_differ_in_one_label_have_different_names(self) -> None:
        labels = {
            name: name * 5 for name in ("container", "endpoint", "instance", "job", "namespace", "node", "service")
        }
        pods = [{"alertname": "KubePodCrashLooping", **labels, "pod": f"checkout-{i}", "uid": str(i)} for i in range(5)]
        other = {"alertname": "Watchdog"}
        events = [
            {
                "at": "2024-05-01T10:00:00Z",
                "alerts": [{"labels": each, "startsAt": "2024-05-01T10:00:00Z"} for each in [*pods, other]],
            },
            tick("10:30:00"),
        ]
        printed = self.why({**OPS, "inhibit_rules": []}, events)
        lines = [line for line in printed.splitlines() if "KubePodCrashLooping" in line]
        self.assertEqual((len(lines), len(set(lines))), (5, 5))
        self.assertIn('pod="checkout-3", uid="3", …}: ops', printed)

    def test_firings_of_one_alert_have_their_starts(self) -> None:
        labels = {"alertname": "X"}
        events = [
            post("10:00:00", labels, "10:00:00", "10:10:00"),
            post("10:12:00", labels, "10:12:00", "11:00:00"),
            tick("10:30:00"),
        ]
        self.assertIn("  X fired 10:12:00: ops (webhook) 10:12:30, 30 s", self.why(OPS, events, "--late", "1h"))

    def test_hostile_texts_are_one_line(self) -> None:
        events = [post("10:00:00", {"alertname": "X\n\u202ey\x1b[31m"}, "10:00:00", "11:00:00"), tick("10:30:00")]
        printed = self.why(OPS, events)
        self.assertIn("X\\u000a\\u202ey\\u001b[31m", printed)

    def test_a_silence_that_is_changed_in_place_has_its_last_comment(self) -> None:
        silence: dict[str, Any] = {
            "matchers": [{"name": "alertname", "value": "X"}],
            "startsAt": "2024-05-01T10:00:00Z",
            "endsAt": "2024-05-01T11:00:00Z",
        }
        ids = ["5b1e0000-0000-4000-8000-00000000000" + end for end in "12"]
        events = [
            {
                "at": "2024-05-01T10:00:00Z",
                "silence": {**silence, "createdBy": "ann", "comment": "one"},
                "newId": ids[0],
            },
            post("10:00:00", {"alertname": "X"}, "10:00:00", "12:00:00"),
            {
                "at": "2024-05-01T10:10:00Z",
                "silence": {**silence, "id": ids[0], "createdBy": "bob", "comment": "two"},
                "newId": ids[1],
            },
            tick("10:30:00"),
        ]
        self.assertIn('silenced by bob, "two" (5b1e0000)', self.why(OPS, events))

    def test_yaml_and_a_zone(self) -> None:
        config = self.write(
            "alertmanager.yml",
            "route:\n  receiver: ops\n  routes: [{mute_time_intervals: [evening]}]\nreceivers: [{name: ops, telegram_configs: [{}]}]\n"
            "time_intervals: [{name: evening, time_intervals: [{times: [{start_time: '12:00', end_time: '13:00'}], location: Europe/Paris}]}]\n",
        )
        script = self.write_lines(
            "script.jsonl", [post("10:00:00", {"alertname": "X"}, "10:00:00", "12:00:00"), tick("12:30:00")]
        )
        status, printed, errors = run_word("why", config, script)
        self.assertEqual((status, errors), (0, ""))
        self.assertIn(
            "ops (telegram): 11:00:30, 1 h after its start\n      10:00:30-11:00:00  muted by evening: route 1", printed
        )

    def test_an_unknown_key_is_warned_of(self) -> None:
        config = self.write_json("config.json", {**OPS, "route": {"receiver": "ops", "group_wiat": "1m"}})
        status, _, errors = run_word("why", config, self.write_lines("script.jsonl", [tick("10:00:00")]))
        self.assertEqual(status, 0)
        self.assertIn(
            "warning: route.group_wiat: unknown key group_wiat, which is ignored; did you mean group_wait?\n", errors
        )

    def test_an_empty_script(self) -> None:
        self.assertEqual(
            self.why(OPS, []).splitlines()[:2], ["no time: 0 events, 0 alerts, 0 notifications", "no alert fired"]
        )

    def test_files_are_as_they_were(self) -> None:
        before = Path(SCRIPT).read_bytes()
        run_word("why", CONFIG, SCRIPT)
        self.assertEqual(Path(SCRIPT).read_bytes(), before)
