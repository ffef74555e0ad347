"""Tests `expect`: what is met, what fails and why, and recording."""

from __future__ import annotations

import json
from typing import Any

from .support import INCIDENT, WithRoom, run_word

CONFIG, CHANGED, SCRIPT = (str(INCIDENT / name) for name in ("config.json", "changed.json", "script.jsonl"))


class Expectations(WithRoom):
    def expect(self, lines: list[Any], *words: str, config: str = CONFIG) -> tuple[int, str, str]:
        return run_word("expect", config, SCRIPT, self.write_lines("expected.jsonl", lines), *words)

    def test_what_is_met(self) -> None:
        labels = {"alertname": "CheckoutErrorRate", "service": "checkout", "cluster": "eu-1"}
        lines = [
            {"labels": labels, "receiver": "sre-pager", "by": "2026-11-24T01:42:30Z"},
            {"labels": labels, "receiver": "db-pager", "never": True},
            {
                "labels": {"alertname": "HighCPU"},
                "receiver": "frontend-slack",
                "after": "2026-11-24T02:00:00Z",
                "by": "2026-11-24T02:56:00Z",
            },
            {
                "labels": {"alertname": "CheckoutErrorRate"},
                "receiver": "sre-pager",
                "integration": "slack",
                "by": "2026-11-24T01:45:00Z",
            },
        ]
        self.assertEqual(self.expect(lines), (0, "4 of 4 expectations met\n", ""))

    def test_each_failure_has_its_reason(self) -> None:
        labels = {"alertname": "CheckoutErrorRate", "service": "checkout"}
        lines = [
            {"labels": labels, "receiver": "payments-pager", "by": "2026-11-24T01:45:00Z"},
            {"labels": labels, "receiver": "sre-pager", "never": True},
            {"labels": labels, "receiver": "db-pager", "by": "2026-11-24T01:45:00Z"},
            {"labels": {"alertname": "Nothing"}, "receiver": "db-pager", "never": True},
            {"labels": labels, "receiver": "nobody", "never": True},
            {"labels": labels, "receiver": "sre-pager", "by": "2026-11-24T01:00:00Z"},
        ]
        status, printed, errors = self.expect(lines)
        self.assertEqual((status, errors), (1, ""))
        for said in (
            'expected.jsonl:1: payments-pager: CheckoutErrorRate{cluster="eu-1", service="checkout", team="payments"} critical: '
            "expected by 01:45:00, and notified at 02:24:00, 39 m late\n",
            "  01:47:00-02:03:00  inhibited by ClusterUnreachable",
            "critical: never expected, and notified at 01:42:30\n",
            "  no route takes it to this receiver\n",
            "expected.jsonl:4: db-pager: none of the 14 alerts has these labels\n",
            "expected.jsonl:5: nobody: no route names the receiver nobody\n",
            "expected.jsonl:6: sre-pager: none of the alerts with these labels fires by 01:00:00\n",
            "0 of 6 expectations met\n",
        ):
            self.assertIn(said, printed)
        self.assertNotIn("us-2", printed.split("expected.jsonl:2")[0])

    def test_a_record_is_met_and_a_change_is_found(self) -> None:
        path = str(self.room / "recorded.jsonl")
        status, printed, _ = run_word("expect", CONFIG, SCRIPT, path, "--record")
        self.assertEqual((status, printed), (0, f"28 expectations recorded in {path}\n"))
        self.assertEqual(run_word("expect", CONFIG, SCRIPT, path)[0], 0)
        status, printed, _ = run_word("expect", CHANGED, SCRIPT, path)
        self.assertEqual(status, 1)
        self.assertIn(
            'CheckoutErrorRate{cluster="us-2", service="checkout", team="payments"} critical: never expected', printed
        )
        self.assertIn("27 of 28 expectations met", printed)

    def test_a_record_writes_over_nothing(self) -> None:
        path = self.write("recorded.jsonl", "mine\n")
        status, _, errors = run_word("expect", CONFIG, SCRIPT, path, "--record")
        self.assertEqual((status, errors), (1, f"amreplay: {path} is there already; remove it to record anew\n"))
        self.assertEqual((self.room / "recorded.jsonl").read_text(), "mine\n")

    def test_json(self) -> None:
        status, printed, _ = self.expect(
            [{"labels": {"alertname": "HighCPU"}, "receiver": "frontend-slack", "never": True}], "--output", "json"
        )
        value = json.loads(printed)
        self.assertEqual((status, value["expectations"], value["failures"][0]["line"]), (1, 1, 1))

    def test_lines_that_are_no_expectations(self) -> None:
        good = {"labels": {}, "receiver": "x", "never": True}
        for line, said in (
            ("{", "no JSON"),
            ("[]", "an expectation is an object"),
            (json.dumps({**good, "nevr": True}), "unknown key nevr; an expectation has labels"),
            (json.dumps({**good, "by": "2026-11-24T01:00:00Z"}), 'either "by":MOMENT or "never":true'),
            (json.dumps({**good, "never": False}), 'either "by":MOMENT or "never":true'),
            (json.dumps({"labels": {}, "receiver": "x", "by": "today"}), "by is a moment such as"),
            (json.dumps({"labels": {"a": 1}, "receiver": "x", "never": True}), "labels is an object of texts"),
            (json.dumps({"labels": {}, "never": True}), "a receiver is required"),
        ):
            with self.subTest(line):
                path = self.write("expected.jsonl", "\n" + line + "\n")
                status, printed, errors = run_word("expect", CONFIG, SCRIPT, path)
                self.assertEqual((status, printed), (1, ""))
                self.assertIn(f"{path}:2: ", errors)
                self.assertIn(said, errors)
