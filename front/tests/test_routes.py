"""Tests `routes`: the tree, and which routes take labels, as the program answers."""

from __future__ import annotations

import json
import unittest

from .support import INCIDENT, run_word

CONFIG = str(INCIDENT / "config.json")


class Routes(unittest.TestCase):
    def test_the_tree(self) -> None:
        status, printed, errors = run_word("routes", CONFIG)
        self.assertEqual((status, errors), (0, ""))
        lines = printed.splitlines()
        self.assertEqual(
            lines[:2],
            [
                "0  all alerts  ->  slack-catchall (slack)",
                "   group_by alertname, cluster; group_wait 30s; group_interval 5m; repeat_interval 4h",
            ],
        )
        self.assertIn('    4  severity="critical"  ->  payments-pager (pagerduty)', lines)
        self.assertIn("       group_wait 10s; repeat_interval 30m; active in business-hours", lines)
        self.assertIn('  2  severity="critical"  ->  sre-pager (pagerduty, slack)  continue', lines)
        self.assertIn('rule 0  alertname="NodeDown"  mutes  severity=~"warning|info"  same cluster, instance', lines)

    def test_labels(self) -> None:
        for words in (
            ["team=payments", "severity=critical"],
            ['{"team":"payments","severity":"critical"}'],
            ["team=payments,severity=critical"],
        ):
            status, printed, _ = run_word("routes", CONFIG, *words, "--verify.receivers", "sre-pager,payments-pager")
            self.assertEqual(status, 0)
            taking = [line.split()[0] for line in printed.splitlines() if line.endswith("<- takes it")]
            self.assertEqual(taking, ["2", "4"])

    def test_other_receivers_than_expected(self) -> None:
        status, _, errors = run_word("routes", CONFIG, "Watchdog", "--verify.receivers", "sre-pager")
        self.assertEqual((status, errors), (1, "amreplay: the receivers are deadman, and not sre-pager\n"))

    def test_json(self) -> None:
        _, printed, _ = run_word("routes", CONFIG, "severity=critical,team=db", "--json")
        value = json.loads(printed)
        self.assertEqual([route["number"] for route in value["routes"]], [2, 7])
        self.assertEqual((value["routes"][1]["group_wait"], value["routes"][1]["repeat_interval"]), ("30s", "1h"))
        self.assertEqual(value["receivers"], ["sre-pager", "db-pager"])
        rule = {"number": 0, "source": ['alertname="NodeDown"'], "target": ['severity=~"warning|info"']}
        self.assertEqual(value["rules"][0], {**rule, "equal": ["cluster", "instance"]})
