"""Tests relabelling against what Prometheus's documentation says of each action."""

from __future__ import annotations

import unittest

from front.capture.prometheus_config import prometheus_config
from front.capture.relabel import Labels, relabelled
from front.program import Fault

BEFORE = {"alertname": "Down", "host": "h1.eu", "replica": "a", "job": "node"}


def after(steps: str, labels: Labels = BEFORE) -> Labels | None:
    """Returns labels after the steps of a configuration."""
    return relabelled(labels, prometheus_config("alerting:\n  alert_relabel_configs:\n" + steps, "test").steps)


class Relabel(unittest.TestCase):
    def changed(self, step: str) -> dict[str, str | None]:
        found = after(f"    - {step}\n")
        assert found is not None
        names = set(found) | set(BEFORE)
        return {name: found.get(name) for name in sorted(names) if found.get(name) != BEFORE.get(name)}

    def test_replace(self) -> None:
        self.assertEqual(
            self.changed("{source_labels: [host], regex: '(.+)[.](.+)', target_label: zone, replacement: '$2-${1}'}"),
            {"zone": "eu-h1"},
        )
        self.assertEqual(
            self.changed("{source_labels: [host, job], separator: /, target_label: both}"), {"both": "h1.eu/node"}
        )
        self.assertEqual(self.changed("{source_labels: [host], regex: h1, target_label: zone, replacement: x}"), {})
        self.assertEqual(self.changed("{target_label: team, replacement: 007}"), {"team": "007"})
        self.assertEqual(self.changed("{source_labels: [none], target_label: job}"), {"job": None})
        self.assertEqual(
            self.changed("{source_labels: [host], regex: (.*), target_label: x, replacement: '$1x$$${9}'}"), {"x": "$"}
        )
        self.assertEqual(
            self.changed("{source_labels: [host], regex: '[[:alpha:]]1.*', target_label: x, replacement: y}"),
            {"x": "y"},
        )
        self.assertEqual(
            self.changed("{source_labels: [host], regex: '(?i)H1.*', target_label: x, replacement: y}"), {"x": "y"}
        )

    def test_dropping_labels(self) -> None:
        self.assertEqual(self.changed("{regex: replica|jo, action: labeldrop}"), {"replica": None})
        self.assertEqual(self.changed("{regex: alertname|host, action: labelkeep}"), {"replica": None, "job": None})

    def test_other_actions(self) -> None:
        self.assertEqual(self.changed("{regex: 'h(.*)', replacement: 'g_$1', action: labelmap}"), {"g_ost": "h1.eu"})
        self.assertEqual(
            self.changed("{source_labels: [host], target_label: host, action: Uppercase}"), {"host": "H1.EU"}
        )
        hashed = after("    - {source_labels: [c], target_label: d, modulus: 1000, action: hashmod}\n", {"c": "baz"})
        self.assertEqual(hashed, {"c": "baz", "d": "976"})

    def test_dropping_alerts(self) -> None:
        self.assertIsNone(after("    - {source_labels: [job], regex: node, action: drop}\n"))
        self.assertIsNone(after("    - {source_labels: [job], regex: nod, action: keep}\n"))
        self.assertIsNone(after("    - {source_labels: [job], target_label: job, action: dropequal}\n"))
        self.assertIsNotNone(after("    - {source_labels: [job], target_label: job, action: keepequal}\n"))

    def test_faults_are_clear(self) -> None:
        for step in (
            "{regex: '('}",
            "{action: bogus}",
            "{action: hashmod}",
            "{action: hashmod, modulus: x}",
            "{regex: '[[:odd:]]'}",
        ):
            with self.subTest(step), self.assertRaisesRegex(Fault, r"alert_relabel_configs\[0\]"):
                after(f"    - {step}\n")

    def test_texts_of_the_configuration_stay_texts(self) -> None:
        config = prometheus_config(
            "global: {external_labels: {replica: 01, on: yes, day: 2024-01-01}, scrape_interval: 5s}", "test"
        )
        self.assertEqual(config.external_labels, {"replica": "01", "on": "yes", "day": "2024-01-01"})
        self.assertEqual(config.scrape_interval, 5 * 10**9)


if __name__ == "__main__":
    unittest.main()
