"""Tests a capture the whole way: from the responses of the APIs to the notifications that the program prints."""

from __future__ import annotations

import json
from typing import Any

from front.program import Program

from .responses import CONFIG, Server, alertmanager, matrix, prometheus, rule, samples, save
from .support import WithRoom, run_word

START, END = "2024-05-01T10:00:00Z", "2024-05-01T10:30:00Z"
MINUTES = range(0, 600, 30)


def second(at: str) -> str:
    """Returns the second of a moment. A post is dated some milliseconds after its evaluation."""
    return at[:19] + "Z"


def hosts(alerts: list[dict[str, Any]]) -> list[str]:
    """Returns the hosts of alerts."""
    return [alert["labels"].get("host", "-") for alert in alerts]


class Captures(WithRoom):
    """A test that captures saved responses, and replays what was captured."""

    def capture(self, answers: dict[str, dict[str, Any]], *words: str, start: str = START, end: str = END) -> str:
        """Captures, and returns the report."""
        folder = save(self.room / "responses", answers)
        words = ("--responses", str(folder), "--from", start, "--to", end, "--output", str(self.room / "out"), *words)
        status, printed, report = run_word("capture", *words)
        self.assertEqual((status, printed), (0, ""), report)
        self.assertEqual(report, (self.room / "out/captured.md").read_text())
        return report

    def script(self) -> list[dict[str, Any]]:
        """Returns the lines of the script that was captured, without the one of its version."""
        lines = [json.loads(line) for line in (self.room / "out/script.jsonl").read_text().splitlines()]
        self.assertEqual(lines[0], {"v": 2})
        return lines[1:]

    def posts(self) -> list[tuple[str, list[dict[str, Any]]]]:
        """Returns the posts of the script: the second, and the alerts."""
        return [(second(line["at"]), line["alerts"]) for line in self.script() if "alerts" in line]

    def notified(self) -> list[tuple[str, str, list[str], list[str]]]:
        """Returns what the program prints: second, receiver, and the hosts whose alerts fire and that are resolved."""
        out = self.room / "out"
        printed = Program.found().run(Program.found().source(str(out / "config.json"), str(out / "script.jsonl")))
        lines = [line for line in printed if "at" in line]
        return [
            (second(line["at"]), line["receiver"], hosts(line["firing"]), hosts(line["resolved"])) for line in lines
        ]


class Capture(Captures):
    def test_an_alert_is_notified_repeated_and_resolved(self) -> None:
        answers = prometheus(samples("Down", START, *MINUTES, host="h1"), rules=[rule("Down")])
        self.capture({"prometheus": answers, "alertmanager": alertmanager()}, "--history", "0")
        first = self.posts()[0]
        self.assertEqual(
            first,
            (
                START,
                [{"labels": {"alertname": "Down", "host": "h1"}, "startsAt": START, "endsAt": "2024-05-01T10:04:00Z"}],
            ),
        )
        self.assertEqual([at for at, _ in self.posts()[:3]], [START, "2024-05-01T10:01:30Z", "2024-05-01T10:03:00Z"])
        self.assertEqual(
            self.notified(),
            [
                ("2024-05-01T10:00:10Z", "ops", ["h1"], []),
                ("2024-05-01T10:06:10Z", "ops", ["h1"], []),
                ("2024-05-01T10:10:10Z", "ops", [], ["h1"]),
            ],
        )
        self.assertEqual(self.script()[-1], {"at": END, "tick": True})

    def test_a_gap_is_an_end_and_a_new_start(self) -> None:
        flapping = samples("Down", START, *range(0, 91, 30), *range(180, 301, 30), host="h1")
        self.capture(
            {"prometheus": prometheus(flapping, rules=[rule("Down")]), "alertmanager": alertmanager()}, "--history", "0"
        )
        starts = {alert["startsAt"] for _, alerts in self.posts() for alert in alerts}
        self.assertEqual(starts, {START, "2024-05-01T10:03:00Z"})
        self.assertEqual([(at[11:19], *found) for at, _, *found in self.notified()][:3], [
            ("10:00:10", ["h1"], []), ("10:02:10", [], ["h1"]), ("10:03:10", ["h1"], []),
        ])  # fmt: skip

    def test_a_restart_is_no_end(self) -> None:
        answers = prometheus(
            samples("Down", START, *range(0, 300, 30), *range(480, 900, 30), host="h1"), rules=[rule("Down")]
        )
        pulses = [1714557600.0 + second for second in (*range(0, 281, 10), *range(400, 1800, 10))]
        answers["pulses"] = {
            "status": "success",
            "data": {"result": [{"metric": {}, "values": [[at, str(at)] for at in pulses]}]},
        }
        report = self.capture({"prometheus": answers, "alertmanager": alertmanager()}, "--history", "0")
        self.assertIn("no evaluations from 2024-05-01 10:04:40 to 2024-05-01 10:06:40", report)
        starts = sorted({alert["startsAt"] for _, alerts in self.posts() for alert in alerts})
        self.assertEqual(starts, [START, "2024-05-01T10:07:00Z"])
        self.assertNotIn("2024-05-01T10:05:00Z", [at for at, _ in self.posts()])
        resolved = [at for at, _, _, resolved in self.notified() if resolved]
        self.assertEqual(resolved, ["2024-05-01T10:15:10Z"])

    def test_a_restart_is_known_exactly_if_the_prometheus_scrapes_itself(self) -> None:
        series = samples("Down", START, *range(0, 271, 30), *range(390, 900, 30), host="h1")
        answers = prometheus(series, rules=[rule("Down")])

        def starts(instance: str, *values: tuple[int, str]) -> dict[str, Any]:
            return {"metric": {"instance": instance}, "values": [[1714557600 + at, value] for at, value in values]}

        answers["starts-prometheus"] = matrix(
            starts("self:9090", (0, "1714500000.5"), (300, "1714557892.25")), starts("other:9090", (0, "1714557700"))
        )
        answers["runtime"] = {"status": "success", "data": {"startTime": "2024-05-02T00:00:00.9Z"}}
        now = [
            {"metric": {"instance": name}, "value": [0, at]}
            for name, at in (("self:9090", "1714608000.1"), ("other:9090", "1"))
        ]
        answers["starts-now"] = {"status": "success", "data": {"result": now}}
        report = self.capture({"prometheus": answers, "alertmanager": alertmanager()}, "--history", "0")
        self.assertIn("no evaluations from 2024-05-01 10:04:30 to 2024-05-01 10:04:52.25", report)
        starts_at = sorted({alert["startsAt"] for _, alerts in self.posts() for alert in alerts})
        self.assertEqual(starts_at, [START, "2024-05-01T10:05:30Z"])

    def test_replicas_are_one_script(self) -> None:
        config = (
            "global: {external_labels: {cluster: eu, replica: %s}}\n"
            "alerting: {alert_relabel_configs: [{regex: replica, action: labeldrop}, {source_labels: [host], regex: noise, action: drop}]}"
        )
        one = prometheus(samples("Down", START, *MINUTES, host="h1"), rules=[rule("Down")], config=config % "a")
        late = samples("Down", "2024-05-01T10:00:07Z", *MINUTES, host="h1")
        two = prometheus(
            late, samples("Down", START, *MINUTES, host="noise"), rules=[rule("Down")], config=config % "b"
        )
        report = self.capture(
            {"prometheus-1": one, "prometheus-2": two, "alertmanager": alertmanager()}, "--history", "0"
        )
        labels = {json.dumps(alert["labels"]) for _, alerts in self.posts() for alert in alerts}
        self.assertEqual(labels, {'{"alertname": "Down", "cluster": "eu", "host": "h1"}'})
        self.assertEqual([at[11:19] for at, _ in self.posts()[:4]], ["10:00:00", "10:00:07", "10:01:30", "10:01:37"])
        self.assertIn("1 alert dropped", report)
        self.assertEqual([at[11:] for at, *_ in self.notified()], ["10:00:10Z", "10:06:10Z", "10:10:10Z"])

    def test_a_flush_at_the_moment_of_an_evaluation_takes_what_is_posted_then(self) -> None:
        # The first flush is due 10 seconds after the first post, and the next one a minute later.
        series = [
            samples("Down", START, *range(0, 600, 10), host="h1"),
            samples("Down", START, *range(10, 70, 10), host="h2"),
        ]
        answers = prometheus(*series, rules=[rule("Down")], interval=10)
        self.capture({"prometheus": answers, "alertmanager": alertmanager()}, "--history", "0")
        expected = [("2024-05-01T10:00:10Z", "ops", ["h1", "h2"], []), ("2024-05-01T10:01:10Z", "ops", ["h1"], ["h2"])]
        self.assertEqual(self.notified()[:2], expected)

    def test_alerts_of_one_evaluation_are_one_line(self) -> None:
        series = [samples("Down", START, 0, 30, host=f"h{i}") for i in (3, 1, 2)]
        self.capture(
            {"prometheus": prometheus(*series, rules=[rule("Down")]), "alertmanager": alertmanager()}, "--history", "0"
        )
        self.assertEqual([alert["labels"]["host"] for alert in self.posts()[0][1]], ["h1", "h2", "h3"])
        self.assertEqual(self.notified()[0][2], ["h1", "h2", "h3"])

    def test_a_post_that_is_too_long_for_a_line_is_several_lines(self) -> None:
        series = [samples("Down", START, 0, host=f"h{i:04}", text="é" * 1000) for i in range(1200)]
        self.capture(
            {"prometheus": prometheus(*series, rules=[rule("Down")]), "alertmanager": alertmanager()}, "--history", "0"
        )
        lines = (self.room / "out/script.jsonl").read_bytes().split(b"\n")
        self.assertTrue(all(len(line) <= 1_048_576 for line in lines))
        self.assertEqual(len([at for at, _ in self.posts() if at == START]), 3)
        self.assertEqual(len(self.notified()[0][2]), 1200)

    def test_texts_that_look_like_numbers_are_texts(self) -> None:
        config = """\
route:
  receiver: on
  group_wait: 10s
  routes: [{match: {code: 500}, receiver: 007, group_by: [code]}]
receivers:
  - {name: on, telegram_configs: [{chat_id: 1}]}
  - {name: 007, sns_configs: [{topic_arn: x}]}
"""
        answers = prometheus(
            samples("Errors", START, 0, 30, code="500"), rules=[rule("Errors", labels={"code": "500"})]
        )
        self.capture({"prometheus": answers, "alertmanager": alertmanager(config)}, "--history", "0")
        self.assertEqual(self.notified()[0], ("2024-05-01T10:00:10Z", "007", ["-"], []))

    def test_business_hours_over_the_change_of_the_clocks(self) -> None:
        config = """\
route:
  receiver: night
  routes: [{matchers: [alertname=Down], receiver: day, active_time_intervals: [hours], group_wait: 0s, group_interval: 1h, repeat_interval: 30m}]
receivers: [{name: night, webhook_configs: [{}]}, {name: day, webhook_configs: [{}]}]
time_intervals:
  - name: hours
    time_intervals: [{times: [{start_time: 09:00, end_time: 17:00}], location: Europe/Berlin}]
"""
        start, end = "2024-03-30T00:00:00Z", "2024-04-01T00:00:00Z"
        answers = prometheus(samples("Down", start, *range(0, 2 * 86400, 30), host="h1"), rules=[rule("Down")])
        report = self.capture(
            {"prometheus": answers, "alertmanager": alertmanager(config)}, "--history", "0", start=start, end=end
        )
        self.assertIn("written as UTC intervals for the days of the script alone: hours", report)
        hours = [at[8:13] for at, *_ in self.notified()]
        self.assertEqual((hours[0], [hour for hour in hours if hour.startswith("31T")][0]), ("30T08", "31T07"))
        self.assertEqual(max(hour for hour in hours if hour.startswith("31T")), "31T14")

    def test_annotations_are_filled_in_where_they_are_plain(self) -> None:
        annotations: dict[str, Any] = {
            "summary": "{{ $labels.host }} is down",
            "value": "{{ $value }} of {{ $labels.host }}",
            "team": "{{ $labels.team }}",
        }
        answers = prometheus(
            samples("Down", START, 0, 30, host="h1", team="a"),
            rules=[rule("Down", labels={"team": "a"}, **annotations)],
        )
        report = self.capture({"prometheus": answers, "alertmanager": alertmanager()}, "--history", "0")
        expected = {
            "summary": "h1 is down",
            "value": "{{ $value }} of {{ $labels.host }}",
            "team": "{{ $labels.team }}",
        }
        self.assertEqual(self.posts()[0][1][0]["annotations"], expected)
        self.assertIn("as written: Down", report)

    def test_silences_keep_who_made_them_and_mute(self) -> None:
        silence: dict[str, Any] = {
            "id": "7F2C9A10-3d4e-4b6a-9c1d-2e5f8a7b6c01",
            "matchers": [{"isEqual": True, "isRegex": False, "name": "host", "value": "h1"}],
            "startsAt": "2024-05-01T04:00:00.5Z", "endsAt": "2024-05-01T10:05:00.000Z", "updatedAt": "2024-05-01T10:05:00.000Z",
            "createdBy": "marie", "comment": "DB <maintenance> \u202e", "status": {"state": "expired"},
        }  # fmt: skip
        other = {**silence, "id": "00000000-0000-4000-8000-000000000001", "endsAt": "2024-05-01T05:00:00Z"}
        answers = prometheus(samples("Down", START, *MINUTES, host="h1"), rules=[rule("Down")])
        self.capture(
            {"prometheus": answers, "alertmanager": alertmanager(silences=[silence, other])}, "--history", "1h"
        )
        found = [line for line in self.script() if "silence" in line]
        self.assertEqual(
            [(line["at"], line["newId"]) for line in found], [("2024-05-01T09:00:00Z", silence["id"].lower())]
        )
        self.assertEqual(
            (found[0]["silence"]["createdBy"], found[0]["silence"]["comment"]), ("marie", silence["comment"])
        )
        self.assertEqual([at[11:] for at, *_ in self.notified()], ["10:05:10Z", "10:10:10Z"])

    def test_alerts_of_other_senders_are_posted_at_their_start_and_their_last_post(self) -> None:
        stored = {
            "labels": {"alertname": "Backup", "host": "h9"}, "annotations": {}, "startsAt": "2024-05-01T10:00:12.000Z",
            "endsAt": "2024-05-01T10:32:00.000Z", "updatedAt": "2024-05-01T10:28:12.000Z",
        }  # fmt: skip
        self.capture({"alertmanager": alertmanager(alerts=[stored])})
        self.assertEqual([at for at, _ in self.posts()], ["2024-05-01T10:00:12Z", "2024-05-01T10:28:12Z"])
        self.assertEqual(self.notified()[0][0], "2024-05-01T10:00:22Z")

    def test_reloads_and_restarts_are_labels(self) -> None:
        answers = prometheus(samples("Down", START, *MINUTES, host="h1"), rules=[rule("Down")])
        metric = {"__name__": "alertmanager_config_last_reload_success_timestamp_seconds", "instance": "am:9093"}
        values = [
            [1714557600 + second, "1714500000.1" if second < 120 else "1714557715.25"] for second in range(0, 300, 15)
        ]
        answers["reloads"] = {"status": "success", "data": {"result": [{"metric": metric, "values": values}]}}
        report = self.capture({"prometheus": answers, "alertmanager": alertmanager()})
        labels = [(line["at"], line["label"]) for line in self.script() if "label" in line]
        self.assertEqual([at for at, _ in labels], [START, "2024-05-01T10:01:55.250000000Z"])
        self.assertRegex(labels[1][1], "^alertmanager am:9093 loaded its configuration again: .*isn't known")
        self.assertIn(labels[1][1], report)

    def test_another_configuration_may_be_given(self) -> None:
        file = self.write("other.yml", CONFIG.replace("ops", "others"))
        answers = prometheus(samples("Down", START, 0, 30, host="h1"), rules=[rule("Down")])
        self.capture({"prometheus": answers, "alertmanager": alertmanager()}, "--config", file, "--history", "0")
        self.assertEqual({receiver for _, receiver, *_ in self.notified()}, {"others"})
        self.assertNotIn("secret", (self.room / "out/config.json").read_text())

    def test_a_configuration_alone_is_captured_without_servers(self) -> None:
        file = self.write("alertmanager.yml", CONFIG)
        words = ["--config", file, "--from", START, "--to", END, "--output", str(self.room / "out")]
        self.assertEqual(run_word("capture", *words)[0], 0)
        self.assertEqual([line.get("tick") for line in self.script() if "label" not in line], [True])
        self.assertEqual(
            json.loads((self.room / "out/config.json").read_text())["receivers"],
            [{"name": "ops", "webhook_configs": [{}]}],
        )

    def test_a_configuration_as_json_is_cut_too(self) -> None:
        receivers = [
            {
                "name": "ops",
                "sns_configs": [{"api_url": "secret"}],
                "webhook_configs": [{"url": "secret", "send_resolved": False}],
            }
        ]
        config = {
            "global": {"smtp_auth_password": "secret"},
            "route": {"receiver": "ops", "note": "secret"},
            "receivers": receivers,
        }
        self.capture({"alertmanager": alertmanager()}, "--config", self.write_json("config.json", config))
        expected = [
            {"name": "ops", "sns_configs": [{"send_resolved": True}], "webhook_configs": [{"send_resolved": False}]}
        ]
        found = json.loads((self.room / "out/config.json").read_text())
        self.assertEqual(found, {"global": {}, "route": {"receiver": "ops"}, "receivers": expected})

    def test_repeats_at_exact_multiples_are_named(self) -> None:
        report = self.capture({"alertmanager": alertmanager()})
        self.assertIn("at 1 of 1 routes repeat_interval is an exact multiple of group_interval", report)

    def test_servers_and_their_saved_responses_give_the_same(self) -> None:
        answers = {
            "prometheus-1": prometheus(samples("Down", START, *MINUTES, host="h1"), rules=[rule("Down")]),
            "alertmanager": alertmanager(),
        }
        server = Server({**answers["prometheus-1"], **answers["alertmanager"]})
        self.addCleanup(server.close)
        words = ["--from", START, "--to", END, "--output", str(self.room / "live")]
        kept = ["--keep-responses", str(self.room / "kept")]
        status, _, errors = run_word("capture", "--prometheus", server.url, "--alertmanager", server.url, *words, *kept)
        self.assertEqual(status, 0, errors)
        words[-1] = str(self.room / "again")
        self.assertEqual(run_word("capture", "--responses", str(self.room / "kept"), *words)[0], 0)
        self.capture(answers)
        for name in ("config.json", "script.jsonl"):
            texts = {(self.room / folder / name).read_text() for folder in ("live", "again", "out")}
            self.assertEqual(len(texts), 1, name)
        self.assertEqual({method for method, _, _ in server.asked}, {"GET"})
