"""Tests `lint`: faults and oddities with their line, the value, and what to write."""

from __future__ import annotations

import json
from typing import Any

from .support import INCIDENT, WithRoom, run_word

OPS: dict[str, Any] = {"route": {"receiver": "ops"}, "receivers": [{"name": "ops", "webhook_configs": [{}]}]}


def with_route(**route: Any) -> dict[str, Any]:
    return {**OPS, "route": {"receiver": "ops", **route}}


def with_interval(**member: Any) -> dict[str, Any]:
    return {
        **with_route(routes=[{"mute_time_intervals": ["nights"]}]),
        "time_intervals": [{"name": "nights", "time_intervals": [member]}],
    }


REFUSED = [
    (with_route(group_wait="30 s"), 'route.group_wait: "30 s" is no duration', 'write "30s"'),
    (with_route(group_wait=30), "route.group_wait: 30 is a number, and no duration", 'write a text with a unit, as "30s"'),
    (with_route(group_wait="1.5m"), '"1.5m" is no duration', 'write "1m30s"'),
    (with_route(group_wait="1m1h"), '"1m1h" is no duration', 'write "1h1m"'),
    (with_route(group_wait="2 minutes"), '"2 minutes" is no duration', 'write "2m"'),
    (with_route(group_wait="11y"), "11y is longer than ten years", 'the longest is "10y"'),
    (with_route(**{"continue": "yes"}), 'route.continue: "yes" is no boolean', "write true"),
    (with_route(routes=[{"matchers": ["foo"]}]), 'route.routes[0].matchers[0]: "foo" has no operator', 'write foo=".."'),
    (with_route(routes=[{"matchers": ["a b=c"]}]), '"a b=c" can\'t be read as matchers', "put the value in double quotes"),
    (with_route(routes=[{"matchers": ['a=~"(b"']}]), 'the pattern "(b" can\'t be read: missing )', "RE2"),
    (with_route(routes=[{"matchers": "a=b"}]), '"a=b" is no list of matchers', 'write ["a=b"]'),
    (with_route(routes=[{"match": {"code": 500}}]), "route.routes[0].match.code: 500 is no text", 'write "500"'),
    (with_route(routes=[{"mute_time_intervals": ["night"]}]), 'no time interval has the name "night"', "defined are none"),
    (with_interval(weekdays=["saturday:sunday"]), '"saturday:sunday" begins after its end', "write saturday and sunday as two items"),
    (with_interval(weekdays=["mon:friday"]), '"mon" isn\'t known', "write monday"),
    (with_interval(times=[{"start_time": "22:00", "end_time": "06:00"}]), "a start that isn't before its end", "one to 24:00 and one from 00:00"),
    (with_interval(times=[{"start_time": "9:00", "end_time": "10:00"}]), '.start_time: "9:00" is no time', 'write it as "09:00"'),
    (with_interval(times=[{"start_time": "09:00"}]), "end_time is required, and isn't there", "write a end_time"),
    (with_interval(days_of_month=["0"]), '"0" is no day of a month', "1 to 31"),
    ({**OPS, "receivers": [{"name": "ops", "telegram_configs": [{}]}]}, "receivers[0].telegram_configs[0]: the program has no default of send_resolved for telegram", 'write "send_resolved": true, which is Alertmanager\'s default'),  # noqa: E501
    ({**OPS, "receivers": [{"name": "ops", "telgram_configs": [{}]}]}, "the kind telgram isn't known", "did you mean telegram_configs?"),
    ({**OPS, "time_intervals": 1.5}, "time_intervals: 1.5 is no list", "write [1.5]"),
    ({"receivers": []}, "route is required, and isn't there (5 BadConfig)", "write a route"),
    (with_route(receiver="opps"), 'route.receiver: there is no receiver "opps" (6 UnknownReceiver)', "did you mean ops?"),
    ({**OPS, "receivers": OPS["receivers"] * 2}, 'receivers[1].name: there is a receiver "ops" already', "(7 DuplicateReceiver)"),
    (with_route(matchers=["a=b"]), "route.matchers: the root route takes all alerts, and has no matchers (8 RootRoute)", "put it into a route"),
    ({"route": {}, "receivers": []}, "route: the root route names no receiver (8 RootRoute)", "write a receiver"),
    (with_route(repeat_interval="0"), "route.repeat_interval: repeat_interval is zero (9 ZeroInterval)", "as 1s"),
    (with_route(group_by=["a", "a"]), 'route.group_by[1]: "a" is there twice (10 BadGroupBy)', "remove it"),
    (with_route(group_by=["...", "a"]), "`...` isn't alone", "alone"),
]  # fmt: skip

ODD = [
    (with_route(group_wiat="1m"), "route.group_wiat: unknown key group_wiat, which is ignored; did you mean group_wait?"),
    (with_route(reciever="x"), "unknown key reciever, which is ignored; did you mean receiver?"),
    (with_route(routes=[{"matcher": ["a=b"]}]), "unknown key matcher, which is ignored; did you mean matchers?"),
    ({**OPS, "inhibit_rule": []}, "inhibit_rule: unknown key inhibit_rule, which is ignored; did you mean inhibit_rules?"),
    ({**OPS, "inhibit_rules": [{"target_matcher": ["a=b"], "source_matchers": ["c=d"]}]}, "rule 0 has no target matchers: its sources mute every alert"),
    ({**OPS, "inhibit_rules": [{"target_matchers": ["a=b"]}]}, "rule 0 has no source matchers"),
    ({**OPS, "receivers": [*OPS["receivers"], {"name": "b"}]}, 'receivers[1]: no route names the receiver "b"'),
    ({**OPS, "time_intervals": [{"name": "n", "time_intervals": []}]}, 'no route uses the time interval "n"'),
    (with_route(routes=[{"match": {"a": "b"}}, {"matchers": ['a="b",c=d']}]), "no alert reaches route 2: route 1 before it takes all"),
    (with_route(routes=[{}, {"matchers": ["a=b"]}]), "no alert reaches route 2: route 1 before it takes all"),
    (with_route(routes=[{"matchers": ["a=b"], "routes": [{"matchers": ["a=c"]}]}]), 'no alert reaches route 2: a="b" and a="c" exclude one another'),
    (with_interval(location="Europe/Paris"), "location: the program knows UTC alone, and not"),
]  # fmt: skip

EVENT: dict[str, Any] = {"at": "2024-05-01T10:00:00Z"}
SILENCE: dict[str, Any] = {
    "matchers": [{"name": "a", "value": "b"}],
    "startsAt": "2024-05-01T10:00:00Z",
    "endsAt": "2024-05-01T11:00:00Z",
}
ID = "5b1e0000-0000-4000-8000-000000000001"
LINES: list[tuple[Any, str]] = [
    ("x", "no JSON: Expecting value at column 1"),
    ("[]", "[] is no object"),
    ({"tick": True}, "at: at is required, and isn't there"),
    ({**EVENT, "at": "2024-05-01 10:00"}, 'at: "2024-05-01 10:00" is no moment'),
    (EVENT, "the line has no action (13 BadLine); write one of alerts, silence"),
    ({**EVENT, "alert": []}, "did you mean alerts, and not alert?"),
    ({**EVENT, "tick": True, "alerts": []}, "the line has alerts and tick"),
    ({**EVENT, "tick": 1}, "tick: 1 isn't true"),
    ({**EVENT, "alerts": {}}, "alerts: {} is no list"),
    (
        {**EVENT, "alerts": [{"labels": {"code": 500}}]},
        'alerts[0].labels.code: 500 is no text (13 BadLine); write "500"',
    ),
    ({**EVENT, "alerts": [{"label": {}}]}, "alerts[0]: labels is required"),
    ({**EVENT, "alerts": [{"labels": {}, "startsAt": "now"}]}, 'alerts[0].startsAt: "now" is no moment'),
    ({**EVENT, "silence": SILENCE}, "newId: newId is required"),
    ({**EVENT, "silence": SILENCE, "newId": "1"}, 'newId: "1" is no UUID'),
    (
        {**EVENT, "silence": {**SILENCE, "matchers": [{"name": "a"}]}, "newId": ID},
        "silence.matchers[0].value: null is no text",
    ),
    ({**EVENT, "silence": {**SILENCE, "endsAt": None}, "newId": ID}, "silence.endsAt: endsAt is required"),
    ({**EVENT, "expire": "x"}, 'expire: "x" is no UUID'),
    ({**EVENT, "label": "deploy"}, 'begin the script with the line {"v":2}'),
]


class Configurations(WithRoom):
    def test_what_the_program_refuses(self) -> None:
        for config, what, write in REFUSED:
            with self.subTest(what):
                path = self.write("config.json", json.dumps(config, indent=1))
                status, printed, errors = run_word("lint", path)
                self.assertEqual((status, errors), (1, ""))
                faults = [line for line in printed.splitlines() if ": error: " in line]
                self.assertEqual(len(faults), 1, printed)
                self.assertRegex(faults[0], rf"^{path}:\d+: error: ")
                self.assertIn(what, faults[0])
                self.assertIn(write, faults[0])

    def test_what_is_odd(self) -> None:
        for config, what in ODD:
            with self.subTest(what):
                path = self.write("config.json", json.dumps(config, indent=1))
                status, printed, errors = run_word("lint", path)
                self.assertEqual((status, errors), (0, ""))
                self.assertRegex(printed, rf"(?m)^{path}:\d+: warning: ")
                self.assertIn(what, printed)
                self.assertEqual(run_word("lint", path, "--lint-fatal")[0], 1)

    def test_the_line_is_that_of_the_user_s_file(self) -> None:
        path = self.write(
            "a.yml", "# mine\nroute:\n  receiver: ops\n  routes:\n    - group_wait: 30 s\nreceivers:\n  - name: ops\n"
        )
        _, printed, _ = run_word("lint", path)
        self.assertIn(f'{path}:5: error: route.routes[0].group_wait: "30 s" is no duration', printed)

    def test_nothing_to_say(self) -> None:
        for config in (
            OPS,
            with_route(routes=[{"matchers": ["a=b"], "continue": True}, {"matchers": ["a=b"]}, {"matchers": ["a!=c"]}]),
        ):
            path = self.write_json("config.json", config)
            status, printed, _ = run_word("lint", path)
            self.assertEqual((status, printed.count("\n")), (0, 1))
            self.assertIn("0 errors, 0 warnings", printed)

    def test_files_that_cannot_be_read(self) -> None:
        for data, said in (
            ('{"route":', "no JSON: Expecting value at line 1, column 10"),
            ("route: [", "line 2, column 1"),
            ("", "the file is empty"),
            ("[]", "its top isn't an object"),
        ):
            with self.subTest(data):
                status, printed, errors = run_word("lint", self.write("config", data))
                self.assertEqual((status, printed), (1, ""))
                self.assertIn(said, errors)

    def test_json_that_only_yaml_reads(self) -> None:
        path = self.write("config.json", json.dumps(OPS)[:-1] + ",}")
        status, printed, _ = run_word("lint", path)
        self.assertEqual(status, 0)
        self.assertIn("warning: no JSON: ", printed)

        self.assertIn("; 0 errors, 0 warnings", run_word("lint", self.write("a.yml", json.dumps(OPS)[:-1] + ",}"))[1])

    def test_a_zone_that_is_not_known(self) -> None:
        zones = [{"location": "Europe/Paris"}, {"location": "Europe/Pariss"}]
        config = {**OPS, "time_intervals": [{"name": "nights", "time_intervals": zones}]}
        path = self.write("config.json", json.dumps(config, indent=1))
        location = f"{path}:21: error: time_intervals[0].time_intervals[1].location: "
        said = "there is no zone Europe/Pariss on this machine; did you mean Europe/Paris? (5 BadConfig)\n"
        self.assertIn(location + said, run_word("lint", path)[1])

    def test_json_output(self) -> None:
        status, printed, _ = run_word("lint", self.write_json("config.json", with_route(group_wait=30)), "--json")
        value = json.loads(printed)
        self.assertEqual((status, value["counts"], value["findings"][0]["path"]), (1, None, "route.group_wait"))


class Scripts(WithRoom):
    def test_lines_that_are_refused(self) -> None:
        config = self.write_json("config.json", OPS)
        for line, said in LINES:
            with self.subTest(said):
                text = line if isinstance(line, str) else json.dumps(line)
                path = self.write("script.jsonl", '{"at":"2024-05-01T09:00:00Z","tick":true}\n\n' + text + "\n")
                status, printed, errors = run_word("lint", config, path)
                self.assertEqual((status, errors), (1, ""))
                self.assertIn(f"{path}:3: error: ", printed)
                self.assertIn(said, printed)

    def test_refused_events(self) -> None:
        status, printed, _ = run_word("lint", str(INCIDENT / "config.json"), str(INCIDENT / "script.jsonl"))
        self.assertEqual(status, 0)
        self.assertIn('script.jsonl:36: warning: reload: route.receiver: there is no receiver "nobody-here"', printed)
        self.assertIn(
            "script.jsonl:50: warning: tick: a tick was refused: it is before the event before it (20)\n", printed
        )
        self.assertIn("script.jsonl:51: warning: alerts: skipped, since they are invalid: 2, counted from 1\n", printed)

    def test_unknown_keys(self) -> None:
        line = {**EVENT, "alerts": [{"labels": {"a": "b"}, "startAt": "2024-05-01T10:00:00Z"}]}
        _, printed, _ = run_word("lint", self.write_json("config.json", OPS), self.write_lines("script.jsonl", [line]))
        self.assertIn(
            "script.jsonl:1: warning: alerts[0].startAt: unknown key startAt, which is ignored; did you mean startsAt?",
            printed,
        )

    def test_a_script_beside_a_refused_configuration(self) -> None:
        config, script = self.write_json("config.json", with_route(group_wait=1)), self.write("script.jsonl", "{}\n")
        status, printed, _ = run_word("lint", config, script)
        self.assertEqual(status, 1)
        self.assertIn("config.json:1: error: route.group_wait", printed)
        self.assertIn("script.jsonl:1: error: at: at is required", printed)
