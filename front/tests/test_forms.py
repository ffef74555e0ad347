"""Tests the program's forms with a configuration that isn't a file of JSON, and `run --text`."""

from __future__ import annotations

import json
import os
import signal
import subprocess
import sys
from typing import Any, Optional

from front.config.yaml_config import read_config
from front.program import Program

from .support import INCIDENT, TOP, WithRoom, run_word

CONFIG: dict[str, Any] = {
    "route": {"receiver": "ops", "group_by": ["..."], "group_wait": "10s"},
    "receivers": [{"name": "ops", "webhook_configs": [{}]}],
}
YAML = """\
# ours
route:
  receiver: ops
  group_wait: 10s
  routes:
    - receiver: ops
      mute_time_intervals: [lunch]
receivers:
  - name: ops
    webhook_configs: [{url: 'http://x'}]
    telegram_configs: [{bot_token: secret}, {}]
time_intervals:
  - name: lunch
    time_intervals:
      - times: [{start_time: 12:00, end_time: 13:00}]
"""
ZONE = YAML + "        location: Europe/Paris\n"


def post(at: str, *alerts: dict[str, str]) -> dict[str, Any]:
    return {"at": f"2024-05-01T{at}Z", "alerts": [{"labels": labels} for labels in alerts]}


def tick(at: str) -> dict[str, Any]:
    return {"at": f"2024-05-01T{at}Z", "tick": True}


class Forms(WithRoom):
    """The process is the program in the end, so it is one of its own."""

    def answers(self, *words: str, typed: bytes = b"", program: Optional[str] = None) -> tuple[int, bytes, str]:
        environment = {**os.environ, "TMPDIR": str(self.room), **({"AMREPLAY_PROGRAM": program} if program else {})}
        done = subprocess.run(
            [sys.executable, "-B", "-m", "front", *words], input=typed, cwd=TOP, env=environment, capture_output=True
        )
        return done.returncode, done.stdout, done.stderr.decode()

    def says(self, *words: str, typed: bytes = b"") -> tuple[int, bytes, str]:
        """Returns what the program itself answers."""
        done = subprocess.run([Program.found().path, *words], input=typed, capture_output=True)
        return done.returncode, done.stdout, done.stderr.decode()

    def setUp(self) -> None:
        super().setUp()
        self.yaml = self.write("a.yml", YAML)
        self.json = self.write("a.json", read_config(YAML.encode()).as_json().decode())
        events = [post("10:00:00", {"alertname": "A"}), post("10:30:00", {"alertname": "B"}), tick("10:31:00")]
        self.script = self.write_lines("script.jsonl", events)

    def test_yaml_is_answered_as_its_json(self) -> None:
        self.assertEqual(self.answers("check", self.yaml), self.says("check", self.json))
        wanted = self.says("run", self.json, self.script)
        self.assertIn(b'"integration":"telegram"', wanted[1])
        self.assertEqual(self.answers("run", self.yaml, self.script), wanted)
        typed = b"seek 2\ngroups\nnothing\n"
        wanted = self.says("session", self.json, self.script, typed=typed)
        self.assertEqual(self.answers("session", self.yaml, self.script, typed=typed), wanted)

    def test_standard_input(self) -> None:
        wanted = self.says("run", self.json, self.script)
        self.assertEqual(self.answers("run", "-", self.script, typed=YAML.encode()), wanted)
        with open(self.script, "rb") as script:
            self.assertEqual(self.answers("run", self.yaml, "-", typed=script.read()), wanted)
        for words in (("-", self.script), (self.json, "-")):
            status, printed, errors = self.answers("session", *words)
            self.assertEqual((status, printed), (2, b""))
            self.assertIn("standard input has the commands", errors)

    def test_a_zone_is_written_in_utc_for_the_days_of_the_script(self) -> None:
        zone = self.write("zone.yml", ZONE)
        status, printed, errors = self.answers("run", zone, self.script)
        self.assertEqual((status, printed, errors), (0, b"", ""))
        self.assertEqual(self.answers("check", zone), self.says("check", self.json))

    def test_json_gets_the_words_of_the_program(self) -> None:
        for text in ('{"route":{"receiver":"x","group_wait":1},"receivers":[]}', '{"route":{"receiver":"x"}}'):
            refused = self.write("refused.json", text)
            self.assertEqual(self.answers("check", refused), self.says("check", refused))
        missing = str(self.room / "missing")
        self.assertEqual(self.answers("run", self.json, missing), self.says("run", self.json, missing))

    def test_a_mark_before_json_is_left_out(self) -> None:
        with open(self.json, encoding="utf-8") as file:
            marked = self.write("marked.json", "\ufeff" + file.read())
        self.assertEqual(self.answers("check", marked), self.says("check", self.json))

    def test_a_file_without_an_end(self) -> None:
        status, printed, errors = self.answers("check", "/dev/zero")
        self.assertEqual((status, printed, errors), (1, b"", "amreplay: /dev/zero: more than 16777216 bytes\n"))

    def test_a_fault_has_the_line_in_the_user_s_file(self) -> None:
        path = self.write("b.yml", YAML.replace("group_wait: 10s", "group_wiat: 10s\n  group_wait: 10 s"))
        status, printed, errors = self.answers("run", path, self.script)
        self.assertEqual((status, printed), (1, b""))
        self.assertIn(f"amreplay: {path}:4: warning: route.group_wiat: unknown key group_wiat", errors)
        self.assertIn(f'amreplay: {path}:5: error: route.group_wait: "10 s" is no duration', errors)
        status, printed, errors = self.answers("check", self.write("c.yml", "route: ["))
        self.assertEqual((status, printed), (1, b""))
        self.assertIn("c.yml: line 2, column 1: ", errors)

    def test_signals_and_the_status_are_those_of_the_program(self) -> None:
        program = self.write("program", '#!/bin/sh\n[ "$1" != session ] || kill -s TERM $$\nexit 7\n')
        os.chmod(program, 0o755)
        self.assertEqual(self.answers("run", self.json, self.script, program=program), (7, b"", ""))
        self.assertEqual(self.answers("session", self.json, self.script, program=program)[0], -signal.SIGTERM)
        self.assertEqual(list(self.room.glob("amreplay-*")), [])
        self.assertIn("cannot run /no/program", self.answers("check", self.json, program="/no/program")[2])


class Text(WithRoom):
    def text(self, config: Any, events: list[Any]) -> list[str]:
        words = self.write_json("config.json", config), self.write_lines("script.jsonl", events)
        status, printed, errors = run_word("run", "--text", *words)
        self.assertEqual((status, errors), (0, ""))
        return printed.splitlines()

    def test_an_incident(self) -> None:
        status, printed, errors = run_word(
            "run", "--text", str(INCIDENT / "config.json"), str(INCIDENT / "script.jsonl")
        )
        self.assertEqual((status, errors), (0, ""))
        self.assertEqual(printed, (INCIDENT / "run.txt").read_text("utf-8"))

    def test_each_line_has_a_text(self) -> None:
        for folder in sorted(TOP.glob("examples/*-*/")):
            with self.subTest(folder.name):
                config, script = str(folder / "config.json"), str(folder / "script.jsonl")
                lines = Program.found().run(Program.found().source(config, script))
                status, printed, _ = run_word("run", "--text", config, script)
                self.assertEqual((status, printed.count("\n")), (0, len(lines)))

    def test_alerts_of_a_name_are_told_apart(self) -> None:
        alerts: list[dict[str, str]] = [
            {"alertname": "A", "team": "x", "pod": "p-1", "job": "j"},
            {"alertname": "A", "team": "x", "pod": "p 2", "job": "j"},
            {"alertname": "A", "team": "x", "pod": "p-1"},
            {"alertname": "B", "team": "x"},
            {"team": "y\n"},
        ]
        config = {**CONFIG, "route": {"receiver": "ops", "group_by": ["none"], "group_wait": "10s"}}
        found = self.text(config, [post("10:00:00", *alerts), tick("10:01:00")])
        self.assertEqual(found, ['10:00:10 ops/webhook ▲ A{job=j, "p 2"}, A{job=j, p-1}, A{p-1}, B, {team="y\\n"}'])

    def test_many_alerts(self) -> None:
        config = {**CONFIG, "route": {"receiver": "ops", "group_by": ["none"]}}
        alerts = [{"alertname": "A", "n": str(n)} for n in range(1_010, 2_300)]
        (found,) = self.text(config, [post("10:00:00", *alerts), tick("10:01:00")])
        self.assertEqual(
            found, f"10:00:30 ops/webhook ▲ {', '.join(f'A{{{n}}}' for n in range(1_010, 1_015))} and 1,285 more"
        )

    def test_what_is_no_notification(self) -> None:
        events = [
            {"v": 2},
            {"at": "2024-05-01T10:00:00Z", "label": "deploy"},
            {**post("10:00:00", {"alertname": "A"}, {}), "at": "2024-05-02T10:00:00Z"},
            tick("10:00:00"),
        ]
        found = self.text(CONFIG, events)
        self.assertEqual(
            found,
            [
                "2024-05-01 10:00:00 event 1: deploy",
                "2024-05-02 10:00:00 event 2: alerts were skipped, since they are invalid: 2, counted from 1",
                "2024-05-01 10:00:00 event 3: a tick was refused: it is before the event before it (20)",
            ],
        )

    def test_refused_files(self) -> None:
        config, bad = self.write_json("config.json", CONFIG), self.write_json("bad.json", {**CONFIG, "receivers": []})
        script = self.write_lines("script.jsonl", [tick("10:00:00"), {"at": "2024-05-01T10:00:00Z", "tck": True}])
        status, printed, errors = run_word("run", "--text", config, script)
        self.assertEqual((status, printed), (1, ""))
        self.assertIn(f"amreplay: {script}:2: error: the line has no action (13 BadLine); did you mean tick", errors)
        status, printed, errors = run_word("run", "--text", bad, script)
        self.assertEqual((status, printed), (1, ""))
        self.assertIn(f'{bad}:1: error: route.receiver: there is no receiver "ops" (6 UnknownReceiver)', errors)

    def test_a_line_comes_when_the_program_prints_it(self) -> None:
        more = str(self.room / "more")
        os.mkfifo(more)
        line = {"event": 1, "reason": 20}
        text = f'#!/bin/sh\n[ "$1" != check ] || exec echo \'{{"receivers":1,"routes":1,"rules":0}}\'\n'
        program = self.write(
            "program", text + f"echo '{json.dumps(line)}'\nread -r _ <'{more}'\necho out of >&2\nexit 1\n"
        )
        os.chmod(program, 0o755)
        words = ["run", "--text", self.write_json("c.json", CONFIG), self.write_lines("s.jsonl", [tick("10:00:00")])]
        process = subprocess.Popen(
            [sys.executable, "-B", "-m", "front", *words],
            cwd=TOP,
            env={**os.environ, "AMREPLAY_PROGRAM": program},
            stdout=subprocess.PIPE,
            stderr=subprocess.PIPE,
        )
        assert process.stdout is not None
        self.assertEqual(
            process.stdout.readline(), b"10:00:00 event 1: a tick was refused: it is before the event before it (20)\n"
        )
        with open(more, "w", encoding="utf-8") as pipe:
            pipe.write("\n")
        printed, errors = process.communicate(timeout=60)
        self.assertEqual((process.returncode, printed, errors), (1, b"", b"out of\n"))
