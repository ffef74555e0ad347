"""What is told of a run beside its states: sections, reasons, trials, time intervals and configurations."""
from __future__ import annotations

import json
import os
import signal
import subprocess
import time
import unittest
from typing import Any

from front.moments import moment_text
from front.page.configs import Configs, text_of
import front.page.told as told_module
from front.page.told import Telling, key_of, told, trying, without_silence, without_source
from front.program import Source
from front.script import event_of, plain_id
from front.story import story_of
from front.story.reasons import muted_by
from front.story.sections import SECTIONS

from front.tests.random_incident import Dice

from .incidents import GAP, SILENCE, alert, config, post, silence, tick
from .support import ENVIRONMENT, EXAMPLES, PAGE, PROGRAM, TOP, WithRoom, data_of, page_of

INCIDENT = TOP / "front" / "tests" / "incident"
OTHER = "00000000-0000-4000-8000-000000000002"


class Sections(WithRoom):
    def test_they_are_those_of_why(self) -> None:
        words = [str(INCIDENT / "config.json"), str(INCIDENT / "script.jsonl")]
        done = subprocess.run([*PAGE[:-1], "why", *words, "--json"], capture_output=True, check=True, env=ENVIRONMENT)
        own = [[each["labels"], each["section"]] for each in json.loads(done.stdout)["firings"]]
        data = data_of(page_of(*words)[1])
        texts = [None, *data["texts"]]
        labels = [dict(zip([texts[n] for n in flat[::2]], [texts[n] for n in flat[1::2]])) for flat in data["sets"]]
        entries = [[labels[entry[0]], SECTIONS[entry[3]]] for entry in data["runs"][0]["entries"]]
        self.assertEqual(entries, own)

    def test_a_part_has_the_spans_of_its_time(self) -> None:
        files = self.files(config(), [*GAP, tick("15:00")])
        data = data_of(page_of(*files, "--from", "3", "--to", "3")[1])
        spans = data["runs"][0]["rows"][0][4]
        texts = data["texts"]
        self.assertEqual(
            (texts[spans[0][0] - 1], texts[spans[-1][1] - 1]), ("2024-05-01T10:00:00Z", "2024-05-01T14:00:00Z")
        )


class Trials(WithRoom):
    def told(self, config_: Any, events: list[Any]) -> Any:
        paths = self.files(config_, events)
        telling = Telling(Source(PROGRAM, *map(str, paths)), config_)
        found = told(telling)
        found.trials = [trial for trial in (task() for task in trying(found, telling, self.room)) if trial is not None]
        return found

    def test_without_a_silence_the_receiver_is_notified(self) -> None:
        found = self.told(config(), GAP)
        [trial] = found.trials
        self.assertEqual((trial.what, trial.more, trial.fewer), (SILENCE, 0, 0))
        [outcome] = trial.outcomes
        self.assertEqual(moment_text(outcome.first), "2024-05-01T10:00:30Z")

    def test_a_silence_is_left_out_with_its_changes(self) -> None:
        lines = [
            silence("09:00", "11:00", "A"),
            silence("09:30", "10:00", "A", OTHER, id=f"urn:uuid:{SILENCE.upper()}"),
            silence("09:40", "12:00", "B", OTHER, id=SILENCE),
            {"at": "2024-05-01T10:00:00Z", "expire": SILENCE.replace("-", "")},
            tick("11:00"),
        ]
        acts = [
            event_of(json.dumps(without_silence(SILENCE)(line, event_of(json.dumps(line).encode()))).encode()).act
            for line in lines
        ]
        self.assertEqual(acts, ["tick"] * 5)
        changed = without_silence(OTHER)(lines[2], event_of(json.dumps(lines[2]).encode()))
        self.assertEqual(changed, {"at": "2024-05-01T09:40:00Z", "expire": SILENCE})

    def test_a_source_is_left_out_of_its_posts(self) -> None:
        line = post("10:00", alert("A", "10:00", "11:00", empty=""), alert("B", "10:00", "11:00"))
        change = without_source((("alertname", "A"),))
        self.assertEqual(change(line, event_of(json.dumps(line).encode()))["alerts"], line["alerts"][1:])
        alone = post("10:00", alert("A", "10:00", "11:00"))
        self.assertEqual(change(alone, event_of(json.dumps(alone).encode())), tick("10:00"))

    def test_no_trial_is_begun_too_late(self) -> None:
        self.addCleanup(setattr, told_module, "SECONDS_AT_MOST", told_module.SECONDS_AT_MOST)
        told_module.SECONDS_AT_MOST = -1.0
        found = self.told(config(), GAP)
        self.assertEqual((found.trials, found.mutes), ([], [SILENCE]))

    def test_what_muted_a_named_alert_is_tried_first(self) -> None:
        events = [
            *(
                silence("09:00", "13:00", name, f"00000000-0000-4000-8000-00000000000{i}")
                for i, name in enumerate("ABC")
            ),
            post("10:00", alert("A", "10:00", "12:00"), alert("B", "10:00", "11:00"), alert("C", "10:00", "13:00")),
            tick("14:00"),
        ]
        paths = self.files(config(), events)
        for named, first in (((), "2"), (((("alertname", "B"),),), "1")):
            found = told(Telling(Source(PROGRAM, *map(str, paths)), config(), named))
            self.assertEqual((len(found.mutes), str(found.mutes[0])[-1]), (3, first))

    def test_trials_are_those_of_the_whole_script(self) -> None:
        """Of a trial some alerts alone are asked. What is said of them is what a whole story says."""
        for seed in range(3):
            dice = Dice(seed + 40)
            config_, events = dice.config(), dice.events(40)
            found = self.told(config_, events)
            for trial in found.trials:
                change = without_silence(trial.what) if isinstance(trial.what, str) else without_source(trial.what)
                lines = [
                    line if number in found.refused else change(line, event_of(json.dumps(line).encode()))
                    for number, line in enumerate(events, 1)
                ]
                whole = story_of(Source(PROGRAM, *map(str, self.files(config_, lines))), config_)
                rows = {key_of(row): row for row in whole.rows}
                for outcome in trial.outcomes:
                    row = rows[outcome.key]
                    first = next((sent.at for sent in row.sent if sent.is_firing), None)
                    own = [span for span in found.story.rows if key_of(span) == outcome.key]
                    muted = [span for span in own[0].spans if muted_by(span) == trial.what]
                    spans = [part for span in muted for part in row.spans_in(span.start, span.end)]
                    self.assertEqual((outcome.first, outcome.spans), (first, spans))

    def test_reasons_behind_the_first(self) -> None:
        rule = {"source_matchers": ['alertname="Down"'], "target_matchers": ['alertname="Slow"']}
        night = {"name": "night", "time_intervals": [{"times": [{"start_time": "00:00", "end_time": "06:00"}]}]}
        config_ = config(
            {"matchers": ['alertname="Slow"'], "mute_time_intervals": ["night"]},
            inhibit_rules=[rule],
            time_intervals=[night],
        )
        events = [
            silence("03:00", "04:00", "Slow"),
            post("03:00", alert("Down", "03:00", "03:30"), alert("Slow", "03:00", "07:00")),
            tick("08:00"),
        ]
        found = self.told(config_, events)
        [key] = [key for key in found.reasoned if dict(key[0])["alertname"] == "Slow"]
        reasons = [[each.span.verdict, *(also.verdict for also in each.also)] for each in found.reasoned[key]]
        self.assertEqual(
            reasons,
            [
                ["Waiting"],
                ["Inhibited", "TimeMuted", "Silenced"],
                ["TimeMuted", "Silenced"],
                ["TimeMuted"],
                ["Due"],
                ["Told"],
            ],
        )

    def test_ids_in_their_forms(self) -> None:
        for text in (SILENCE, SILENCE.upper(), SILENCE.replace("-", ""), f"{{{SILENCE}}}", f"urn:uuid:{SILENCE}"):
            self.assertEqual(plain_id(text), SILENCE)


class Configurations(WithRoom):
    def test_the_text_of_an_interval(self) -> None:
        times = [{"start_time": "00:00", "end_time": "06:00"}, {"start_time": "22:00", "end_time": "24:00"}]
        self.assertEqual(text_of([{"times": times}]), "00:00-06:00 or 22:00-24:00")

    def test_intervals_with_a_zone_are_those_of_why(self) -> None:
        day = {"times": [{"start_time": "09:00", "end_time": "18:00"}], "location": "Europe/Paris"}
        config_ = config(
            {"matchers": ['alertname="A"'], "active_time_intervals": ["day"]},
            time_intervals=[{"name": "day", "time_intervals": [day]}],
        )
        files = self.files(
            config_,
            [
                post("2024-07-05T06:00:00Z", alert("A", "2024-07-05T06:00:00Z", "2024-07-05T20:00:00Z")),
                tick("2024-07-05T18:00:00Z"),
            ],
        )
        data = data_of(page_of(*files)[1])
        texts = [None, *data["texts"]]
        spans = [
            [texts[span[0]], texts[span[1]], texts[span[4]] if len(span) > 4 else None]
            for span in data["runs"][0]["rows"][0][4]
        ]
        self.assertEqual(spans[1], ["2024-07-05T06:00:30Z", "2024-07-05T07:00:00Z", "2024-07-05T07:00:00Z"])
        self.assertEqual(spans[-1], ["2024-07-05T16:00:00Z", "2024-07-05T18:00:00Z", "2024-07-06T07:00:00Z"])

    def test_configurations_are_written_once(self) -> None:
        configs = Configs()
        self.assertEqual(
            [configs.number(config()), configs.number(config()), configs.number(config(receivers=("x",)))], [0, 0, 1]
        )
        self.assertEqual([each["receivers"][0]["name"] for each in configs.written()], ["ops", "x"])


class SaidOnThePage(WithRoom):
    def test_explain_takes_a_part_of_the_labels(self) -> None:
        files = self.files(config(), [post("10:00", *(alert("A", "10:00", "11:00", pod=str(i)) for i in range(3)))])
        for words, count, said in (
            ("A", 3, "3 alerts have these labels"),
            ('{"alertname":"Nothing"}', 0, "no alert has these labels"),
            ("pod=1", 1, None),
        ):
            data = data_of(page_of(*files, "--explain", words)[1])
            self.assertEqual(len(data["named"]), count)
            self.assertEqual(
                [said in text for text in data["notices"]] if said else data["notices"], [True] if said else []
            )

    def test_against_says_that_the_script_reloads(self) -> None:
        reload = EXAMPLES / "a-reload"
        words = [reload / "config.json", reload / "script.jsonl", "--against", reload / "changed.json"]
        [notice] = data_of(page_of(*words)[1])["notices"]
        self.assertIn("from then on both runs have what it loads", notice)
        [notice] = data_of(page_of(*words, "--ignore-reloads")[1])["notices"]
        self.assertIn("Left out: 1 reload", notice)

    def test_yaml(self) -> None:
        text = 'route:\n  receiver: ops # a comment\n  group_wait: 30s\nreceivers:\n- name: ops\n  webhook_configs:\n  - url: "http://localhost/"\n'
        script = self.files(config(), GAP)[1]
        (self.room / "alertmanager.yml").write_text(text)
        status, page, faults = page_of(self.room / "alertmanager.yml", script)
        self.assertEqual((status, faults), (0, ""))
        self.assertEqual(data_of(page)["configs"][0]["routes"][0]["receiver"], "ops")

    def test_an_interruption_leaves_no_traceback_and_no_file(self) -> None:
        """It comes as from a terminal, to all processes, once some of them converse with the program."""
        slow, begun, output = self.room / "slow", self.room / "begun", self.room / "page.html"
        slow.write_text(f'#!/bin/sh\necho >>{begun}\n[ $(wc -l <{begun}) -lt 3 ] || sleep 60\nexec {PROGRAM} "$@"\n')
        slow.chmod(0o755)
        example = EXAMPLES / "first-page"
        words = [*PAGE, str(example / "config.json"), str(example / "script.jsonl"), "--output", str(output)]
        environment = {**ENVIRONMENT, "AMREPLAY_PROGRAM": str(slow)}
        # Started in the background, these tests may ignore an interruption, and a process that they start would inherit that.
        heeding = ["env", "--default-signal=INT", *words]
        process = subprocess.Popen(heeding, stderr=subprocess.PIPE, env=environment, start_new_session=True)
        while not (begun.exists() and len(begun.read_text()) >= 3):
            self.assertIsNone(process.poll())
            time.sleep(0.1)
        os.killpg(process.pid, signal.SIGINT)
        _, errors = process.communicate(timeout=60)
        self.assertEqual((process.returncode, errors), (130, b""))
        self.assertFalse(output.exists())

    def test_help(self) -> None:
        for word in ("--help", "-h"):
            done = subprocess.run([*PAGE, word], capture_output=True, check=True, env=ENVIRONMENT)
            self.assertTrue(done.stdout.startswith(b"usage: amreplay page"))
