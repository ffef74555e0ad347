"""Tests all that mutes an alert against replays of the whole script in which everything else is left out."""

from __future__ import annotations

import json
import unittest
from pathlib import Path
from typing import Any

from front.moments import clock_text
from front.page.told import Change, without_silence, without_source
from front.program import Source, session
from front.script import event_of, plain_id, script_of
from front.story import Pairs, Story, mutes, story_of
from front.story.mutes import Mutes, mutes_of
from front.story.reasons import Reasons, muted_by
from front.story.ticks import ticked
from front.story.times import Times
from front.story.walk import walk

from .random_incident import Dice
from .support import INCIDENT, WithRoom, incidents

SEEDS = range(20, 24)
MOMENTS_AT_MOST, ALONE_AT_MOST, TARGETS_AT_MOST = 40, 8, 3
WEBHOOK = {"name": "ops", "webhook_configs": [{}]}
FIRST, SECOND, THIRD = (f"00000000-0000-4000-8000-00000000000{i}" for i in (1, 2, 3))


def at(time: str) -> str:
    return f"2024-05-01T{time}:00Z"


def alert(name: str, start: str, end: str, **labels: str) -> dict[str, Any]:
    return {"labels": {"alertname": name, **labels}, "startsAt": at(start), "endsAt": at(end)}


def silence(time: str, end: str, new_id: str, name: str = "Slow", /, **more: Any) -> dict[str, Any]:
    value = {"matchers": [{"name": "alertname", "value": name}], "startsAt": at(time), "endsAt": at(end), **more}
    return {"at": at(time), "silence": value, "newId": new_id}


class Everything(WithRoom):
    def test_random_incidents(self) -> None:
        asked = 0
        for seed in SEEDS:
            dice = Dice(seed)
            with self.subTest(seed):
                asked += self.compare(self.source(dice.config(), dice.events(50)))
        self.assertGreater(asked, 100)

    def test_the_incident(self) -> None:
        self.assertGreater(
            self.compare(Source(self.program(), str(INCIDENT / "config.json"), str(INCIDENT / "script.jsonl"))), 20
        )

    def program(self) -> str:
        return self.source({}, []).program

    def compare(self, source: Source) -> int:
        """Compares with what the program answers where a silence or a source is there alone. Returns how many times something mutes."""
        config = json.loads(Path(source.config).read_bytes())
        story = story_of(source, config)
        found = mutes_of(source, story, [each.labels for each in story.alerts])
        all_ = {what for spans in found.spans.values() for what in map(muted_by, spans)} | first_mutes(story)
        moments = self.moments(story, found)
        count = 0
        for what in sorted(all_, key=str)[:ALONE_AT_MOST]:
            answers = self.alone(source, config, what, story, moments)
            for (labels, moment), own in answers.items():
                says = any(muted_by(span) == what and span.start <= moment < span.end for span in found.of(labels))
                inside = any(span.start <= moment < span.end for span in muted_spans(story, labels))
                if inside:
                    count += own
                    self.assertEqual(says, own, (clock_text(moment), labels, what))
        return count

    def moments(self, story: Story, found: Mutes) -> list[int]:
        spans = [span for row in story.rows for span in row.spans] + [
            span for each in found.spans.values() for span in each
        ]
        edges = sorted(
            {edge for span in spans for edge in (span.start, span.end - 1) if story.start <= edge < story.end}
        )
        return edges[:: max(1, len(edges) // MOMENTS_AT_MOST)]

    def alone(
        self, source: Source, config: Any, what: str | Pairs | None, story: Story, moments: list[int]
    ) -> dict[tuple[Pairs, int], bool]:
        """Replays the script with this silence as the only one and no rules, or with this source beside one alert at a time and no silences."""
        if isinstance(what, str):
            bare = bare_config(config, with_rules=False)
            return self.asked(
                source, bare, [without_others(what)], what, [each.labels for each in story.alerts], moments
            )
        answers: dict[tuple[Pairs, int], bool] = {}
        bare = bare_config(config, with_rules=True)
        muted = [each.labels for each in story.alerts if each.labels != what and muted_spans(story, each.labels)]
        for target in muted[:TARGETS_AT_MOST]:
            others = [without_source(each.labels) for each in story.alerts if each.labels not in (what, target)]
            answers.update(self.asked(source, bare, [without_all, *others], what, [target], moments))
        return answers

    def asked(
        self, source: Source, config: Any, changes: list[Change], what: object, alerts: list[Pairs], moments: list[int]
    ) -> dict[tuple[Pairs, int], bool]:
        script = script_of(Path(source.script).read_bytes())
        refused = {step.number for step in walk(source, script) if step.refused is not None}
        lines = []
        for number, line in enumerate(script.lines, 1):
            value = json.loads(line)
            for change in changes if number not in refused else []:
                value = change(value, event_of(json.dumps(value).encode()))
            if "reload" in value:
                value = (
                    {**value, "reload": bare_config(value["reload"], bool(config["inhibit_rules"]))}
                    if number not in refused
                    else value
                )
            lines.append(json.dumps(value).encode())
        changed = Source(
            source.program, self.write_json("bare.json", config), self.write("bare.jsonl", script.text(lines).decode())
        )
        with_ticks = ticked(script_of(script.text(lines)), walk(changed, script_of(script.text(lines))), set(moments))
        path = self.write("bare-ticked.jsonl", with_ticks.text.decode())
        last = {sample.at: sample.cursor for sample in with_ticks.samples}
        found = {}
        with session(Source(source.program, changed.config, path)) as opened:
            for moment in (each for each in moments if each in last):
                commands = [f"seek {last[moment]}", *(f"explain {json.dumps(dict(labels))}" for labels in alerts)]
                for labels, answer in zip(alerts, opened.ask_all(commands)[1:]):
                    said = [json.loads(line) for line in answer.lines]
                    found[labels, moment] = any(muted_by_line(line) == what for line in said)
        return found


def muted_by_line(line: dict[str, Any]) -> object:
    if line["verdict"] == "Silenced":
        return line["id"]
    return tuple(sorted(line["source"].items())) if line["verdict"] == "Inhibited" else None


def first_mutes(story: Story) -> set[str | Pairs]:
    return {what for row in story.rows for what in map(muted_by, row.spans) if what is not None}


def muted_spans(story: Story, labels: Pairs) -> list[Any]:
    return [span for row in story.rows if row.alert == labels for span in row.spans if span.verdict in mutes.MUTES]


def without_others(kept: str) -> Change:
    """Leaves out all silences but one, which is posted anew where it was made by changing another one. What changes it stays, since it ends there."""

    def change(value: dict[str, Any], event: Any) -> dict[str, Any]:
        if event.act == "expire":
            return value if plain_id(event.value) == kept else {"at": value["at"], "tick": True}
        if event.act != "silence" or plain_id(event.value.get("id") or "") == kept:
            return value
        if plain_id(event.new_id or "") != kept:
            return {"at": value["at"], "tick": True}
        return {**value, "silence": {key: each for key, each in event.value.items() if key != "id"}}

    return change


def without_all(value: dict[str, Any], event: Any) -> dict[str, Any]:
    return {"at": value["at"], "tick": True} if event.act in ("silence", "expire") else value


def bare_config(config: Any, with_rules: bool) -> Any:
    """Returns a configuration in which nothing waits, and neither times nor, if so, rules mute."""
    waits = {"group_wait": "0s", "group_interval": "10y", "repeat_interval": "10y"}
    rules = config.get("inhibit_rules") or [] if with_rules else []
    return {
        "global": config.get("global") or {},
        "route": {"receiver": "ops", **waits},
        "receivers": [WEBHOOK],
        "inhibit_rules": rules,
    }


class Several(WithRoom):
    RULES = [
        {"source_matchers": ['severity="critical"'], "target_matchers": ['alertname="Slow"'], "equal": ["cluster"]}
    ]

    def reasons(self, config: Any, events: list[Any], name: str = "Slow") -> list[list[Any]]:
        source = self.source(config, events)
        story = story_of(source, config)
        reasons = Reasons(mutes_of(source, story, [each.labels for each in story.alerts]), Times(source.program, story))
        [row] = [row for row in story.rows if dict(row.alert)["alertname"] == name]
        return [
            [clock_text(each.span.start), each.span.verdict, *map(muted_by, each.also)] for each in reasons.of_row(row)
        ]

    def config(self, **more: Any) -> dict[str, Any]:
        return {
            "route": {"receiver": "ops", "group_by": ["alertname"], "group_wait": "30s"},
            "receivers": [WEBHOOK],
            **more,
        }

    def test_silences_that_mute_at_once(self) -> None:
        events = [
            silence("09:00", "13:00", SECOND),
            silence("09:00", "12:00", FIRST),
            silence("09:30", "12:30", THIRD, "Other"),
            {"at": at("10:00"), "alerts": [alert("Slow", "10:00", "14:00")]},
            {"at": at("14:30"), "tick": True},
        ]
        found = self.reasons(self.config(), events)
        self.assertEqual(
            found[:3], [["10:00:00", "Waiting"], ["10:00:30", "Silenced", SECOND], ["12:00:00", "Silenced"]]
        )

    def test_sources_that_mute_at_once(self) -> None:
        posts = [
            alert("Down", "10:00", "11:00", cluster="eu", severity="critical"),
            alert("Gone", "10:00", "12:00", cluster="eu", severity="critical"),
            alert("Far", "10:00", "13:00", cluster="us", severity="critical"),
            alert("Slow", "10:00", "14:00", cluster="eu", severity="warning"),
        ]
        found = self.reasons(
            self.config(inhibit_rules=self.RULES),
            [{"at": at("10:00"), "alerts": posts}, {"at": at("14:30"), "tick": True}],
        )
        gone = tuple(sorted(posts[1]["labels"].items()))
        self.assertEqual(found[1:3], [["10:00:30", "Inhibited", gone], ["11:00:00", "Inhibited"]])

    def test_alerts_of_one_silence_do_not_mute_each_other(self) -> None:
        posts = [
            alert("Slow", "10:00", "14:00", cluster="eu"),
            alert("Down", "10:00", "14:00", cluster="eu", severity="critical"),
        ]
        both: Any = {"matchers": [{"name": "cluster", "value": "eu"}]}
        events = [
            silence("09:00", "12:00", FIRST, **both),
            {"at": at("10:00"), "alerts": posts},
            {"at": at("13:00"), "alerts": [{**posts[1], "endsAt": at("13:00")}]},
            {"at": at("14:30"), "tick": True},
        ]
        found = self.reasons(self.config(inhibit_rules=self.RULES), events)
        self.assertEqual(found[1:3], [["10:00:30", "Inhibited", FIRST], ["12:00:00", "Inhibited"]])

    def test_a_changed_silence_is_one(self) -> None:
        events = [
            silence("09:00", "11:00", FIRST),
            {"at": at("10:00"), "alerts": [alert("Slow", "10:00", "14:00")]},
            silence("10:30", "13:00", SECOND, "Other", id=FIRST),
            {"at": at("14:30"), "tick": True},
        ]
        self.assertEqual(self.reasons(self.config(), events)[1], ["10:00:30", "Silenced"])

    def test_times_are_a_reason_too(self) -> None:
        night = {"name": "night", "time_intervals": [{"times": [{"start_time": "00:00", "end_time": "11:00"}]}]}
        config = self.config(time_intervals=[night])
        config["route"]["routes"] = [{"mute_time_intervals": ["night"]}]
        events = [
            silence("09:00", "13:00", FIRST),
            {"at": at("10:00"), "alerts": [alert("Slow", "10:00", "14:00")]},
            {"at": at("14:30"), "tick": True},
        ]
        found = self.reasons(config, events)
        self.assertEqual(found[1:3], [["10:00:30", "TimeMuted", FIRST], ["11:00:00", "Silenced"]])

    def test_too_many_are_left_out_from_the_end(self) -> None:
        self.addCleanup(setattr, mutes, "PAIRS_AT_MOST", mutes.PAIRS_AT_MOST)
        mutes.PAIRS_AT_MOST = 1
        events = [
            silence("09:00", "13:00", FIRST),
            silence("09:00", "13:00", SECOND, "Also"),
            {"at": at("10:00"), "alerts": [alert("Slow", "10:00", "14:00"), alert("Also", "10:00", "14:00")]},
            {"at": at("14:30"), "tick": True},
        ]
        source = self.source(self.config(), events)
        story = story_of(source, self.config())
        wanted = [each.labels for each in story.alerts]
        found = mutes_of(source, story, wanted)
        self.assertEqual([found.has(labels) for labels in wanted], [True, False])

    def test_incidents_of_the_repository(self) -> None:
        """The first reason of each span is among what is found, and where there is none, nothing is found."""
        for name, config, script in incidents():
            with self.subTest(name):
                source = Source(self.source({}, []).program, str(config), str(script))
                story = story_of(source, json.loads(config.read_bytes()))
                found = mutes_of(source, story, [each.labels for each in story.alerts])
                for row in story.rows:
                    for span in row.spans:
                        near = {
                            muted_by(each)
                            for each in found.of(row.alert)
                            if each.start < span.end and each.end > span.start
                        }
                        if muted_by(span) is not None:
                            self.assertIn(muted_by(span), near)
                        elif span.verdict in ("Told", "Due"):
                            self.assertEqual(near, set(), (clock_text(span.start), span.verdict))


if __name__ == "__main__":
    unittest.main()
