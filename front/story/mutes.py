"""All silences and sources that mute an alert. The program's answer names the first alone, so each is asked alone: in a script of its own, an alert
stands beside each silence and each source that may mute it, and a label keeps each pair apart from all others.
"""

from __future__ import annotations

import json
import tempfile
from bisect import bisect_right
from collections import defaultdict
from dataclasses import dataclass, field
from pathlib import Path
from typing import Any, Iterable, Iterator, Optional

from ..moments import moment_text, nanoseconds
from ..program import Source, converse
from ..script import Event, event_of, plain_id, script_of
from .config import Keyed, keys_of, rules_of, timeout_of
from .matching import Matcher, may_match_all
from .model import Pairs, Span, Story
from .times import LAST, TIMES
from .walk import pairs_of

MUTES = ("Inhibited", *TIMES, "Silenced")
PAIRS_AT_MOST, QUESTIONS_AT_MOST = 8_000, 100_000
POSTED_AT_ONCE = 500
LABEL = "amreplay_alone"

Config = dict[str, Any]


@dataclass
class Mutes:
    """For each alert that was asked about, the times in which a silence or a source mutes it, each with the program's answer."""

    spans: dict[Pairs, list[Span]] = field(default_factory=dict)

    def of(self, alert: Pairs) -> list[Span]:
        return self.spans.get(alert, [])

    def has(self, alert: Pairs) -> bool:
        """Returns whether an alert was asked about."""
        return alert in self.spans


@dataclass
class Chain:
    """A silence with those that it was changed from and to: the matchers of each, and the moments at which it may begin or end."""

    matchers: list[tuple[Matcher, ...]] = field(default_factory=list)
    moments: set[int] = field(default_factory=set)


@dataclass(frozen=True)
class Pair:
    """An alert and what may mute it, a chain by its number or a source, and the moments at which that may begin or end, up to `end`."""

    alert: Pairs
    chain: Optional[int]
    source: Optional[Pairs]
    moments: tuple[int, ...]
    end: int


def mutes_of(source: Source, story: Story, wanted: Iterable[Pairs]) -> Mutes:
    """Returns all that mutes some alerts in the times in which they are muted, for as many of them as aren't too much, in their order."""
    script = script_of(Path(source.script).read_bytes())
    refused = {mark.event for mark in story.marks if mark.kind == "refused"}
    events = [event_of(line) for number, line in enumerate(script.lines, 1) if number not in refused]
    finder = _Finder(story, events)
    pairs, mutes = finder.pairs(wanted)
    if pairs:
        text = Path(source.script).read_bytes() + Path(source.config).read_bytes()
        label = LABEL
        while label.encode() in text:
            label += "_"
        for pair, spans in zip(pairs, _Asker(source.program, story, finder, label).ask(pairs)):
            mutes.spans[pair.alert] += spans
    return mutes


def sources_of(story: Story, alerts: set[Pairs]) -> set[Pairs]:
    """Returns the alerts that may inhibit some alerts while those are muted."""
    finder = _Finder(story, [])
    return {source for alert in alerts for source in finder.sources_of(alert)}


class _Finder:
    """Finds which silences and sources may mute an alert. More may be found than do, and none is left out."""

    def __init__(self, story: Story, events: list[Event]) -> None:
        self.events = events
        self.chain_of: dict[str, int] = {}
        self.chains: list[Chain] = []
        self._story = story
        self._muted = _muted_times(story)
        self._sources: Optional[dict[tuple[int, Keyed], list[Pairs]]] = None
        self._fired = {alert.labels: [(each.posted, each.end) for each in alert.firings] for alert in story.alerts}
        self._posted: Optional[dict[Pairs, set[int]]] = None
        self._rules = [rules_of(config) for config in story.configs]
        for event in events:
            self._add(event)
        self._lengths = [(min(chain.moments), max(chain.moments)) for chain in self.chains]

    def pairs(self, wanted: Iterable[Pairs]) -> tuple[list[Pair], Mutes]:
        """Returns the pairs of as many alerts as aren't too many, and a list for what is found of each."""
        mutes = Mutes()
        found: list[Pair] = []
        questions = 0
        for alert in wanted:
            own = self._pairs(alert) if alert in self._muted else []
            questions += sum(len(pair.moments) for pair in own)
            if len(found) + len(own) > PAIRS_AT_MOST or questions > QUESTIONS_AT_MOST:
                break
            mutes.spans[alert] = []
            found += own
        return found, mutes

    def _add(self, event: Event) -> None:
        if event.act == "expire" and plain_id(event.value) in self.chain_of:
            self.chains[self.chain_of[plain_id(event.value)]].moments.add(nanoseconds(event.at))
        if event.act != "silence":
            return
        value = event.value
        number = self.chain_of.get(plain_id(value.get("id") or ""), len(self.chains))
        if number == len(self.chains):
            self.chains.append(Chain())
        self.chain_of[plain_id(event.new_id or "")] = number
        chain = self.chains[number]
        chain.matchers.append(tuple(_matcher(each) for each in value["matchers"]))
        chain.moments |= {nanoseconds(text) for text in (event.at, value["startsAt"], value["endsAt"])}

    def _pairs(self, alert: Pairs) -> list[Pair]:
        start, end = self._muted[alert]
        by_name = dict(alert)
        found = []
        for number, chain in enumerate(self.chains):
            first, last = self._lengths[number]
            if first < end and last > start and any(may_match_all(each, by_name) for each in chain.matchers):
                found.append(Pair(alert, number, None, _within(chain.moments, start, end), end))
        for source in self.sources_of(alert):
            moments = self._moments_of(source) | set(self._story.config_starts)
            found.append(Pair(alert, None, source, _within(moments, start, end), end))
        return found

    def sources_of(self, alert: Pairs) -> list[Pairs]:
        """Returns the alerts that may inhibit an alert, of those that fire while it is muted."""
        if self._sources is None:
            self._sources = self._all_sources()
        start, end = self._muted[alert]
        found = {
            source
            for config, rules in enumerate(self._rules)
            for key in keys_of(rules, dict(alert), is_source=False)
            for source in self._sources.get((config, key), ())
            if any(posted < end and ended >= start for posted, ended in self._fired[source])
        }
        return sorted(found - {alert})

    def _all_sources(self) -> dict[tuple[int, Keyed], list[Pairs]]:
        found: dict[tuple[int, Keyed], list[Pairs]] = defaultdict(list)
        for alert in self._fired:
            by_name = dict(alert)
            for config, rules in enumerate(self._rules):
                for key in keys_of(rules, by_name, is_source=True):
                    found[config, key].append(alert)
        return found

    def _moments_of(self, source: Pairs) -> set[int]:
        """Returns the moments at which an alert may begin or end to fire."""
        if self._posted is None:
            self._posted = self._all_posted()
        return self._posted[source]

    def _all_posted(self) -> dict[Pairs, set[int]]:
        timeouts = [timeout_of(config) for config in self._story.configs]
        found: dict[Pairs, set[int]] = defaultdict(set)
        config = 0
        for event in self.events:
            config += event.act == "reload"
            at = nanoseconds(event.at)
            for alert in event.value if event.act == "alerts" else ():
                given = (alert.get("startsAt"), alert.get("endsAt"))
                moments = {at, *(nanoseconds(text) for text in given if _is_given(text))}
                found[pairs_of(alert["labels"])] |= (
                    moments if _is_given(given[1]) else moments | {at + timeouts[config]}
                )
        return found


def _is_given(moment: Optional[str]) -> bool:
    return bool(moment) and not str(moment).startswith("0001-")


def _muted_times(story: Story) -> dict[Pairs, tuple[int, int]]:
    """Returns from when to when alerts are muted, at times or always."""
    found: dict[Pairs, tuple[int, int]] = {}
    for row in story.rows:
        spans = [span for span in row.spans if span.verdict in MUTES]
        if spans:
            start, end = found.get(row.alert, (spans[0].start, spans[-1].end))
            found[row.alert] = (min(start, spans[0].start), max(end, spans[-1].end))
    return found


def _within(moments: set[int], start: int, end: int) -> tuple[int, ...]:
    return tuple(sorted({start, *(at for at in moments if start < at < end)}))


def _matcher(each: dict[str, Any]) -> Matcher:
    is_equal, is_regex = each.get("isEqual"), each.get("isRegex")
    return each["name"], each["value"], True if is_equal is None else is_equal, bool(is_regex)


class _Asker:
    """Writes the script of the pairs, and asks about the alert of each at its moments."""

    def __init__(self, program: str, story: Story, finder: _Finder, label: str) -> None:
        self._program = program
        self._story = story
        self._finder = finder
        self._label = label

    def ask(self, pairs: list[Pair]) -> list[list[Span]]:
        """Returns the times in which each pair's alert is muted by what it stands beside."""
        asked: dict[int, list[int]] = defaultdict(list)
        for index, pair in enumerate(pairs):
            for at in pair.moments:
                asked[at].append(index)
        answers: list[list[Optional[Config]]] = [[] for _ in pairs]
        with tempfile.TemporaryDirectory() as room:
            script, config = Path(room) / "alone.jsonl", Path(room) / "alone.json"
            cursors = self._write(script, pairs, sorted(asked))
            config.write_text(json.dumps(self._config(self._story.configs[0])), "utf-8")
            commands = self._commands(pairs, asked, cursors)
            said = converse(Source(self._program, str(config), str(script)), commands)
            for at in sorted(asked):
                next(said)
                for index in asked[at]:
                    answers[index].append(self._read(next(said).lines))
            for _ in said:
                pass
        return [self._spans(pair, lines) for pair, lines in zip(pairs, answers)]

    def _commands(self, pairs: list[Pair], asked: dict[int, list[int]], cursors: dict[int, int]) -> Iterator[str]:
        for at in sorted(asked):
            yield f"seek {cursors[at]}"
            for index in asked[at]:
                yield f"explain {json.dumps(self._marked(pairs[index], index), ensure_ascii=False)}"

    def _write(self, path: Path, pairs: list[Pair], moments: list[int]) -> dict[int, int]:
        """Writes the script, and returns the cursor of each moment. Each has a tick after all events up to it."""
        cursors: dict[int, int] = {}
        waiting = list(reversed(moments))
        with path.open("w", encoding="utf-8") as file:
            count = 0
            for event in self._events(pairs):
                at = nanoseconds(event["at"])
                while waiting and waiting[-1] < at:
                    count += 1
                    cursors[waiting[-1]] = count
                    file.write(f'{{"at":"{moment_text(waiting.pop())}","tick":true}}\n')
                count += 1
                file.write(f"{json.dumps(event, ensure_ascii=False)}\n")
            for at in reversed(waiting):
                count += 1
                cursors[at] = count
                file.write(f'{{"at":"{moment_text(at)}","tick":true}}\n')
        return cursors

    def _events(self, pairs: list[Pair]) -> Iterator[Config]:
        """Yields the alerts of the pairs, which fire all the time, and the events that concern what they stand beside."""
        events = self._finder.events
        start = events[0].at
        always = [
            {"labels": self._marked(pair, index), "startsAt": start, "endsAt": moment_text(LAST)}
            for index, pair in enumerate(pairs)
        ]
        yield from _posts(start, always)
        beside: dict[Pairs, list[int]] = defaultdict(list)
        for index, pair in enumerate(pairs):
            if pair.source is not None:
                beside[pair.source].append(index)
        chains = {pair.chain for pair in pairs}
        for event in events:
            if event.act == "alerts":
                copies = [
                    {**alert, "labels": {**dict(labels), self._label: str(index)}}
                    for alert, labels in ((each, pairs_of(each["labels"])) for each in event.value)
                    for index in beside.get(labels, ())
                ]
                yield from _posts(event.at, copies)
            elif event.act == "reload":
                yield {"at": event.at, "reload": self._config(event.value)}
            elif event.act in ("silence", "expire"):
                yield from self._silence(event, chains)

    def _silence(self, event: Event, chains: set[Optional[int]]) -> Iterator[Config]:
        posted = event.new_id if event.act == "silence" else event.value
        chain = self._finder.chain_of.get(plain_id(posted or ""))
        if chain is None or chain not in chains:
            return
        if event.act == "expire":
            yield {"at": event.at, "expire": event.value}
            return
        matchers = [*event.value["matchers"], {"name": f"{self._label}_with", "value": str(chain)}]
        yield {"at": event.at, "silence": {**event.value, "matchers": matchers}, "newId": event.new_id}

    def _marked(self, pair: Pair, index: int) -> dict[str, str]:
        """Returns the labels of a pair's alert. One label keeps it apart from all other pairs, and one joins it to its silence."""
        chain = {} if pair.chain is None else {f"{self._label}_with": str(pair.chain)}
        return {**dict(pair.alert), self._label: str(index), **chain}

    def _config(self, config: Config) -> Config:
        """Returns a configuration with the rules of another one, each of which mutes within a pair alone."""
        rules = [
            {**rule, "equal": [*(rule.get("equal") or []), self._label]} for rule in config.get("inhibit_rules") or []
        ]
        timeout = (config.get("global") or {}).get("resolve_timeout")
        return {
            **({"global": {"resolve_timeout": timeout}} if timeout is not None else {}),
            "route": {"receiver": "asked", "group_wait": "0s", "group_interval": "10y", "repeat_interval": "10y"},
            "receivers": [{"name": "asked", "webhook_configs": [{}]}],
            "inhibit_rules": rules,
        }

    def _read(self, lines: list[bytes]) -> Optional[Config]:
        """Returns what an answer says of a mute, or None if it says of none."""
        line = json.loads(lines[0]) if lines else {}
        if line.get("verdict") == "Silenced":
            return {"verdict": "Silenced", "id": line["id"]}
        if line.get("verdict") == "Inhibited":
            source = {name: value for name, value in line["source"].items() if name != self._label}
            return {"verdict": "Inhibited", "rule": line["rule"], "source": source}
        return None

    def _spans(self, pair: Pair, lines: list[Optional[Config]]) -> list[Span]:
        found: list[Span] = []
        for at, until, line in zip(pair.moments, [*pair.moments[1:], pair.end], lines):
            config = max(0, bisect_right(self._story.config_starts, at) - 1)
            last = found[-1] if found else None
            if line is not None and last and last.end == at and last.line == line and last.config == config:
                found[-1] = Span(last.start, until, line, config)
            elif line is not None:
                found.append(Span(at, until, line, config))
        return found


def _posts(at: str, alerts: list[Config]) -> Iterator[Config]:
    for start in range(0, len(alerts), POSTED_AT_ONCE):
        yield {"at": at, "alerts": alerts[start : start + POSTED_AT_ONCE]}
