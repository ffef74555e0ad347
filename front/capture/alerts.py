"""The alerts that a Prometheus posted, with the labels and annotations with which they were sent."""

from __future__ import annotations

import re
from dataclasses import dataclass, field
from typing import Iterator

from .faults import time_limit
from .posts import Life, Post, Timing, first_samples_after, life_of, posts_of
from .prometheus import Group, Prometheus, Rule, Series
from .relabel import Labels, relabelled

SECONDS_AT_MOST = 300
LABEL_REFERENCE = re.compile(r"\{\{\s*\$labels\.([a-zA-Z_][a-zA-Z0-9_]*)\s*\}\}")


@dataclass(frozen=True)
class Posted:
    """A post of one alert as Alertmanager got it, and the group whose evaluation made it. Texts are in the order of their names."""

    post: Post
    group: str
    labels: Labels
    annotations: dict[str, str]


@dataclass
class Derived:
    """What was derived from the samples of one Prometheus, and what of it isn't certain."""

    posted: list[Posted] = field(default_factory=list)
    life: Life = field(default_factory=lambda: Life(0))
    dropped: int = 0
    without_rule: set[str] = field(default_factory=set)
    ambiguous: set[str] = field(default_factory=set)
    as_written: set[str] = field(default_factory=set)
    open_at_start: list[Labels] = field(default_factory=list)


def derive(prometheus: Prometheus, start: int, end: int) -> Derived:
    """Returns the posts of a Prometheus between two moments."""
    with time_limit(SECONDS_AT_MOST, f"{prometheus.name}: its alerts take more than {SECONDS_AT_MOST} seconds to read"):
        return _derived(prometheus, start, end)


def _derived(prometheus: Prometheus, start: int, end: int) -> Derived:
    derived = Derived(life=_life(prometheus, end))
    named: dict[str, list[Rule]] = {}
    for rule in prometheus.rules:
        named.setdefault(rule.name, []).append(rule)
    ruled = [(series, _rule_of(series, named, prometheus, derived)) for series in prometheus.series]
    firsts = _first_samples(ruled, derived.life)
    for series, rule in ruled:
        if series.firing:
            derived.posted += _posted(series, rule, prometheus, derived, firsts[rule.group])
            if series.firing[0] - start < rule.group.interval:
                derived.open_at_start.append(series.labels)
    return derived


def _life(prometheus: Prometheus, end: int) -> Life:
    signs = sorted({at for series in prometheus.series for at in (*series.firing, *series.pending)})
    return life_of(prometheus.pulses, prometheus.own_starts, signs, end)


def _rule_of(series: Series, named: dict[str, list[Rule]], prometheus: Prometheus, derived: Derived) -> Rule:
    """Returns the rule that made an alert: the one of its name most of whose fixed labels it has."""
    name = series.labels.get("alertname", "")
    fitting = [rule for rule in named.get(name, []) if _fits(rule, series.labels)]
    if not fitting:
        derived.without_rule.add(name)
        group = Group(f";{name}", prometheus.config.evaluation_interval)
        return Rule(group, name, 0, {}, {})
    best = max(len(rule.labels) for rule in fitting)
    chosen = [rule for rule in fitting if len(rule.labels) == best]
    if len({(rule.group.interval, rule.hold) for rule in chosen}) > 1:
        derived.ambiguous.add(name)
    return chosen[0]


def _fits(rule: Rule, labels: Labels) -> bool:
    return all("{{" in value or labels.get(name, "") == value for name, value in rule.labels.items())


def _first_samples(ruled: list[tuple[Series, Rule]], life: Life) -> dict[Group, set[int]]:
    moments: dict[Group, set[int]] = {}
    for series, rule in ruled:
        moments.setdefault(rule.group, set()).update(series.firing, series.pending)
    return {group: first_samples_after(life.outages, sorted(found)) for group, found in moments.items()}


def _posted(
    series: Series, rule: Rule, prometheus: Prometheus, derived: Derived, first_samples: set[int]
) -> Iterator[Posted]:
    labels = relabelled({**prometheus.config.external_labels, **series.labels}, prometheus.config.steps)
    if not labels:
        derived.dropped += 1
        return
    labels = dict(sorted(labels.items()))
    templates = sorted(rule.annotations.items())
    annotations = {name: _annotation(text, rule, series.labels, derived) for name, text in templates}
    timing = Timing(rule.group.interval, prometheus.resend_delay, rule.hold)
    for post in posts_of(series.firing, series.pending, timing, derived.life, first_samples):
        yield Posted(post, rule.group.name, labels, annotations)


def _annotation(template: str, rule: Rule, labels: Labels, derived: Derived) -> str:
    """Fills in labels of the alert. A template that says more is left as it is written."""

    def value(found: re.Match[str]) -> str:
        return found[0] if found[1] in rule.labels else labels.get(found[1], "")

    text = LABEL_REFERENCE.sub(value, template)
    if "{{" not in text:
        return text
    derived.as_written.add(rule.name)
    return template
