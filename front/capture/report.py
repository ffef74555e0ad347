"""The report of a capture: what was found, what can't be known, and how exact moments are."""

from __future__ import annotations

from typing import Any, Iterator

from ..config.yaml_config import Reading
from ..moments import HOUR, MINUTE, clock_text, length_of, length_text, moment_text
from .alerts import Derived
from .assembly import Assembly, Span, label_of
from .faults import one_line
from .prometheus import Prometheus

GROUP_INTERVAL, REPEAT_INTERVAL = 5 * MINUTE, 4 * HOUR
SHOWN_AT_MOST = 12
QUIET_AT_MOST = 2 * MINUTE


def report(assembly: Assembly, reading: Reading) -> str:
    """Returns the text of the report."""
    sections = {
        "Found": _found(assembly),
        "The configuration": _configuration(assembly, reading),
        "Not known": _not_known(assembly),
        "How exact": _how_exact(assembly),
    }
    span = f"{moment_text(assembly.span.start)} to {moment_text(assembly.span.end)}"
    parts = [f"# Captured: {span}\n"]
    parts += [
        "\n".join([f"## {title}\n", *(f"- {line}" for line in lines)]) + "\n" for title, lines in sections.items()
    ]
    return "\n".join(parts)


def _found(assembly: Assembly) -> Iterator[str]:
    for prometheus, derived in zip(assembly.prometheus, assembly.derived):
        yield from _found_in(prometheus, derived, assembly.span)
    if assembly.alertmanager:
        silences = _count(assembly.silences, "silence")
        yield f"{assembly.alertmanager.name}: version {one_line(assembly.alertmanager.version)}, {silences}"
    if assembly.others:
        others = _count(len(assembly.others), "alert")
        yield f"of other senders: {others}, posted here at the start and at the last post"
    for change in assembly.changes:
        yield f"{clock_text(change.at, True)} {one_line(label_of(change))}"
    yield f"{_count(len(assembly.lines) - 1, 'event')}, from {moment_text(assembly.span.history)} on"


def _found_in(prometheus: Prometheus, derived: Derived, span: Span) -> Iterator[str]:
    alerts = {tuple(sorted(each.labels.items())) for each in derived.posted}
    ends = {
        (tuple(sorted(each.labels.items())), each.post.starts_at) for each in derived.posted if each.post.is_resolved
    }
    counts = f"{_count(len(alerts), 'alert')}, {_count(len(derived.posted), 'post')}, {_count(len(ends), 'end')}"
    delay = length_text(prometheus.resend_delay)
    by_default = "" if prometheus.is_resend_delay_known else ", the default, since its flags don't say"
    yield f"{prometheus.name}: {counts}; it posts again after {delay}{by_default}"
    if derived.dropped:
        yield f"{prometheus.name}: {_count(derived.dropped, 'alert')} dropped by alert_relabel_configs"
    for outage in derived.life.outages:
        yield f"{prometheus.name}: no evaluations from {clock_text(outage.after, True)} to {clock_text(outage.before, True)}"
    if span.end - derived.life.end > QUIET_AT_MOST:
        yield f"{prometheus.name}: nothing is known of it after {clock_text(derived.life.end, True)}"


def _count(count: int, noun: str) -> str:
    return f"{count:,} {noun}{'' if count == 1 else 's'}"


def _configuration(assembly: Assembly, reading: Reading) -> Iterator[str]:
    if assembly.zones:
        yield (
            f"intervals with a location, written as UTC intervals for the days of the script alone: {_some(assembly.zones)};"
            " on other days they hold nowhere"
        )
    for key in reading.unread[:SHOWN_AT_MOST]:
        yield f"line {key.line}: {one_line(key.path)} isn't known to Alertmanager, and is left out"
    count, total = exact_multiples(assembly.config)
    if count:
        yield (
            f"at {count} of {total} routes repeat_interval is an exact multiple of group_interval. Whether Alertmanager repeats"
            " at the multiple or one group_interval later is then decided by milliseconds; the replay says later, always"
        )
    yield "keys that only say how a message looks or where it goes are left out, and so are secrets"


def _not_known(assembly: Assembly) -> Iterator[str]:
    yield "the configuration is the one in force when this was captured; earlier ones aren't kept"
    yield "changes of a silence in place: each is posted as it was at the end; one that was expired early ends then"
    yield "failed and slow evaluations: a missed evaluation is taken for the end of an alert"
    for prometheus, derived in zip(assembly.prometheus, assembly.derived):
        yield from _not_known_of(prometheus.name, derived, bool(prometheus.pulses), prometheus.config.alertmanagers)
    if assembly.alertmanager and not assembly.prometheus:
        yield "alerts that have ended, and all posts before the last: there is no Prometheus to ask"
    if not assembly.alertmanager:
        yield "silences, and alerts of other senders: there is no Alertmanager to ask"
    if assembly.alertmanager and assembly.alertmanager.instances > 1:
        yield (
            f"which of the cluster's {assembly.alertmanager.instances} instances notified, and how long it waited for the others:"
            " the replay has one instance"
        )
    if not any(change.process == "alertmanager" for prometheus in assembly.prometheus for change in prometheus.changes):
        yield "reloads and restarts of Alertmanager, unless the Prometheus scrapes it: no series tells of one"


def _not_known_of(name: str, derived: Derived, has_pulses: bool, alertmanagers: int) -> Iterator[str]:
    if derived.without_rule:
        yield f"{name}: the rules of {_some(derived.without_rule)} aren't there now; the evaluation interval is the global one"
    if derived.ambiguous:
        yield f"{name}: several rules could have made {_some(derived.ambiguous)}; the first is taken"
    if derived.as_written:
        yield f"{name}: annotations with more than labels in their templates are as written: {_some(derived.as_written)}"
    if derived.open_at_start:
        names = _some({labels.get("alertname", "") for labels in derived.open_at_start})
        yield f"{name}: when these began to fire, which was before the script begins (--history reads more): {names}"
    if not has_pulses:
        yield f"{name}: when it was down; it has no series up, so the end of all samples is taken for the end of an alert"
    if alertmanagers > 1:
        yield f"{name}: it sends to {alertmanagers} groups of Alertmanagers; relabelling of one of them isn't applied"


def _how_exact(assembly: Assembly) -> Iterator[str]:
    yield "a post is dated a little after its evaluation, less than its real way takes: a flush at that moment takes it"
    if assembly.delays:
        middle = assembly.delays[len(assembly.delays) // 2]
        yield (
            f"of {_count(len(assembly.delays), 'alert')} still stored, the last post arrived {length_text(middle)} after its"
            f" evaluation (the median; {length_text(assembly.delays[0])} to {length_text(assembly.delays[-1])})"
        )
    yield "silences begin and end as the API says; starts and reloads are as exact as the series that tell of them"
    yield "other things within the same milliseconds may happen in another order: a silence that begins as a group is flushed"


def _some(names: Any) -> str:
    shown = [one_line(name) or '""' for name in sorted(names)]
    more = f" and {len(shown) - SHOWN_AT_MOST} more" if len(shown) > SHOWN_AT_MOST else ""
    return ", ".join(shown[:SHOWN_AT_MOST]) + more


def exact_multiples(config: Any) -> tuple[int, int]:
    """Returns at how many routes the repeat interval is an exact multiple of the group interval, and how many routes there are."""
    found = [repeat % group == 0 for group, repeat in _intervals(config)]
    return sum(found), len(found)


def _intervals(config: Any) -> Iterator[tuple[int, int]]:
    waiting = [(config.get("route") if isinstance(config, dict) else None, GROUP_INTERVAL, REPEAT_INTERVAL)]
    while waiting:
        route, group, repeat = waiting.pop()
        if isinstance(route, dict):
            group, repeat = _set(route, "group_interval", group), _set(route, "repeat_interval", repeat)
            yield group, repeat
            children = route.get("routes")
            waiting += [(child, group, repeat) for child in children] if isinstance(children, list) else []


def _set(route: dict[str, Any], key: str, inherited: int) -> int:
    text = route.get(key)
    return (length_of(text) if isinstance(text, str) else None) or inherited
