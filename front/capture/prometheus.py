"""What a Prometheus has kept: rules, configuration, the samples of its alerts, and when it ran."""

from __future__ import annotations

from dataclasses import dataclass, field
from typing import Iterator

from ..moments import HOUR, MINUTE, SECOND, length_of
from ..progress import Progress
from .answers import Answer
from .faults import fault
from .prometheus_config import PrometheusConfig, prometheus_config
from .servers import SavedServer, Server, TooLarge

MILLISECOND = SECOND // 1000
SAMPLES_AT_MOST = 5_000_000
POINTS_AT_MOST = 10_000
PIECE = HOUR
STARTING_TAKES = 10 * SECOND
PIECES_AT_MOST = 4_000
UP = "max(timestamp(up))"
STARTS = 'process_start_time_seconds and on (job, instance) {__name__="%s_build_info"}'
RELOADS = '{__name__=~"(prometheus|alertmanager)_config_last_reload_success_timestamp_seconds"}'


@dataclass(frozen=True)
class Group:
    """A group of rules, which are evaluated together at each interval."""

    name: str
    interval: int


@dataclass(frozen=True)
class Rule:
    """A rule that alerts: its group, and what it gives its alerts."""

    group: Group
    name: str
    hold: int
    labels: dict[str, str]
    annotations: dict[str, str]


@dataclass
class Series:
    """An alert as its samples show it: its labels, and the moments of the evaluations at which it fired or was pending."""

    labels: dict[str, str]
    firing: list[int] = field(default_factory=list)
    pending: list[int] = field(default_factory=list)


@dataclass(frozen=True)
class Change:
    """A start or a reload of a process that a series tells of. It is of `prometheus` or `alertmanager`."""

    at: int
    kind: str
    process: str
    instance: str


@dataclass
class Prometheus:
    """All that was found in one Prometheus."""

    name: str
    config: PrometheusConfig
    resend_delay: int
    is_resend_delay_known: bool
    rules: list[Rule]
    series: list[Series]
    pulses: list[int]
    changes: list[Change]
    own_starts: list[int]


def prometheus_of(server: Server, start: int, end: int, progress: Progress) -> Prometheus:
    """Asks a Prometheus for all that it has kept of a span."""
    text = _data(server, "config", "/api/v1/status/config").member("yaml").text()
    config = prometheus_config(text, f"{server.name}/api/v1/status/config")
    delay = _resend_delay(server)
    rules = _rules(server)
    step = max(SECOND, min(config.scrape_interval, config.evaluation_interval))
    changes = _changes(server, start, end, progress)
    return Prometheus(
        server.name,
        config,
        MINUTE if delay is None else delay,
        delay is not None,
        rules,
        _series(server, (start, end), config.query_offset, progress),
        _pulses(server, start, end, step, progress),
        changes,
        _own_starts(server, changes),
    )


def _data(server: Server, name: str, path: str, query: dict[str, str] | None = None) -> Answer:
    return Answer.of_prometheus(server.get(name, path, query), f"{server.name}{path}")


def _resend_delay(server: Server) -> int | None:
    flags = _data(server, "flags", "/api/v1/status/flags").object()
    text = flags.get("rules.alert.resend-delay")
    return length_of(text) if isinstance(text, str) else None


def _own_starts(server: Server, changes: list[Change]) -> list[int]:
    """Returns when this Prometheus was started, if it scrapes itself: its instance is the one that started when it says."""
    runtime = _optional(server, "runtime", "/api/v1/status/runtimeinfo")
    start_time = runtime.optional("startTime") if runtime else None
    if start_time is None:
        return []
    started = start_time.moment()
    starts = [change for change in changes if change.kind == "start" and change.process == "prometheus"]
    known = [(change.instance, change.at) for change in starts] + _starts_now(server)
    own = {instance for instance, at in known if 0 <= started - at < STARTING_TAKES}
    return [change.at for change in starts if change.instance in own] if len(own) == 1 else []


def _starts_now(server: Server) -> list[tuple[str, int]]:
    """Returns the instances of Prometheus that this one scrapes now, and when they were started."""
    answer = _optional(server, "starts-now", "/api/v1/query", {"query": STARTS % "prometheus"})
    results = answer.member("result").items() if answer else []
    return [
        (each.member("metric").texts().get("instance", ""), _whole(_value(each.member("value")))) for each in results
    ]


def _optional(server: Server, name: str, path: str, query: dict[str, str] | None = None) -> Answer | None:
    """Returns an answer that may be absent from a folder of responses."""
    if isinstance(server, SavedServer) and not server.has(name):
        return None
    return _data(server, name, path, query)


def _rules(server: Server) -> list[Rule]:
    groups = _data(server, "rules", "/api/v1/rules", {"type": "alert"}).member("groups")
    found: list[Rule] = []
    for answer in groups.items():
        file = answer.optional("file")
        interval = round(answer.member("interval").number() * SECOND)
        if interval <= 0:
            raise answer.member("interval").wrong("an interval")
        group = Group((file.text() if file else "") + ";" + answer.member("name").text(), interval)
        found += [_rule(rule, group) for rule in answer.member("rules").items() if _alerts(rule)]
    return found


def _alerts(rule: Answer) -> bool:
    kind = rule.optional("type")
    return kind is not None and kind.text() == "alerting"


def _rule(rule: Answer, group: Group) -> Rule:
    hold, labels, annotations = (rule.optional("duration"), rule.optional("labels"), rule.optional("annotations"))
    return Rule(
        group,
        rule.member("name").text(),
        round(hold.number() * SECOND) if hold else 0,
        labels.texts() if labels else {},
        annotations.texts() if annotations else {},
    )


def _series(server: Server, span: tuple[int, int], offset: int, progress: Progress) -> list[Series]:
    """Returns the alerts of a span, by the moments of their evaluations, which are an offset later than their samples.

    Pieces that overlap, or that are too large for one answer, make no difference.
    """
    start, end = span
    moments: dict[tuple[tuple[str, str], ...], dict[str, set[int]]] = {}
    count = 0
    for answer in _sample_answers(server, start, end, progress):
        for result in answer.member("result").items():
            labels = result.member("metric").texts()
            labels.pop("__name__", None)
            state = labels.pop("alertstate", "")
            values = result.member("values")
            found = [at + offset for at in _sample_moments(values) if start <= at + offset <= end]
            count += len(found)
            if count > SAMPLES_AT_MOST:
                raise fault(f"{server.name}: more than {SAMPLES_AT_MOST} samples; ask for a shorter span")
            if state in ("firing", "pending") and found:
                states = moments.setdefault(tuple(sorted(labels.items())), {"firing": set(), "pending": set()})
                states[state].update(found)
    return [
        Series(dict(labels), sorted(states["firing"]), sorted(states["pending"]))
        for labels, states in sorted(moments.items())
    ]


def _sample_moments(values: Answer) -> list[int]:
    """Returns the moments of samples, which Prometheus keeps in milliseconds."""
    try:
        return [round(sample[0] * 1000) * MILLISECOND for sample in values.value]
    except (TypeError, IndexError, KeyError, ValueError, OverflowError):
        raise values.wrong("samples") from None


def _sample_answers(server: Server, start: int, end: int, progress: Progress) -> Iterator[Answer]:
    if isinstance(server, SavedServer):
        bodies = server.all("samples")
        if not bodies:
            raise fault(f"there is no {server.folder}/samples.json; save the samples of ALERTS there")
        for body in bodies:
            yield Answer.of_prometheus(body, f"{server.name}: samples")
        return
    waiting = _pieces(start, end, PIECE)
    total, done = len(waiting), 0
    while waiting:
        left, right = waiting.pop(0)
        progress.draw(f"samples of {server.name}", done, total)
        query = {"query": f"ALERTS[{-(-(right - left) // MILLISECOND)}ms]", "time": _seconds(right)}
        try:
            done += 1
            yield _data(server, f"samples-{done:04}", "/api/v1/query", query)
        except TooLarge:
            if right - left < MINUTE:
                raise fault(f"{server.name}: the samples of one minute are too large for one answer") from None
            middle = (left + right) // 2
            waiting[:0] = [(left, middle), (middle, right)]
            total += 1


def _pieces(start: int, end: int, size: int) -> list[tuple[int, int]]:
    size = max(size, -(-(end - start) // PIECES_AT_MOST))
    return [(left, min(left + size, end)) for left in range(start, end, size)]


def _seconds(moment: int) -> str:
    return f"{moment / SECOND:.3f}"


def _matrices(
    server: Server, name: str, query: str, span: tuple[int, int], step: int, progress: Progress
) -> Iterator[tuple[dict[str, str], list[float]]]:
    """Yields the series of a query over a span, with their values at each step."""
    if isinstance(server, SavedServer):
        answers = [Answer.of_prometheus(body, f"{server.name}: {name}") for body in server.all(name)]
    else:
        pieces = _pieces(*span, step * POINTS_AT_MOST)
        answers = []
        for i, (left, right) in enumerate(pieces):
            progress.draw(f"{name} of {server.name}", i, len(pieces))
            asked = {"query": query, "start": _seconds(left), "end": _seconds(right), "step": _seconds(step)}
            answers.append(_data(server, f"{name}-{i + 1:04}", "/api/v1/query_range", asked))
    for answer in answers:
        for result in answer.member("result").items():
            yield result.member("metric").texts(), [_value(value) for value in result.member("values").items()]


def _value(value: Answer) -> float:
    if not isinstance(value.value, list) or len(value.value) != 2:
        raise value.wrong("a sample")
    return Answer(value.value[1], value.location).number()


def _pulses(server: Server, start: int, end: int, step: int, progress: Progress) -> list[int]:
    """Returns the moments of scrapes, at most one of each step: the Prometheus ran then."""
    found: set[int] = set()
    for _, values in _matrices(server, "pulses", UP, (start, end), step, progress):
        found.update(round(value * 1000) * MILLISECOND for value in values)
    return sorted(found)


def _changes(server: Server, start: int, end: int, progress: Progress) -> list[Change]:
    """Returns the starts and reloads within a span that this server's own series tell of."""
    step = max(15 * SECOND, (end - start) // POINTS_AT_MOST)
    found: set[Change] = set()
    for process in ("prometheus", "alertmanager"):
        query = STARTS % process
        for metric, values in _matrices(server, f"starts-{process}", query, (start, end), step, progress):
            found.update(Change(_whole(value), "start", process, metric.get("instance", "")) for value in values)
    for metric, values in _matrices(server, "reloads", RELOADS, (start, end), step, progress):
        process = metric.get("__name__", "").partition("_")[0]
        found.update(Change(_whole(value), "reload", process, metric.get("instance", "")) for value in values)
    return sorted(found, key=lambda change: (change.at, change.kind, change.process, change.instance))


def _whole(value: float) -> int:
    return round(value * 1000) * MILLISECOND
