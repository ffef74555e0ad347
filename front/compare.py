"""`./amreplay compare`: the replay beside what the receivers really got, line by line with the differences in time."""

from __future__ import annotations

import argparse
import json
from dataclasses import dataclass
from typing import Any, Iterable, Iterator

from . import inputs
from .arguments import add_config, add_output, add_script, parser_of
from .moments import MINUTE, SECOND, clock_text, moment_text, nanoseconds
from .program import Fault, Program

Labels = tuple[tuple[str, str], ...]
FARTHEST = MINUTE
OTHER_ALERTS = 5 * SECOND
LONG_PART = 500


@dataclass(frozen=True)
class Notification:
    """What a receiver got, or would have got by the replay. One that was truncated has only some of its alerts."""

    at: int
    receiver: str
    group: Labels
    firing: frozenset[Labels]
    resolved: frozenset[Labels]
    is_truncated: bool = False

    def has_alerts_of(self, replayed: Notification) -> bool:
        """Returns whether both have the same alerts, as far as this one has them."""
        if self.is_truncated:
            return self.firing <= replayed.firing and self.resolved <= replayed.resolved
        return (self.firing, self.resolved) == (replayed.firing, replayed.resolved)


@dataclass(frozen=True)
class Pair:
    """A notification that was received, and the one of the replay beside it. One of them may be missing."""

    received: Notification | None
    replayed: Notification | None

    @property
    def either(self) -> Notification:
        """The one that was received, or else the other."""
        found = self.received or self.replayed
        assert found is not None
        return found

    @property
    def difference(self) -> int | None:
        """How much later than in the replay it was received."""
        return self.received.at - self.replayed.at if self.received and self.replayed else None

    @property
    def is_same(self) -> bool:
        """Whether both are there, with the same alerts."""
        return bool(self.received and self.replayed and self.received.has_alerts_of(self.replayed))


def main(arguments: list[str]) -> int:
    """Prints the comparison. The status is 1 if a notification is missing on one side, or has other alerts."""
    options = _options(arguments)
    with inputs.opened() as files:
        script = files.script(options.script)
        config = files.config(options.config)
        received = _received(files.read(options.webhooks))
        printed = Program.found().run(files.source(config, script))
    replayed = [found for line in printed for found in _replayed(line)]
    start, end = _span(options, inputs.times_of(script.data))
    unlogged = sorted({each.receiver for each in replayed} - {each.receiver for each in received})
    logged = [each for each in replayed if each.receiver not in unlogged]
    pairs = list(
        _pairs([each for each in received if start <= each.at <= end], [each for each in logged if each.at >= start])
    )
    outside = sum(not start <= each.at <= end for each in received)
    if options.output == "json":
        _print_json(pairs)
    else:
        _print_text(pairs, unlogged, outside)
    return 0 if all(pair.is_same for pair in pairs) else 1


def _options(arguments: list[str]) -> argparse.Namespace:
    parser = parser_of(
        "compare",
        "Sets the replay beside the notifications that webhooks really got.",
        'FILE has a line {"receivedAt": MOMENT, "body": BODY} for each body. docs/CAPTURE.md says how to log them.',
    )
    add_config(parser)
    add_script(parser)
    parser.add_argument("--webhooks", metavar="FILE", required=True, help="what the webhooks got")
    parser.add_argument("--from", dest="start", metavar="MOMENT", help="compare what is at this moment or later")
    parser.add_argument("--to", dest="end", metavar="MOMENT", help="compare what is received up to this moment")
    add_output(parser, "the comparison is")
    return parser.parse_args(arguments)


def _span(options: argparse.Namespace, times: tuple[int, int] | None) -> tuple[int, int]:
    first, last = times or (0, 0)
    try:
        start = nanoseconds(options.start) if options.start else first
        return start, nanoseconds(options.end) if options.end else last
    except ValueError as error:
        raise Fault(f"amreplay: compare: {error} isn't a moment such as 2024-05-01T10:00:00Z", 2) from None


def _received(log: inputs.Given) -> list[Notification]:
    """Reads the log of the webhooks, in the order of its moments."""
    found: list[Notification] = []
    for number, line in enumerate(log.data.split(b"\n"), 1):
        if not line.strip():
            continue
        try:
            found.append(_logged(json.loads(line)))
        except (ValueError, KeyError, TypeError, AttributeError, RecursionError):
            shape = "an object with receivedAt, a moment, and body, which a webhook got"
            raise Fault(f"amreplay: compare: {log.name}: line {number} isn't {shape}") from None
    return sorted(found, key=lambda each: each.at)


def _logged(line: dict[str, Any]) -> Notification:
    body = line["body"]
    alerts = [(alert["status"] == "resolved", _labels(alert["labels"])) for alert in body["alerts"]]
    firing, resolved = (frozenset(each for ends, each in alerts if ends is wanted) for wanted in (False, True))
    group = _labels(body["groupLabels"])
    at, is_truncated = nanoseconds(line["receivedAt"]), bool(body.get("truncatedAlerts"))
    return Notification(at, str(body["receiver"]), group, firing, resolved, is_truncated)


def _replayed(line: dict[str, Any]) -> Iterator[Notification]:
    if line.get("integration") == "webhook" and line["place"] == 0:
        firing, resolved = (
            frozenset(_labels(alert["labels"]) for alert in line[key]) for key in ("firing", "resolved")
        )
        yield Notification(nanoseconds(line["at"]), line["receiver"], _labels(line["groupLabels"]), firing, resolved)


def _labels(labels: dict[str, str]) -> Labels:
    return tuple(sorted((str(name), str(value)) for name, value in labels.items()))


def _pairs(received: list[Notification], replayed: list[Notification]) -> list[Pair]:
    """Pairs the notifications of each receiver and group, in order, and returns them by their moments."""
    groups: dict[tuple[str, Labels], tuple[list[Notification], list[Notification]]] = {}
    for side, notifications in enumerate((received, replayed)):
        for each in notifications:
            groups.setdefault((each.receiver, each.group), ([], []))[side].append(each)
    found = [pair for left, right in groups.values() for part in _parts(left, right) for pair in _aligned(*part)]
    return sorted(found, key=lambda pair: (pair.either.at, pair.either.receiver, pair.either.group))


def _parts(
    received: list[Notification], replayed: list[Notification]
) -> Iterator[tuple[list[Notification], list[Notification]]]:
    """Splits both where nothing is within reach of what is later, or at a pause if a part is long, so that each is small."""
    part: tuple[list[Notification], list[Notification]] = ([], [])
    last: int | None = None
    merged = [(each.at, side, each) for side, notes in enumerate((received, replayed)) for each in notes]
    for at, side, each in sorted(merged, key=lambda item: item[:2]):
        if last is not None and at - last > _pause_to_split(max(map(len, part))):
            yield part
            part = ([], [])
        part[side].append(each)
        last = at
    if last is not None:
        yield part


def _pause_to_split(length: int) -> int:
    if length < LONG_PART:
        return FARTHEST
    return SECOND if length < 2 * LONG_PART else -1


def _aligned(received: list[Notification], replayed: list[Notification]) -> list[Pair]:
    """Pairs two lists in order, with the least sum of differences. One without a partner counts as half of the farthest."""
    rows, columns = len(received), len(replayed)
    alone = FARTHEST // 2
    costs = [[alone * (i + j) for j in range(columns + 1)] for i in range(rows + 1)]
    for i in range(1, rows + 1):
        for j in range(1, columns + 1):
            paired = costs[i - 1][j - 1] + _cost(received[i - 1], replayed[j - 1])
            costs[i][j] = min(paired, costs[i - 1][j] + alone, costs[i][j - 1] + alone)
    found: list[Pair] = []
    i, j = rows, columns
    while i or j:
        if i and j and costs[i][j] == costs[i - 1][j - 1] + _cost(received[i - 1], replayed[j - 1]):
            i, j = i - 1, j - 1
            found.append(Pair(received[i], replayed[j]))
        elif i and costs[i][j] == costs[i - 1][j] + alone:
            i -= 1
            found.append(Pair(received[i], None))
        else:
            j -= 1
            found.append(Pair(None, replayed[j]))
    return found


def _cost(received: Notification, replayed: Notification) -> int:
    """Returns how unlike two are: their difference in time, and more if their alerts differ."""
    return abs(received.at - replayed.at) + (0 if received.has_alerts_of(replayed) else OTHER_ALERTS)


def _print_text(pairs: list[Pair], unlogged: list[str], outside: int) -> None:
    print(f"{'received (UTC)':23}  {'later by':>12}  receiver, group and alerts")
    for pair in pairs:
        print(
            f"{clock_text(_milliseconds(pair.either.at), True):23}  {_difference_text(pair):>12}  {_name(pair)}  {_alerts_text(pair)}"
        )
        for text in _alert_differences(pair):
            print(f"{'':39}{text}")
    print(_summary(pairs))
    if unlogged:
        print(
            f"receivers that the log has nothing of, and that the replay notifies: {', '.join(map(_shown, unlogged))}"
        )
    if outside:
        print(f"received before the script begins or after it ends, and not compared: {outside}")


def _milliseconds(moment: int) -> int:
    return moment // 1_000_000 * 1_000_000


def _difference_text(pair: Pair) -> str:
    if pair.difference is None:
        return "not replayed" if pair.received else "not received"
    return f"{pair.difference / SECOND:+.3f} s"


def _name(pair: Pair) -> str:
    return f"{_shown(pair.either.receiver)} {_labels_text(pair.either.group)}"


def _alerts_text(pair: Pair) -> str:
    each = pair.either
    parts = [
        f"{len(alerts)} {word}" for alerts, word in ((each.firing, "firing"), (each.resolved, "resolved")) if alerts
    ]
    return ", ".join(parts) or "no alerts"


def _alert_differences(pair: Pair) -> Iterator[str]:
    """Yields what only one side has, if both are there."""
    if pair.received is None or pair.replayed is None:
        return
    sides = (("received", pair.received, pair.replayed), ("replayed", pair.replayed, pair.received))
    for word, one, other in sides:
        for state in ("firing", "resolved"):
            more: Iterable[Labels] = sorted(getattr(one, state) - getattr(other, state))
            for labels in more:
                yield f"only {word}: {state} {_labels_text(labels)}"


def _summary(pairs: list[Pair]) -> str:
    received, replayed = sum(pair.received is not None for pair in pairs), sum(
        pair.replayed is not None for pair in pairs
    )
    differences = sorted(abs(pair.difference) for pair in pairs if pair.difference is not None)
    same = sum(pair.is_same for pair in pairs)
    text = f"{received} received, {replayed} replayed; {len(differences)} by receiver and group, {same} of them with the same alerts"
    if not differences:
        return text
    return text + (
        f"; greatest difference {differences[-1] / SECOND:.3f} s, median {differences[len(differences) // 2] / SECOND:.3f} s"
    )


def _labels_text(labels: Labels) -> str:
    return "{" + ", ".join(f"{_shown(name)}={_quoted(value)}" for name, value in labels) + "}"


def _shown(text: str) -> str:
    """Returns a text that a terminal can show on one line."""
    return text if text.isprintable() else _quoted(text)[1:-1]


def _quoted(text: str) -> str:
    return json.dumps(text, ensure_ascii=not text.isprintable())


def _print_json(pairs: list[Pair]) -> None:
    for pair in pairs:
        line = {
            "alerts": pair.is_same,
            "difference": None if pair.difference is None else pair.difference / SECOND,
            "groupLabels": dict(pair.either.group),
            "received": moment_text(pair.received.at) if pair.received else None,
            "receiver": pair.either.receiver,
            "replayed": moment_text(pair.replayed.at) if pair.replayed else None,
        }
        print(json.dumps(line))
