"""Names of alerts, routes and rules, and a span's reason in words."""

from __future__ import annotations

from typing import Optional

from ..moments import clock_text, nanoseconds
from .config import Route, routes_of, rules_of
from .model import DUE, NOWHERE, TOLD, WAITING, Pairs, Span, Story
from .reasons import Reasoned, Reasons

NAME, SEVERITY = "alertname", "severity"
LONG = 110
ALSO_AT_MOST = 3


class Names:
    """Names for the alerts of a story: their labels without those that all of them have, and the reasons of spans."""

    def __init__(self, story: Story, reasons: Optional[Reasons] = None) -> None:
        self._story = story
        self._reasons = reasons
        self._shared = _shared([alert.labels for alert in story.alerts])
        self._telling = _telling([alert.labels for alert in story.alerts])
        self._with_date = not is_one_day(story)
        self._routes: dict[int, list[Route]] = {}

    def alert(self, labels: Pairs) -> str:
        """Returns `NAME{label="value", ..} severity`, with as many labels as fit, at least those that vary among the alerts of a name."""
        by_name = dict(labels)
        own = [each for each in labels if each[0] not in (NAME, SEVERITY) and each not in self._shared]
        shown = _fitting(own, self._telling.get(by_name.get(NAME, ""), set()))
        text = by_name.get(NAME, "") + (f"{{{', '.join(shown)}}}" if shown or NAME not in by_name else "")
        return f"{text} {by_name[SEVERITY]}" if SEVERITY in by_name else text

    def moment(self, at: int) -> str:
        return clock_text(at, self._with_date)

    def route(self, config: int, number: int) -> str:
        """Returns a route's number, its receiver, and the matchers on the way to it."""
        routes = self._routes_of(config)
        if number >= len(routes):
            return f"route {number}"
        route, way = routes[number], [routes[number]]
        while way[0].parent >= 0:
            way.insert(0, routes[way[0].parent])
        matchers = " > ".join(",".join(each.matchers) or "all" for each in way[1:])
        return f"route {number} ({route.receiver}: {matchers or 'the root'})"

    def parts(self, alert: Pairs, span: Span) -> list[tuple[int, int, str]]:
        """Returns a span of an alert with all its reasons in words, cut where one of them begins or ends."""
        if self._reasons is None:
            return [(span.start, span.end, self.reason(span))]
        return [(part.span.start, part.span.end, self._all(part)) for part in self._reasons.of_span(alert, span)]

    def _all(self, part: Reasoned) -> str:
        also = [self.reason(each) for each in part.also[:ALSO_AT_MOST]]
        if part.also[ALSO_AT_MOST:]:
            also.append(f"{len(part.also) - ALSO_AT_MOST} more reasons")
        return self.reason(part.span) + (f"; also {', and '.join(also)}" if also else "")

    def reason(self, span: Span) -> str:
        """Returns a span's first reason in words."""
        line, verdict = span.line, span.verdict
        if verdict == WAITING:
            return "waits for the first flush of its group"
        if verdict == DUE:
            return "waits for the next flush of its group"
        if verdict == TOLD:
            return f"notified at {self.moment(nanoseconds(line['at']))}"
        if verdict == NOWHERE:
            return "the receiver has no integration"
        if verdict == "Silenced":
            return self._silenced(line["id"])
        if verdict == "Inhibited":
            return self._inhibited(span)
        return self._outside_times(span)

    def _silenced(self, silence_id: str) -> str:
        silence = self._story.silences.get(silence_id)
        by = f" by {silence.created_by}" if silence and silence.created_by else ""
        comment = f', "{silence.comment}"' if silence and silence.comment else ""
        return f"silenced{by}{comment} ({silence_id[:8]})"

    def _inhibited(self, span: Span) -> str:
        rule = rules_of(self._story.configs[span.config])[span.line["rule"]]
        equal = f", same {', '.join(rule.equal)}" if rule.equal else ""
        source = self.alert(tuple(span.line["source"].items()))
        return f"inhibited by {source} (rule {rule.number}{equal})"

    def _outside_times(self, span: Span) -> str:
        """Says which time intervals keep a route quiet. Of several the program's answer names none."""
        number = span.line["route"]
        is_active_time = span.verdict == "OutsideActive"
        listed = (
            self._routes_of(span.config)[number].value.get(
                "active_time_intervals" if is_active_time else "mute_time_intervals"
            )
            or []
        )
        names = " or ".join(map(str, listed))
        return f"{'outside' if is_active_time else 'muted by'} {names}: {self.route(span.config, number)}"

    def _routes_of(self, config: int) -> list[Route]:
        if config not in self._routes:
            self._routes[config] = routes_of(self._story.configs[config])
        return self._routes[config]


def is_one_day(story: Story) -> bool:
    """Returns whether all moments of a story are on one day."""
    return clock_text(story.start, True)[:10] == clock_text(story.end, True)[:10]


def _shared(alerts: list[Pairs]) -> set[tuple[str, str]]:
    """Returns the labels that all of several alerts have."""
    if len(alerts) < 2:
        return set()
    shared = set(alerts[0])
    for labels in alerts[1:]:
        shared &= set(labels)
    return shared


def _telling(alerts: list[Pairs]) -> dict[str, set[str]]:
    """Returns for each alert name the labels by which its alerts differ."""
    first: dict[str, dict[str, str]] = {}
    found: dict[str, set[str]] = {}
    for labels in alerts:
        by_name = dict(labels)
        one = first.setdefault(by_name.get(NAME, ""), by_name)
        found.setdefault(by_name.get(NAME, ""), set()).update(name for name, _ in one.items() ^ by_name.items())
    return found


def _fitting(labels: list[tuple[str, str]], telling: set[str]) -> list[str]:
    """Returns labels as texts: all of them if they fit, or else those that tell, others as far as they fit, and `…`."""
    texts = {name: f'{name}="{value}"' for name, value in labels}
    if sum(map(len, texts.values())) <= LONG or len(texts) < 2:
        return list(texts.values())
    kept = {name for name in texts if name in telling} or {next(iter(texts))}
    room = LONG - sum(len(texts[name]) for name in kept)
    for name, text in texts.items():
        if name not in kept and len(text) <= room:
            kept.add(name)
            room -= len(text)
    return [*(text for name, text in texts.items() if name in kept), *(["…"] if len(kept) < len(texts) else [])]
