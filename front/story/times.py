"""When the time intervals of routes mute, and which of them. The program says so: a script of its own has an alert for each route with time
intervals, and one for each interval alone, and asks about them at each moment at which an interval may begin or end.
"""

from __future__ import annotations

import json
import tempfile
from bisect import bisect_right
from dataclasses import dataclass, field
from pathlib import Path
from typing import Any, Iterable, Iterator, Optional

from ..moments import DAY, SECOND, moment_text, nanoseconds
from ..program import Source, converse
from .config import Route, edges_of, routes_of
from .model import Span, Story

TIMES = ("OutsideActive", "TimeMuted")
DAYS_AFTER, DAYS_AHEAD = 8, 400
QUESTIONS_AT_MOST = 120_000
BYTES_AT_MOST = 900_000
LAST = nanoseconds("8999-12-31T23:59:59Z")

Config = dict[str, Any]


@dataclass(frozen=True)
class Item:
    """What is asked about: time intervals that mute, and those that are active, each as the text of what it holds."""

    mute: tuple[str, ...]
    active: tuple[str, ...]


@dataclass
class States:
    """The program's verdicts about an item: each from its moment on. None: it isn't muted."""

    moments: list[int] = field(default_factory=list)
    verdicts: list[Optional[str]] = field(default_factory=list)
    is_far: bool = False

    def add(self, at: int, verdict: Optional[str]) -> None:
        if not self.verdicts or self.verdicts[-1] != verdict:
            self.moments.append(at)
            self.verdicts.append(verdict)

    def at(self, moment: int) -> Optional[str]:
        index = max(0, bisect_right(self.moments, moment) - 1)
        return self.verdicts[index] if self.verdicts else None

    def next(self, moment: int) -> Optional[int]:
        """Returns the next moment at which the verdict is another one."""
        index = bisect_right(self.moments, moment)
        return self.moments[index] if index < len(self.moments) else None

    def spans(self, start: int, end: int) -> Iterator[tuple[int, int, str]]:
        """Yields the times within a time in which the item is muted."""
        index = max(0, bisect_right(self.moments, start) - 1)
        for i in range(index, len(self.moments)):
            until = self.moments[i + 1] if i + 1 < len(self.moments) else end
            verdict, first, last = self.verdicts[i], max(start, self.moments[i] if i else start), min(end, until)
            if verdict is not None and first < last:
                yield first, last, verdict


class Times:
    """The times of the routes of a story's configurations, by the numbers of both. `is_whole` says whether they were asked at all moments, and
    not at the starts of spans alone, since those are too many."""

    def __init__(self, program: str, story: Story, last_day: Optional[int] = None) -> None:
        self._program = program
        self._routes = [routes_of(config) for config in story.configs]
        self._texts = [_texts(config) for config in story.configs]
        self._end = story.end
        self._last_day = last_day
        self._states: dict[Item, States] = {item: States() for item in self._items()}
        self._seconds = sorted({second for config in story.configs for second in edges_of(config)})
        self.is_whole = True
        if self._states:
            self._ask(list(self._states), self._near(story))

    def muting(self, config: int, route: int, moment: int) -> tuple[list[str], Optional[int]]:
        """Returns the time intervals that mute a route at a moment, or outside of which it is, and until when, if that is found."""
        value, states = self._routes[config][route].value, self._of(config, route)
        if states is None:
            return [], None
        if states.at(moment) == "OutsideActive":
            return _names(value, "active_time_intervals"), self._until(config, route, moment)
        muting = [name for name in _names(value, "mute_time_intervals") if self.holds(config, name, moment)]
        return muting, self._until(config, route, moment)

    def holds(self, config: int, name: str, moment: int) -> bool:
        """Returns whether a time interval holds a moment."""
        return self._states[self._alone(config, name)].at(moment) is not None

    def held(self, config: int, name: str, start: int, end: int) -> list[tuple[int, int]]:
        """Returns the times within a time that a time interval holds."""
        return [(first, last) for first, last, _ in self._states[self._alone(config, name)].spans(start, end)]

    def of_route(self, config: int, route: int, start: int, end: int) -> list[Span]:
        """Returns the times within a time in which a route's time intervals mute it."""
        states = self._of(config, route)
        found = states.spans(start, end) if states is not None else ()
        return [Span(first, last, {"verdict": verdict, "route": route}, config) for first, last, verdict in found]

    def used(self, config: int) -> list[tuple[str, str]]:
        """Returns the names of the time intervals that routes of a configuration use, each with `mute` or `active`."""
        found = [
            (name, use)
            for use in ("mute", "active")
            for route in self._routes[config]
            for name in _names(route.value, f"{use}_time_intervals")
        ]
        return list(dict.fromkeys(found))

    def _of(self, config: int, route: int) -> Optional[States]:
        routes = self._routes[config]
        return self._states.get(self._item(config, routes[route])) if route < len(routes) else None

    def _until(self, config: int, route: int, moment: int) -> Optional[int]:
        item = self._item(config, self._routes[config][route])
        states = self._states[item]
        found = states.next(moment)
        if found is None and self.is_whole and not states.is_far:
            states.is_far = True
            self._ask([item], self._far())
            found = states.next(moment)
        return found

    def _items(self) -> list[Item]:
        found: dict[Item, None] = {}
        for config, routes in enumerate(self._routes):
            for route in (route for route in routes if route.intervals):
                found[self._item(config, route)] = None
                found.update({self._alone(config, name): None for name in route.intervals})
        return list(found)

    def _item(self, config: int, route: Route) -> Item:
        texts = self._texts[config]
        mute, active = (_names(route.value, f"{key}_time_intervals") for key in ("mute", "active"))
        return Item(tuple(texts[name] for name in mute), tuple(texts[name] for name in active))

    def _alone(self, config: int, name: str) -> Item:
        return Item((self._texts[config][name],), ())

    def _near(self, story: Story) -> list[int]:
        """Returns the moments of the story's days and some more, and the starts of spans."""
        own = {span.start for row in story.rows for span in row.spans if span.verdict in TIMES} | {story.start}
        own.update(story.config_starts[1:])
        edges = self._edges(story.start // DAY, min(story.end // DAY + DAYS_AFTER, self._last()))
        self.is_whole = (len(own) + len(edges)) * len(self._states) <= QUESTIONS_AT_MOST
        return sorted(own | set(edges) if self.is_whole else own)

    def _far(self) -> list[int]:
        first = self._end // DAY + DAYS_AFTER + 1
        days = min(DAYS_AHEAD, QUESTIONS_AT_MOST // max(1, len(self._seconds)))
        return self._edges(first, min(first + days, self._last()))

    def _last(self) -> int:
        return LAST // DAY if self._last_day is None else self._last_day

    def _edges(self, first: int, last: int) -> list[int]:
        if len(self._seconds) * (last - first + 1) > QUESTIONS_AT_MOST:
            self.is_whole = False
            return []
        return [day * DAY + second * SECOND for day in range(first, last + 1) for second in self._seconds]

    def _ask(self, items: list[Item], moments: list[int]) -> None:
        """Asks about items at moments, in sessions each of whose configurations is small enough."""
        if not moments:
            return
        for some in _in_parts(items):
            for states, verdicts in zip([self._states[item] for item in some], _asked(self._program, some, moments)):
                for at, verdict in zip(moments, verdicts):
                    states.add(at, verdict)


def _names(value: Config, key: str) -> list[str]:
    return list(value.get(key) or [])


def _texts(config: Config) -> dict[str, str]:
    """Returns what each time interval of a configuration holds, as a text, by its name."""
    listed = [*(config.get("mute_time_intervals") or []), *(config.get("time_intervals") or [])]
    return {each["name"]: json.dumps(each["time_intervals"], sort_keys=True) for each in listed}


def _in_parts(items: list[Item]) -> Iterator[list[Item]]:
    part: list[Item] = []
    size = 0
    for item in items:
        length = 200 + sum(map(len, (*item.mute, *item.active)))
        if part and size + length > BYTES_AT_MOST:
            yield part
            part, size = [], 0
        part.append(item)
        size += length
    yield part


def _asked(program: str, items: list[Item], moments: list[int]) -> list[list[Optional[str]]]:
    """Returns the verdicts about each item at each moment. An item is a route with an alert of its own, which waits for nothing."""
    start = max(0, moments[0] - SECOND)
    alerts = [
        {"labels": {"item": str(i)}, "startsAt": moment_text(start), "endsAt": moment_text(LAST)}
        for i in range(len(items))
    ]
    events = [{"at": moment_text(start), "alerts": alerts}, *({"at": moment_text(at), "tick": True} for at in moments)]
    commands = ["step", *(command for _ in moments for command in ("step", *map(_question, range(len(items)))))]
    with tempfile.TemporaryDirectory() as room:
        config, script = Path(room) / "times.json", Path(room) / "times.jsonl"
        config.write_text(json.dumps(_config(items)), "utf-8")
        script.write_text("".join(f"{json.dumps(event)}\n" for event in events), "utf-8")
        answers = converse(Source(program, str(config), str(script)), commands)
        next(answers)
        found: list[list[Optional[str]]] = [[] for _ in items]
        for _ in moments:
            next(answers)
            for verdicts in found:
                verdicts.append(_verdict(next(answers).lines))
        for _ in answers:
            pass
    return found


def _question(item: int) -> str:
    return f'explain {{"item":"{item}"}}'


def _verdict(lines: list[bytes]) -> Optional[str]:
    verdict = json.loads(lines[0])["verdict"] if lines else None
    return verdict if verdict in TIMES else None


def _config(items: list[Item]) -> Config:
    numbers: dict[str, str] = {}

    def named(texts: Iterable[str]) -> list[str]:
        return [numbers.setdefault(text, f"t{len(numbers)}") for text in texts]

    routes = [
        {
            "matchers": [f'item="{i}"'],
            "mute_time_intervals": named(item.mute),
            "active_time_intervals": named(item.active),
        }
        for i, item in enumerate(items)
    ]
    waits = {"group_wait": "0s", "group_interval": "10y", "repeat_interval": "10y"}
    return {
        "route": {"receiver": "asked", **waits, "routes": routes},
        "receivers": [{"name": "asked", "webhook_configs": [{}]}],
        "time_intervals": [{"name": name, "time_intervals": json.loads(text)} for text, name in numbers.items()],
    }
