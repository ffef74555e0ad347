"""Reads a page's data back into the session's lines, as the page's script does."""
from __future__ import annotations

import json
from typing import Any

from front.script import ACTS

Data = dict[str, Any]


class Reader:
    """The lines of one run of a page, at each cursor."""

    def __init__(self, data: Data, run: int = 0) -> None:
        self.data, self.run = data, data["runs"][run]
        self.first = self.run["first"]
        self.last = self.first + len(self.run["events"]) - 1

    def listed(self, name: str, cursor: int) -> list[str]:
        entries = [(entry[:-1], self._value(name, entry[-1], cursor)) for entry in self.run[name]]
        write = {"alerts": self._alert, "silences": self._silence, "groups": self._group, "log": self._log}[name]
        return [_line(write(key, value)) for key, value in entries if value]

    def printed(self, cursor: int) -> list[str]:
        lines = [_line(self._note(note)) for note in self.run["notes"] if note[0] == cursor]
        _, act, held, _, _, reason, skipped = self.run["events"][cursor - self.first]
        lines += [_line({"event": cursor, "label": self._text(held)})] if ACTS[act] == "label" and not reason else []
        lines += [_line({"event": cursor, "reason": reason})] if reason else []
        return lines + ([_line({"event": cursor, "skipped": skipped})] if skipped else [])

    def explained(self, cursor: int, labels: dict[str, str]) -> list[str] | None:
        """Returns the explanation of an alert; None where it wasn't asked."""
        for number, flat in self.run["why"]:
            if self._labels(number) == labels:
                before = [i for i in range(0, len(flat), 2) if flat[i] <= cursor]
                if before:
                    return [
                        _line(self._verdict(self.run["verdicts"][each]))
                        for each in self.run["answers"][flat[before[-1] + 1]]
                    ]
        return None

    def alerts(self) -> list[dict[str, str]]:
        return [self._labels(number) for number, _ in self.run["why"]]

    def _text(self, number: int) -> str | None:
        return self.data["texts"][number - 1] if number else None

    def _labels(self, number: int) -> dict[str, str]:
        flat = [self._text(each) or "" for each in self.data["sets"][number]]
        return dict(zip(flat[::2], flat[1::2]))

    def _value(self, name: str, flat: list[Any], cursor: int) -> Any:
        value: Any = None
        for at, raw in zip(flat[::2], flat[1::2]):
            if at > cursor:
                break
            value = (self._group_value(raw, value) if name == "groups" else raw) if raw else None
        return value

    def _group_value(self, raw: Any, before: Any) -> Any:
        if isinstance(raw, int):
            return [raw, *before[1:]]
        moment, empty, flushed, joined, left = raw
        members = (set(before[3]) if before else set()) - set(left) | set(joined)
        return [moment, empty, flushed, sorted(members, key=self.data["places"].__getitem__)]

    def _matchers(self, matchers: list[list[int]]) -> list[Any]:
        return [
            {"isEqual": bool(e), "isRegex": bool(r), "name": self._text(n), "value": self._text(v)}
            for n, v, e, r in matchers
        ]

    def _alert(self, key: list[Any], value: Any) -> Any:
        start, end, updated, timeout, notes = value
        return {
            "annotations": self._labels(notes),
            "endsAt": self._text(end),
            "labels": self._labels(key[0]),
            "startsAt": self._text(start),
            "timeout": bool(timeout),
            "updatedAt": self._text(updated),
        }

    def _silence(self, key: list[Any], value: Any) -> Any:
        return {
            "endsAt": self._text(value[1]),
            "id": self._text(key[0]),
            "matchers": self._matchers(value[2]),
            "startsAt": self._text(value[0]),
        }

    def _group(self, key: list[Any], value: Any) -> Any:
        moment, empty, flushed, members = value
        return {
            "emptySince": self._text(empty),
            "flushed": bool(flushed),
            "groupLabels": self._labels(key[1]),
            "members": [self._labels(each) for each in members],
            "nextFlush": self._text(moment),
            "route": key[0],
        }

    def _log(self, key: list[Any], value: Any) -> Any:
        receiver, integration, place, group, path = key
        return {
            "at": self._text(value[0]),
            "firing": [self._labels(each) for each in value[1]],
            "groupLabels": self._labels(group),
            "integration": self._text(integration),
            "path": [self._matchers(each) for each in path],
            "place": place,
            "receiver": self._text(receiver),
            "resolved": [self._labels(each) for each in value[2]],
        }

    def _note(self, note: list[Any]) -> Any:
        _, at, receiver, integration, place, route, group, firing, resolved = note
        return {
            "at": self._text(at),
            "firing": self._notified(firing, ("startsAt",)),
            "groupLabels": self._labels(group),
            "integration": self._text(integration),
            "place": place,
            "receiver": self._text(receiver),
            "resolved": self._notified(resolved, ("startsAt", "endsAt")),
            "route": route,
        }

    def _notified(self, flat: list[int], moments: tuple[str, ...]) -> list[Any]:
        size = len(moments) + 2
        alerts = [flat[i : i + size] for i in range(0, len(flat), size)]
        return [
            {
                "labels": self._labels(each[0]),
                "annotations": self._labels(each[-1]),
                **dict(zip(moments, map(self._text, each[1:-1]))),
            }
            for each in alerts
        ]

    def _verdict(self, verdict: list[Any]) -> Any:
        name, receiver, route, integration, place, *rest = verdict
        line: dict[str, Any] = {"verdict": self._text(name)}
        if receiver:
            line |= {"receiver": self._text(receiver), "route": route}
        if integration:
            line |= {"integration": self._text(integration), "place": place}
        for key, value in zip(rest[::2], rest[1::2]):
            line[self._text(key) or ""] = self._rest(value)
        return line

    def _rest(self, value: Any) -> Any:
        if not isinstance(value, list):
            return value
        return self._text(value[0]) if len(value) == 1 else self._labels(value[1])


def _line(value: Any) -> str:
    return json.dumps(value, ensure_ascii=False, separators=(",", ":"), sort_keys=True)
