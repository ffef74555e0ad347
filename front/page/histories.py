"""What each entry of the session's lists was, and from which event on: the states of a part as differences."""
from __future__ import annotations

import json
from dataclasses import dataclass
from typing import Any, Callable

from .states import Watched
from .tables import Tables, pairs

Value = Any
History = list[tuple[int, Value]]
Key = tuple[Any, ...]


@dataclass(frozen=True)
class Kind:
    """How the entries of one list are read: what is an entry's key, in the list's order, and what is written of key and value."""

    key: Callable[[dict[str, Any]], Key]
    write_key: Callable[[dict[str, Any], Tables], list[Any]]
    write: Callable[[dict[str, Any], Tables], Value]


@dataclass
class Entry:
    """One entry: what is written of its key, and its values, each from its cursor on. None: it isn't in the list."""

    key: list[Any]
    values: History


def histories(watched: Watched, name: str, tables: Tables) -> list[Entry]:
    """Returns the entries that one list had over the part, in the list's order."""
    kind = KINDS[name]
    entries: dict[Key, Entry] = {}
    keys: dict[bytes, Key] = {}
    for seen in watched.seen:
        if seen.changes is None:
            continue
        change = seen.changes[name]
        gone = [keys.pop(line) for line in change.gone]
        new = set()
        for line in change.new:
            entry = json.loads(line)
            key = keys[line] = kind.key(entry)
            new.add(key)
            if key not in entries:
                entries[key] = Entry(kind.write_key(entry, tables), [])
            entries[key].values.append((seen.cursor, kind.write(entry, tables)))
        for key in gone:
            if key not in new:
                entries[key].values.append((seen.cursor, None))
    return [entries[key] for key in sorted(entries)]


def thinned(entries: list[Entry], stops: list[int]) -> list[Entry]:
    """Returns the entries as they are at the stops alone, the last of which comes after all values."""
    thin = []
    for entry in entries:
        values: dict[int, Value] = {}
        index = 0
        for cursor, value in entry.values:
            while stops[index] < cursor:
                index += 1
            values[stops[index]] = value
        thin.append(Entry(entry.key, _without_repeats(values)))
    return [entry for entry in thin if entry.values]


def _without_repeats(values: dict[int, Value]) -> History:
    kept: History = []
    for cursor, value in values.items():
        if value != (kept[-1][1] if kept else None):
            kept.append((cursor, value))
    return kept


def _alert_value(entry: dict[str, Any], tables: Tables) -> Value:
    moments = [tables.text(entry[key]) for key in ("startsAt", "endsAt", "updatedAt")]
    return [*moments, int(entry["timeout"]), tables.labels(entry["annotations"])]


def _silence_value(entry: dict[str, Any], tables: Tables) -> Value:
    return [
        tables.text(entry["startsAt"]),
        tables.text(entry["endsAt"]),
        [matcher_of(each, tables) for each in entry["matchers"]],
    ]


def _group_value(entry: dict[str, Any], tables: Tables) -> Value:
    moments = [tables.text(entry["nextFlush"]), tables.text(entry["emptySince"])]
    return [*moments, int(entry["flushed"]), tables.all_labels(entry["members"])]


def _log_value(entry: dict[str, Any], tables: Tables) -> Value:
    return [tables.text(entry["at"]), tables.all_labels(entry["firing"]), tables.all_labels(entry["resolved"])]


def matcher_of(matcher: dict[str, Any], tables: Tables) -> list[int]:
    """Returns what is written of a matcher: its name, its value, and whether it is equal and a pattern."""
    return [
        tables.text(matcher["name"]),
        tables.text(matcher["value"]),
        int(matcher["isEqual"]),
        int(matcher["isRegex"]),
    ]


def _path_key(path: list[list[dict[str, Any]]]) -> Key:
    return tuple(
        tuple((each["name"], each["value"], each["isRegex"], not each["isEqual"]) for each in matchers)
        for matchers in path
    )


def _log_key(entry: dict[str, Any]) -> Key:
    return (
        entry["receiver"],
        entry["integration"],
        entry["place"],
        pairs(entry["groupLabels"]),
        _path_key(entry["path"]),
    )


def _write_log_key(entry: dict[str, Any], tables: Tables) -> list[Any]:
    path = [[matcher_of(each, tables) for each in matchers] for matchers in entry["path"]]
    receiver, integration = tables.text(entry["receiver"]), tables.text(entry["integration"])
    return [receiver, integration, entry["place"], tables.labels(entry["groupLabels"]), path]


KINDS = {
    "alerts": Kind(lambda e: (pairs(e["labels"]),), lambda e, t: [t.labels(e["labels"])], _alert_value),
    "silences": Kind(lambda e: (e["id"],), lambda e, t: [t.text(e["id"])], _silence_value),
    "groups": Kind(
        lambda e: (e["route"], pairs(e["groupLabels"])),
        lambda e, t: [e["route"], t.labels(e["groupLabels"])],
        _group_value,
    ),
    "log": Kind(_log_key, _write_log_key, _log_value),
}
