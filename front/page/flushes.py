"""Flushes that pass between two events. A group's next flush is listed at each event, so of several flushes in between only the first
is seen. Ticks change nothing, so the script is replayed with ticks at the moments at which a flush may be due, and the groups are listed there."""
from __future__ import annotations

import json
from dataclasses import dataclass, field
from pathlib import Path
from typing import Any

from .differences import change
from .histories import KINDS, Key
from ..moments import moment_text, nanoseconds
from ..program import Source, answers_of
from ..script import script_of
from .states import Seen, Watched

TICKS_AT_MOST = 2_000
ROUNDS_AT_MOST = 8
Next = dict[Key, int]


@dataclass
class Gap:
    """The time before an event in which a group may have flushed more than once, and the moments at which ticks are put there."""

    cursor: int
    end: int
    before: Next
    ticks: set[int] = field(default_factory=set)
    listed: dict[int, Next] = field(default_factory=dict)


def flushes_between(
    source: Source, lines: list[bytes], watched: Watched, room: Path
) -> dict[Key, list[tuple[int, str]]]:
    """Returns the flushes that were found between events, for each group with the event after them. None are looked for where it is too many ticks."""
    gaps = _gaps(watched)
    for _ in range(ROUNDS_AT_MOST):
        wanted = {gap.cursor: _wanted(gap) for gap in gaps}
        if all(wanted[gap.cursor] <= gap.ticks for gap in gaps):
            break
        for gap in gaps:
            gap.ticks |= wanted[gap.cursor]
        if sum(len(gap.ticks) for gap in gaps) > TICKS_AT_MOST:
            return {}
        _list(source, lines, gaps, room / "ticked.jsonl")
    return _found(gaps)


def _gaps(watched: Watched) -> list[Gap]:
    """Returns the gaps in which a flush may hide: one was due, and half of the way to the next one, or the group's end, was passed too."""
    gaps = []
    listed: dict[bytes, tuple[Key, int]] = {}
    for seen in watched.seen:
        if seen.changes is None:
            return []
        change_ = seen.changes["groups"]
        gone = dict(listed[line] for line in change_.gone)
        now = nanoseconds(seen.now)
        is_due = (
            any(due <= now for due in gone.values()) and seen.cursor >= watched.part.first and not _is_refused(seen)
        )
        before = {key: due for key, due in listed.values() if due <= now} if is_due else {}
        for line in change_.gone:
            del listed[line]
        new = {line: _group(line) for line in change_.new}
        listed.update(new)
        if before and _may_hide(gone, dict(new.values()), now):
            gaps.append(Gap(seen.cursor, now, before))
    return gaps


def _may_hide(gone: Next, new: Next, now: int) -> bool:
    return any(due <= now and (key not in new or 2 * (now - due) >= new[key] - due) for key, due in gone.items())


def _group(line: bytes) -> tuple[Key, int]:
    group = json.loads(line)
    return KINDS["groups"].key(group), nanoseconds(group["nextFlush"])


def _next(lines: list[bytes]) -> Next:
    return dict(map(_group, lines))


def _is_refused(seen: Seen) -> bool:
    return any("reason" in json.loads(line) for line in seen.printed)


def _wanted(gap: Gap) -> set[int]:
    """Returns the moments at which a flush is known to be due in the gap, or is expected since the one before it took as long."""
    wanted = set(gap.before.values())
    for at, groups in gap.listed.items():
        for key, due in groups.items():
            wanted.add(due)
            if _was_due(gap, key, at):
                wanted.update(range(due, gap.end + 1, due - at) if due > at else ())
    return {due for due in wanted if due <= gap.end}


def _was_due(gap: Gap, key: Key, at: int) -> bool:
    earlier = [groups[key] for tick, groups in gap.listed.items() if tick < at and key in groups]
    return at in earlier or gap.before.get(key) == at


def _list(source: Source, lines: list[bytes], gaps: list[Gap], script: Path) -> None:
    """Replays the script with the ticks in it, and keeps what is listed at each."""
    ticked, positions, last = [], [], 0
    for gap in gaps:
        ticked += lines[last : gap.cursor - 1]
        last = gap.cursor - 1
        for at in sorted(gap.ticks):
            ticked.append(json.dumps({"at": moment_text(at), "tick": True}).encode())
            positions.append((gap, at, len(ticked)))
    script.write_bytes(script_of(Path(source.script).read_bytes()).text(ticked + lines[last:]))
    commands = [command for _, _, position in positions for command in (f"seek {position}", "groups")]
    answers = answers_of(Source(source.program, source.config, str(script)), commands)
    text = b""
    groups: Next = {}
    for (gap, at, _), answer in zip(positions, answers[1::2]):
        differs = change(text, answer.text)
        text = answer.text
        for key in _next(differs.gone):
            del groups[key]
        groups.update(_next(differs.new))
        gap.listed[at] = {key: due for key, due in groups.items() if key in gap.before or due <= gap.end}


def _found(gaps: list[Gap]) -> dict[Key, list[tuple[int, str]]]:
    """Returns the flushes that were due in a gap, and after whose moment the group was listed with another."""
    found: dict[Key, list[tuple[int, str]]] = {}
    for gap in gaps:
        due: Next = dict(gap.before)
        for at, groups in sorted(gap.listed.items()):
            for key, following in groups.items():
                if due.get(key) == at and following > at:
                    found.setdefault(key, []).append((gap.cursor, moment_text(at)))
            due.update(groups)
    return found


def written(found: dict[Key, list[tuple[int, str]]], tables: Any) -> list[list[Any]]:
    """Returns the flushes as the page has them: route and labels of a group, then each event and moment."""
    return [
        [key[0], tables.labels(dict(key[1])), [each for cursor, at in found[key] for each in (cursor, tables.text(at))]]
        for key in sorted(found)
    ]
