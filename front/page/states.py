"""What a session shows at each event: what was printed, the clock, and how its lists differ from the lists before."""
from __future__ import annotations

from bisect import bisect_left
from dataclasses import dataclass, field
from functools import partial
from typing import Any, Callable, Iterator

from .differences import Change, change
from ..program import Answer, Source, answers_of, converse, converse_in_turn
from ..progress import Progress
from .workers import PIECES, Part, count_done, over

LISTS = ("alerts", "silences", "groups", "log")
SAMPLES = 16
LISTS_WITHOUT_LOG = LISTS[:-1]
LISTED_BYTES_AT_MOST = 24_000_000_000
BYTES_FOR_ONE_SESSION = 64_000_000


@dataclass(frozen=True)
class Step:
    """What one step printed: the clock after it, its moves, and its lines."""

    cursor: int
    now: str
    moves: int
    printed: list[bytes]


@dataclass(frozen=True)
class Size:
    """How many bytes the lists have at a cursor: the log, and the others."""

    cursor: int
    log: int
    others: int


@dataclass(frozen=True)
class Seen:
    """What was seen at a cursor. `changes` is None where the lists weren't asked."""

    cursor: int
    now: str
    moves: int
    printed: list[bytes]
    changes: dict[str, Change] | None


@dataclass
class Watched:
    """All that was seen over a part, from the cursor before it on, and the cursors at which the lists were asked."""

    part: Part
    stops: list[int]
    seen: list[Seen] = field(default_factory=list)


def count_events(source: Source) -> int:
    """Returns how many events the script has. Raises the program's fault where a file is refused."""
    return int(answers_of(source, ["cursor"])[0].last["events"])


def watch(source: Source, part: Part, progress: Progress, name: str) -> Watched:
    """Returns what is seen over the part. Lists that are too many bytes in all are asked at each so many events alone."""
    steps, sizes = _walk(source, part)
    size = max(size.log + size.others for size in sizes)
    stride = max(1, -(-size * (len(part) + 1) // LISTED_BYTES_AT_MOST))
    pieces = _pieces(part, _listed(steps, sizes), PIECES if size * len(part) > BYTES_FOR_ONE_SESSION else 1)
    stops = _stops(part, pieces, stride)
    watched = Watched(part, sorted(stops))
    in_pieces = [steps[piece.first - part.first : piece.last - part.first + 2] for piece in pieces]
    found = over([partial(_watch_piece, source, piece, stops) for piece in in_pieces], part, name, progress)
    changes_in_order = [*found[0], *(changes for piece in found[1:] for changes in piece[1:])]
    watched.seen += [
        Seen(step.cursor, step.now, step.moves, step.printed, changes) for step, changes in zip(steps, changes_in_order)
    ]
    return watched


def _stops(part: Part, pieces: list[Part], stride: int) -> frozenset[int]:
    """Returns the cursors at which the lists are asked: before the part, at each so many events, and at the end of each piece."""
    return frozenset(range(part.first - 1, part.last + 1, stride)) | {piece.last for piece in pieces}


def _walk(source: Source, part: Part) -> tuple[list[Step], list[Size]]:
    """Steps over the part, and returns what each step printed, and how many bytes the lists have at some cursors. The first step is the
    cursor before the part."""
    sampled = sorted({part.first - 1 + len(part) * i // SAMPLES for i in range(SAMPLES + 1)})
    answers = converse(source, _walking(part, frozenset(sampled)))
    steps, sizes = [], []
    for cursor in range(part.first - 1, part.last + 1):
        moved, clock = next(answers), next(answers)
        steps.append(Step(cursor, clock.last["now"], moved.last.get("moves", 0), moved.lines))
        if cursor in sampled:
            *others, log = (len(next(answers).text) for _ in LISTS)
            sizes.append(Size(cursor, log, sum(others)))
    return steps, sizes


def _walking(part: Part, sampled: frozenset[int]) -> Iterator[str]:
    for cursor in range(part.first - 1, part.last + 1):
        yield from (
            f"seek {cursor}" if cursor < part.first else "step",
            "cursor",
            *(LISTS if cursor in sampled else ()),
        )


def _listed(steps: list[Step], sizes: list[Size]) -> list[int]:
    """Returns about how many bytes the lists print that are asked up to each cursor, from their sizes at some. The log counts twice where
    something was printed, since it is asked before it too."""
    listed = [0]
    for before, after in zip(sizes, sizes[1:]):
        others, log = (before.others + after.others) // 2 + 1, (before.log + after.log) // 2
        first = steps[0].cursor
        for step in steps[before.cursor - first + 1 : after.cursor - first + 1]:
            listed.append(listed[-1] + others + (2 * log if step.printed else 0))
    return listed


def _pieces(part: Part, listed: list[int], count: int) -> list[Part]:
    """Cuts the part into pieces whose lists print about as many bytes."""
    ends = {part.first - 1 + bisect_left(listed, listed[-1] * i // count) for i in range(1, count)}
    edges = [part.first - 1, *sorted(end for end in ends if part.first <= end < part.last), part.last]
    return [Part(before + 1, end) for before, end in zip(edges, edges[1:])]


def _watch_piece(source: Source, steps: list[Step], stops: frozenset[int]) -> list[dict[str, Change] | None]:
    """Asks the lists at the stops of one piece, from the cursor before it on. Returns how they differ from those before at each cursor, or None
    where none are asked."""
    logged = _logged(steps, stops)
    asked = {
        step.cursor: LISTS if step.cursor in logged else LISTS_WITHOUT_LOG if step.cursor in stops else ()
        for step in steps
    }
    found = _differences(source, asked, count_done)
    doubts = _in_doubt(steps, logged, found)
    if doubts:
        between = _differences(
            source, {cursor: ("log",) for first, last in doubts for cursor in range(first, last + 1)}
        )
        for cursor in (cursor for first, last in doubts for cursor in range(first + 1, last + 1)):
            changes, asked_again = found[cursor], between[cursor]
            if changes is not None and asked_again is not None:
                changes["log"] = asked_again["log"]
    return list(found.values())


def _logged(steps: list[Step], stops: frozenset[int]) -> set[int]:
    """Returns the stops at which the log is asked: the first, and others only after moves, since only a flush writes to the log, and a flush is
    a move. Where each cursor is a stop, it is asked only beside a step that printed something, or at one that took no time, and at the last: if
    it is the same at two such stops, it was the same in between, since an entry has the moment of the flush that wrote it.
    """
    logged, has_moved = {steps[0].cursor}, False
    is_each = all(step.cursor in stops for step in steps)
    for before, step, after in zip(steps, steps[1:], [*steps[2:], None]):
        has_moved = has_moved or step.moves > 0
        is_beside = after is None or step.printed or after.printed or step.now == before.now
        if has_moved and step.cursor in stops and (is_beside or not is_each):
            logged.add(step.cursor)
            has_moved = False
    return logged


def _in_doubt(steps: list[Step], logged: set[int], found: dict[int, Any]) -> list[tuple[int, int]]:
    """Returns the cursors between which the log changed with no line that tells where, each with the cursor before at which the log was asked."""
    doubts, last, has_moved = [], steps[0].cursor, False
    for step in steps[1:]:
        if step.cursor in logged:
            if has_moved and found[step.cursor]["log"] != Change([], []):
                doubts.append((last, step.cursor))
            last, has_moved = step.cursor, False
        elif found[step.cursor] is not None:
            has_moved = has_moved or step.moves > 0
    return doubts


def _differences(
    source: Source, asked: dict[int, tuple[str, ...]], done: Callable[[], None] = lambda: None
) -> dict[int, dict[str, Change] | None]:
    """Asks lists at cursors, in a session of its own. Returns how each differs from the one before, or None at a cursor where none are asked."""
    answers = converse_in_turn(
        source, (command for cursor, names in asked.items() if names for command in (f"seek {cursor}", *names))
    )
    lists = dict.fromkeys(LISTS, b"")
    found: dict[int, dict[str, Change] | None] = {}
    for cursor, names in asked.items():
        found[cursor] = _changes(answers, names, lists) if names else None
        if len(found) > 1:
            done()
    return found


def _changes(answers: Iterator[Answer], names: tuple[str, ...], lists: dict[str, bytes]) -> dict[str, Change]:
    """Returns how each list differs from what it was. One that wasn't asked is as it was."""
    next(answers)
    return {name: _change(lists, name, next(answers).text) if name in names else Change([], []) for name in LISTS}


def _change(lists: dict[str, bytes], name: str, text: bytes) -> Change:
    """Returns how a list differs from what it was, and keeps what it is."""
    before, lists[name] = lists[name], text
    return change(before, text)
