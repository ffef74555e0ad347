"""The differences of two stories in text."""

from __future__ import annotations

from typing import Iterator, Optional

from .moments import length_text
from .story.differing import EARLIER, KINDS, LATER, LOST, NEW, SAME, Difference, moment_of
from .story.model import Mark, Story
from .story.names import Names
from .story.sections import Told
from .telling import count_text, printable, receivers_text, span_lines

TITLES = {
    LOST: "LOST: notified under A, and not under B",
    LATER: "LATER under B",
    NEW: "NEW: notified under B, and not under A",
    EARLIER: "EARLIER under B",
}
ENTRIES_AT_MOST = 100
SPANS_AT_MOST = 8


def text_of(
    files: tuple[str, str, str],
    before: Story,
    after: Story,
    differences: list[Difference],
    left_out: list[Mark],
    is_full: bool = False,
) -> str:
    """Returns the text. `files` are the names of the configurations and the script, and `left_out` the reloads that were left out."""
    lines = [*_head(files, before, differences, left_out)]
    names = Names(before), Names(after)
    for kind in KINDS[:-1]:
        lines += _section(kind, [each for each in differences if each.kind == kind], names, is_full)
    lines += _notifications(before, after)
    return "".join(f"{printable(line)}\n" for line in lines)


def _head(
    files: tuple[str, str, str], before: Story, differences: list[Difference], left_out: list[Mark]
) -> Iterator[str]:
    names = Names(before)
    yield f"A {files[0]}, B {files[1]}, replayed with {files[2]}"
    counts = {kind: sum(each.kind == kind for each in differences) for kind in KINDS}
    words = {SAME: "the same", LATER: "later", EARLIER: "earlier", LOST: "lost", NEW: "new"}
    told = ", ".join(f"{counts[kind]} {words[kind]}" for kind in KINDS)
    yield f"first notifications of a firing, for each receiver and integration: {told}"
    reloads = [mark for mark in before.marks if mark.kind == "reload"]
    if reloads:
        yield f"the script reloads at {_moments(reloads, names)}: from then on both run under what it loads; --ignore-reloads leaves it out"
    if left_out:
        yield f"left out: the reload at {_moments(left_out, names)}"


def _moments(marks: list[Mark], names: Names) -> str:
    return ", ".join(names.moment(mark.at) for mark in marks)


def _section(kind: str, differences: list[Difference], names: tuple[Names, Names], is_full: bool) -> Iterator[str]:
    if not differences:
        return
    yield ""
    yield f"{TITLES[kind]} ({len(differences)})"
    together = _alike(differences, names)
    at_most = len(together) if is_full else ENTRIES_AT_MOST
    last = None
    for some in together[:at_most]:
        each = some[0]
        if last != (each.alert, each.firing):
            yield f"  {names[0].alert(each.alert)}  fired {names[0].moment(each.firing.fired)}"
        last = (each.alert, each.firing)
        yield f"    {receivers_text(one.row for one in some)}: {_change(each, names)}"
        yield from _reasons(each, names, SPANS_AT_MOST)
    if together[at_most:]:
        yield f"  .. and {len(together) - at_most} more; --all lists them"


def _alike(differences: list[Difference], names: tuple[Names, Names]) -> list[list[Difference]]:
    """Puts together what differs in receiver and integration alone."""
    found: dict[object, list[Difference]] = {}
    for each in differences:
        moments = moment_of(each.before), moment_of(each.after)
        found.setdefault(
            (each.alert, each.firing.posted, moments, tuple(_reasons(each, names, SPANS_AT_MOST))), []
        ).append(each)
    return list(found.values())


def _change(each: Difference, names: tuple[Names, Names]) -> str:
    sides = f"A {_first(each.before, names[0])}, B {_first(each.after, names[1])}"
    if each.kind == LATER:
        return f"{sides}: {length_text(-each.gain)} later"
    return f"{sides}: {length_text(each.gain)} earlier" if each.kind == EARLIER else sides


def _first(told: Optional[Told], names: Names) -> str:
    if told is None:
        return "not on a route of it"
    at = moment_of(told)
    if told.first.known is not None and told.first.at is None:
        return f"notified before, at {names.moment(told.first.known)}"
    return "never" if at is None else names.moment(at)


def _reasons(each: Difference, names: tuple[Names, Names], at_most: int) -> list[str]:
    """Returns why the side that was notified later, or never, wasn't at once."""
    worse, of = (each.after, names[1]) if each.kind in (LOST, LATER) else (each.before, names[0])
    if worse is None:
        return []
    return span_lines(each.alert, worse.reasons, of, at_most, f"      {'B' if of is names[1] else 'A'} ")


def _notifications(before: Story, after: Story) -> Iterator[str]:
    """Lists the receivers whose number of notifications differs."""
    receivers = [*before.receivers, *(name for name in after.receivers if name not in before.receivers)]
    counts = [(name, before.receivers.get(name, 0), after.receivers.get(name, 0)) for name in receivers]
    differing = [f"  {name}: {first} under A, {second} under B" for name, first, second in counts if first != second]
    if differing:
        yield ""
        yield f"NOTIFICATIONS IN ALL, repeats and resolved ones too: {count_text(len(differing), 'receiver')} with other numbers"
        yield from differing
