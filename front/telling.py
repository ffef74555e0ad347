"""What the words' texts have in common."""

from __future__ import annotations

import re
from typing import Iterable

from .story.model import TOLD, Pairs, Row, Span
from .story.names import Names

HIDDEN = re.compile(r"[\x00-\x1f\x7f-\x9f\u200b-\u200f\u2028-\u202e\u2066-\u2069\ufeff\ud800-\udfff]")


def printable(text: str) -> str:
    """Returns a text without line feeds and other characters that are invisible or turn the text after them."""
    return HIDDEN.sub(lambda found: f"\\u{ord(found[0]):04x}", text)


def count_text(number: int, what: str) -> str:
    """Returns `1 alert`, or `2,000 alerts`."""
    return f"{number:,} {what}{'' if number == 1 else 's'}"


def receivers_text(rows: Iterable[Row]) -> str:
    """Returns receivers with their integrations: `db-pager (email, pagerduty), sre-pager (slack)`."""
    integrations: dict[str, list[str]] = {}
    for row in rows:
        place = f" {row.place + 1}" if row.place else ""
        integrations.setdefault(row.receiver, []).append(row.integration + place)
    return ", ".join(f"{name} ({', '.join(listed)})" if any(listed) else name for name, listed in integrations.items())


def joined(alert: Pairs, spans: list[Span], names: Names) -> list[tuple[int, int, str]]:
    """Puts spans of an alert together that follow one another with the same words."""
    found: list[tuple[int, int, str]] = []
    for span in spans:
        told = [(span.start, span.end, "notified")] if span.verdict == TOLD else names.parts(alert, span)
        for start, end, reason in told:
            if found and found[-1][1] == start and found[-1][2] == reason:
                found[-1] = (found[-1][0], end, reason)
            else:
                found.append((start, end, reason))
    return found


def span_lines(alert: Pairs, spans: list[Span], names: Names, at_most: int, indent: str) -> list[str]:
    """Returns a line for each span of an alert, as many as are wanted, and how many more there are."""
    together = joined(alert, spans, names)
    lines = [
        f"{indent}{names.moment(start)}-{names.moment(end)}  {reason}" for start, end, reason in together[:at_most]
    ]
    more = len(together) - len(lines)
    return [*lines, f"{indent}.. and {count_text(more, 'more span')}"] if more else lines
