"""Which labels a matcher may match: the program says what it matches, and this only saves asking it about all alerts. A pattern that
isn't plain may match anything."""

from __future__ import annotations

import functools
import re

from .model import Pairs

# Name, value, whether it is `=` or `=~`, and whether it is a pattern.
Matcher = tuple[str, str, bool, bool]

# Patterns that Python's `re` reads as the program's library does: literals, `.`, single repetitions, alternatives, groups, simple classes.
PLAIN = re.compile(
    r"(?:[\w \-:/@%,;=~!\"'&#]|\\[.\-/]|\.|\||\((?!\?)|\)|(?<![*+?|(^])[*+?](?![*+?])|\[[\w .:/]+\])*", re.ASCII
)
RANGES = re.compile(r"\[(\w-\w|\w)+\]", re.ASCII)


def may_match_all(matchers: tuple[Matcher, ...], labels: dict[str, str]) -> bool:
    """Returns whether each of some matchers may match. Never says no where the program says yes."""
    return all(may_match(matcher, labels.get(matcher[0], "")) for matcher in matchers)


def may_match(matcher: Matcher, value: str) -> bool:
    """Returns whether a matcher may match a value."""
    _, wanted, is_equal, is_regex = matcher
    if not is_regex:
        return (value == wanted) == is_equal
    pattern = _compiled(wanted)
    return pattern is None or (pattern.fullmatch(value) is not None) == is_equal


@functools.lru_cache(maxsize=4_096)
def _compiled(text: str) -> re.Pattern[str] | None:
    """Returns a plain pattern, or None for any other."""
    if not PLAIN.fullmatch(RANGES.sub("a", text)):
        return None
    try:
        return re.compile(text)
    except re.error:
        return None


OPERATOR = re.compile(r"=~|!~|!=|=")
BARE = re.compile(r"[^\s{}!=~,\\\"'`]*")


@functools.lru_cache(maxsize=16_384)
def matchers_in(text: str) -> tuple[Matcher, ...] | None:
    """Returns the matchers of a text such as `team="a", zone=~"eu-.*"`, or None if it isn't one of plain texts."""
    text = text.strip()
    if text.startswith("{") and text.endswith("}"):
        text = text[1:-1]
    found: list[Matcher] = []
    offset = 0
    while True:
        offset = _after_space(text, offset)
        if offset == len(text):
            return tuple(found)
        name, offset = _word(text, offset)
        operator = OPERATOR.match(text, offset)
        if not name or not operator:
            return None
        value, offset = _word(text, _after_space(text, operator.end()))
        if value is None:
            return None
        found.append((name, value, operator[0] in ("=", "=~"), operator[0].endswith("~")))
        if offset < len(text):
            if text[offset] != ",":
                return None
            offset += 1


def _word(text: str, offset: int) -> tuple[str | None, int]:
    """Returns the bare word or the text in quotes at an offset, and the offset after it and white space."""
    if not text.startswith('"', offset):
        found = BARE.match(text, offset)
        word = found[0] if found else ""
        return word, _after_space(text, offset + len(word))
    word, offset = "", offset + 1
    while offset < len(text) and text[offset] != '"':
        if text[offset] == "\\" and offset + 1 < len(text):
            offset += 1
            word += {"n": "\n", "t": "\t", '"': '"', "\\": "\\"}.get(text[offset], "\\" + text[offset])
        else:
            word += text[offset]
        offset += 1
    return (word, _after_space(text, offset + 1)) if offset < len(text) else (None, offset)


def _after_space(text: str, offset: int) -> int:
    while offset < len(text) and text[offset].isspace():
        offset += 1
    return offset
