"""How one listing differs from another. Lines are in the same order in both, and no line is in one twice."""
from __future__ import annotations

from dataclasses import dataclass

FIRST_BLOCK = 1 << 12
LARGEST_BLOCK = 1 << 18
MANY_LINES = 256


@dataclass(frozen=True)
class Change:
    """How a list differs from the one before: lines that it no longer has, and lines that it has anew."""

    gone: list[bytes]
    new: list[bytes]


def lines_of(text: bytes) -> list[bytes]:
    """Returns the lines of a text that ends with a line feed, or is empty."""
    return text.split(b"\n")[:-1]


def change(before: bytes, after: bytes) -> Change:
    """Returns how the listing `after` differs from the listing `before`. What is alike is passed over in large blocks."""
    gone: list[bytes] = []
    new: list[bytes] = []
    i = j = 0
    while True:
        alike = _alike(before, i, after, j)
        i, j = i + alike, j + alike
        if i == len(before) and j == len(after):
            return Change(gone, new)
        left, right = _until_alike(before, i, after, j)
        gone += left
        new += right
        i += sum(map(len, left)) + len(left)
        j += sum(map(len, right)) + len(right)


def _alike(before: bytes, i: int, after: bytes, j: int) -> int:
    """Returns how many bytes of whole lines are alike from two indexes on."""
    count, size = 0, FIRST_BLOCK
    end = min(len(before) - i, len(after) - j)
    while count < end and size > 0:
        size = min(size, end - count)
        if _is_there(before, i + count, after, j + count, size):
            count += size
            size = min(2 * size, LARGEST_BLOCK)
        else:
            return _lines_alike(before, i + count, after, j + count, size, i) - i
    return before.rfind(b"\n", i, i + count) + 1 - i if count else 0


def _lines_alike(before: bytes, i: int, after: bytes, j: int, size: int, start: int) -> int:
    """Returns where the line begins in which two blocks of a size differ first."""
    low = 0
    while size > 1:
        half = size // 2
        if _is_there(before, i + low, after, j + low, half):
            low += half
            size -= half
        else:
            size = half
    return max(before.rfind(b"\n", start, i + low) + 1, start)


def _is_there(before: bytes, i: int, after: bytes, j: int, size: int) -> bool:
    """Returns whether two blocks are alike. It copies neither."""
    with memoryview(after) as view:
        return before.startswith(view[j : j + size], i)


def _until_alike(before: bytes, i: int, after: bytes, j: int) -> tuple[list[bytes], list[bytes]]:
    """Returns the lines from two indexes on that stand before the next line that both have."""
    count = 2
    while count <= MANY_LINES:
        left, right = _some_lines(before, i, count), _some_lines(after, j, count)
        common = set(left).intersection(right)
        if common:
            return _before(left, common), _before(right, common)
        if len(left) < count and len(right) < count:
            return left, right
        count *= 2
    return _of_the_rest(lines_of(before[i:]), lines_of(after[j:]))


def _some_lines(text: bytes, start: int, count: int) -> list[bytes]:
    lines: list[bytes] = []
    while start < len(text) and len(lines) < count:
        end = text.index(b"\n", start)
        lines.append(text[start:end])
        start = end + 1
    return lines


def _of_the_rest(left: list[bytes], right: list[bytes]) -> tuple[list[bytes], list[bytes]]:
    common = set(left).intersection(right)
    return (_before(left, common), _before(right, common)) if common else (left, right)


def _before(lines: list[bytes], common: set[bytes]) -> list[bytes]:
    return lines[: next(i for i, line in enumerate(lines) if line in common)]
