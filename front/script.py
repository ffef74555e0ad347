"""Reads the lines of a script, to show what each event is. Only lines that the program has accepted are read."""

from __future__ import annotations

import json
from dataclasses import dataclass
from typing import Any

ACTS = ("alerts", "silence", "expire", "reload", "tick", "label")
JSON_SPACE = b" \t\r\n"


@dataclass(frozen=True)
class Event:
    """An event of the script: its moment as it is written there, the key of its act, and the act's value."""

    at: str
    act: str
    value: Any
    new_id: str | None


@dataclass(frozen=True)
class Script:
    """The lines of a script that are events, each with the number of its line, and the line of its version or nothing."""

    lines: list[bytes]
    numbers: list[int]
    version: bytes

    def text(self, lines: list[bytes]) -> bytes:
        """Returns a script of this version with other events."""
        return b"\n".join([*([self.version] if self.version else []), *lines]) + b"\n"


def script_of(data: bytes) -> Script:
    """Reads which lines are events: those that aren't white space alone, nor the version on the first line."""
    lines = [(number, line) for number, line in enumerate(data.split(b"\n"), 1) if line.strip(JSON_SPACE)]
    version = b""
    if lines and is_version(lines[0][1]):
        version = lines.pop(0)[1]
    return Script([line for _, line in lines], [number for number, _ in lines], version)


def is_version(line: bytes) -> bool:
    """Returns whether a line says the script's version, as `{"v":2}`, and is no event."""
    if b'"v"' not in line:
        return False
    try:
        value = json.loads(line)
    except ValueError:
        return False
    return isinstance(value, dict) and "v" in value and "at" not in value


def lines_of(data: bytes) -> list[bytes]:
    """Returns the lines that are events."""
    return script_of(data).lines


def plain_id(text: str) -> str:
    """Returns an id as the program prints it, whichever of its forms the script has."""
    digits = text.lower().removeprefix("urn:uuid:").strip("{}").replace("-", "")
    return "-".join((digits[:8], digits[8:12], digits[12:16], digits[16:20], digits[20:])) if digits else ""


def event_of(line: bytes) -> Event:
    """Reads one line."""
    value = json.loads(line)
    act = next(key for key in ACTS if key in value)
    return Event(value["at"], act, value[act], value.get("newId"))
