"""The files that a word is given: CONFIG as JSON or YAML, SCRIPT, `-` for standard input, and pipes."""

from __future__ import annotations

import dataclasses
import json
import os
import sys
import tempfile
from contextlib import contextmanager
from dataclasses import dataclass
from pathlib import Path
from typing import Any, Iterator, Optional

from .config.yaml_config import BYTES_AT_MOST, BadConfiguration, Reading, read_config
from .config.zones import BadZone, in_utc
from .lint.findings import Finding
from .lint.odd import unknown_keys
from .lint.refused import explain
from .lint.scripts import explain_script
from .moments import DAY, nanoseconds
from .program import Fault, Program, Source
from .script import event_of, script_of
from .story.times import LAST
from .telling import printable

STANDARD_INPUT = "-"
A_DAY = (19_844 * DAY, 19_844 * DAY)


@dataclass(frozen=True)
class Given:
    """A file as it was given: its name, and its bytes."""

    name: str
    data: bytes


@dataclass(frozen=True)
class Config:
    """A configuration: its name as given, what was read of it, the path of the JSON for the program, and the time intervals that another zone than
    UTC has in the file."""

    name: str
    reading: Reading
    path: str
    in_zones: tuple[str, ...] = ()

    @property
    def value(self) -> dict[str, Any]:
        return self.reading.value if isinstance(self.reading.value, dict) else {}

    @property
    def may_have_zones(self) -> bool:
        return b"location" in self.reading.original


class Inputs:
    """Reads files once, and writes what the program reads to a folder that is removed afterwards."""

    def __init__(self, room: Path) -> None:
        self.room = room
        self._count = 0
        self._script: Optional[Given] = None

    def read(self, path: str, at_most: int = -1) -> Given:
        """Reads a file, or standard input, whole or so many bytes of it. Raises a fault that names it."""
        try:
            data = _bytes_of(path, at_most)
        except OSError as error:
            raise Fault(f"amreplay: cannot read {shown(path)}: {error.strerror}") from error
        return Given("standard input" if path == STANDARD_INPUT else shown(path), data)

    def script(self, path: str) -> Given:
        self._script = self.read(path)
        return self._script

    def explained(self, fault: Fault) -> Fault:
        """Returns a refusal of the script with what is wrong in its line, and any other fault as it is."""
        if fault.refusal is None or fault.refusal.file != "script" or self._script is None:
            return fault
        return _explained(fault, explain_script(fault.refusal, self._script.data), self._script.name)

    def config(self, path: str, script: Optional[Given] = None, days_after: int = 0) -> Config:
        """Reads a configuration, and writes it for the program as JSON: its time intervals in UTC for the days of the script, and some after it.
        Unknown keys are warned of on standard error, and a fault says where and why the program refuses it."""
        config = self.config_as_it_is(path)
        config = self.in_utc(config, script, days_after)
        self.check(config)
        return config

    def config_as_it_is(self, path: str) -> Config:
        """Reads a configuration, and writes it for the program as JSON."""
        given = self.read(path, BYTES_AT_MOST + 1)
        try:
            reading = read_config(given.data)
        except BadConfiguration as error:
            raise Fault(f"amreplay: {given.name}: {_why_unread(given.data, error)}") from error
        return Config(given.name, reading, self.write(reading.as_json()))

    def in_utc(self, config: Config, script: Optional[Given], days_after: int = 0) -> Config:
        """Returns a configuration with its time intervals in UTC, for the days of a script and some after it, or for one day without it."""
        if not config.may_have_zones:
            return config
        first, last = (times_of(script.data) if script is not None else None) or A_DAY
        try:
            value, names = in_utc(config.reading.value, first, min(last + days_after * DAY, LAST))
        except BadZone as error:
            return dataclasses.replace(config, reading=dataclasses.replace(config.reading, bad_zone=str(error)))
        if not names:
            return config
        reading = dataclasses.replace(config.reading, value=value)
        return Config(config.name, reading, self.write(json.dumps(value, ensure_ascii=False).encode()), tuple(names))

    def check(self, config: Config) -> None:
        """Warns of unknown keys on standard error. Raises a fault that says where and why the program refuses a configuration."""
        for finding in unknown_keys(config.reading):
            print(f"amreplay: {printable(finding.text(config.name))}", file=sys.stderr)
        try:
            Program.found().check(config.path, config.name)
        except Fault as fault:
            if fault.refusal is None:
                raise
            raise _explained(fault, explain(fault.refusal, config.reading), config.name) from fault

    def source(self, config: Config, script: Given) -> Source:
        """Returns what is replayed, under the names that were given."""
        return Program.found().source(config.path, self.write(script.data), config.name, script.name)

    def write(self, data: bytes) -> str:
        self._count += 1
        path = self.room / f"file-{self._count}"
        path.write_bytes(data)
        return str(path)


def _bytes_of(path: str, at_most: int) -> bytes:
    if path == STANDARD_INPUT:
        return sys.stdin.buffer.read(at_most)
    with open(path, "rb") as file:
        return file.read(at_most)


def _explained(fault: Fault, findings: list[Finding], name: str) -> Fault:
    """Returns a refusal of the program with what is found behind it."""
    return Fault("\n".join(f"amreplay: {printable(each.text(name))}" for each in findings), fault.status, fault.refusal)


def _why_unread(data: bytes, error: BadConfiguration) -> str:
    """Says why a configuration is neither JSON nor YAML. One that begins as JSON is meant as JSON."""
    if not data.lstrip().startswith(b"{"):
        return str(error)
    try:
        json.loads(data)
    except json.JSONDecodeError as fault:
        return f"no JSON: {fault.msg} at line {fault.lineno}, column {fault.colno}"
    except UnicodeDecodeError:
        pass
    return str(error)


@contextmanager
def opened() -> Iterator[Inputs]:
    """Gives a folder to inputs, and removes it. Where the program refused the script, it says what is wrong there."""
    with tempfile.TemporaryDirectory(prefix="amreplay-") as room:
        inputs = Inputs(Path(room))
        try:
            yield inputs
        except Fault as fault:
            raise inputs.explained(fault) from fault


def shown(path: str) -> str:
    """Returns a path as a text that can be written, whatever bytes it has."""
    return os.fsencode(path).decode("utf-8", "replace")


def times_of(script: bytes) -> tuple[int, int] | None:
    """Returns the first and the last moment of a script, or None if it isn't read."""
    try:
        moments = [nanoseconds(event_of(line).at) for line in script_of(script).lines]
    except (ValueError, KeyError, StopIteration, TypeError):
        return None
    return (min(moments), max(moments)) if moments else None
