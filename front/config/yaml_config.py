"""Reads a configuration by its schema: what YAML takes for a number, a boolean or a date is a text where Alertmanager has a text."""
from __future__ import annotations

import codecs
import json
import re
from dataclasses import dataclass, field
from typing import Any

from ..program import Fault

from .schema import (
    CONFIGURATION, ROUTE, SENDS_RESOLVED, TEXT, Boolean, Integration, ListOf, Object, Route, Shape, Texts, shape_in, with_default,
)  # fmt: skip
from .tree import BadYaml, Mapping, Node, Scalar, Sequence, tree_of, tree_of_json

BYTES_AT_MOST = 16 * 1024 * 1024


class BadConfiguration(ValueError):
    """Bytes that are neither YAML nor JSON of a configuration. Its text says where and why."""


@dataclass(frozen=True)
class Unread:
    """A key that the schema doesn't have: its path, its line, and the keys that the schema has there."""

    path: str
    key: str
    line: int
    known: tuple[str, ...]


@dataclass
class Reading:
    """A configuration as the program reads it, with the line of each path in the user's file. `bad_zone` says where and why a `location` can't be
    written in UTC."""

    value: Any
    lines: dict[str, int] = field(default_factory=dict)
    unread: list[Unread] = field(default_factory=list)
    is_json: bool = False
    original: bytes = b""
    bad_zone: str = ""

    def line_of(self, path: str) -> int | None:
        """Returns the line of a path, or of the nearest path around it that has one."""
        while path not in self.lines and path:
            path = re.sub(r"(\.?[^.\[]*|\[\d+\])$", "", path, count=1) if re.search(r"[.\[]", path) else ""
        return self.lines.get(path)

    def as_json(self) -> bytes:
        """Returns the bytes for the program: a JSON file as it is, and JSON of anything else."""
        return self.original if self.is_json else json.dumps(self.value, ensure_ascii=False, indent=2).encode() + b"\n"


def read_config(data: bytes) -> Reading:
    """Reads `alertmanager.yml`, or JSON of the same tree. JSON is kept as it is."""
    if len(data) > BYTES_AT_MOST:
        raise BadConfiguration(f"more than {BYTES_AT_MOST} bytes")
    try:
        text = data.decode("utf-8-sig")
    except UnicodeDecodeError as error:
        raise BadConfiguration(f"not UTF-8, at byte {error.start + 1}") from None
    return _read_json(text, data) or _read_yaml(text, data)


def _read_json(text: str, data: bytes) -> Reading | None:
    if not text.lstrip().startswith("{"):
        return None
    try:
        reading = Reading(json.loads(text), is_json=True, original=data.removeprefix(codecs.BOM_UTF8))
    except (ValueError, RecursionError):
        return None
    try:
        # A tab between tokens is white space in JSON alone, and there is none within its texts.
        node = tree_of(text.replace("\t", " "), are_keys_unique=False)
    except BadYaml:
        return reading
    except Fault:
        node = tree_of_json(reading.value)
    if node is not None:
        _Reader(reading).read(node, CONFIGURATION, "")
    return reading


def _read_yaml(text: str, data: bytes) -> Reading:
    try:
        node = tree_of(text)
    except BadYaml as error:
        raise BadConfiguration(str(error)) from None
    if not isinstance(node, Mapping):
        raise BadConfiguration("no configuration: its top isn't an object" if node else "the file is empty")
    reading = Reading(None, original=data)
    reading.value = _Reader(reading).read(node, CONFIGURATION, "")
    return reading


class _Reader:
    """Reads nodes by their shapes, and notes lines and unread keys."""

    def __init__(self, reading: Reading) -> None:
        self.reading = reading

    def read(self, node: Node, shape: Shape, path: str) -> Any:
        """Returns the JSON of a node. A node of another shape is left for the program to refuse."""
        self.reading.lines.setdefault(path, node.line)
        if isinstance(shape, Route):
            shape = ROUTE
        if isinstance(node, Mapping):
            return self._object(node, shape, path)
        if isinstance(node, Sequence):
            return self._list(node, shape, path)
        return _scalar(node, shape)

    def _list(self, node: Sequence, shape: Shape, path: str) -> list[Any]:
        item = shape.item if isinstance(shape, ListOf) else None
        return [self.read(each, item, f"{path}[{i}]") if item else self._any(each) for i, each in enumerate(node.items)]

    def _object(self, node: Mapping, shape: Shape, path: str) -> dict[str, Any]:
        if isinstance(shape, Texts):
            return {key.text: self._text(value, self._recorded(key, path)) for key, value in node.pairs}
        if isinstance(shape, Integration):
            return self._integration(node, shape, path)
        if isinstance(shape, Object):
            return self._members(node, shape, path)
        return {key.text: self._any(value) for key, value in node.pairs}

    def _members(self, node: Mapping, shape: Object, path: str) -> dict[str, Any]:
        found = {}
        for key, value in node.pairs:
            member = shape_in(shape, key.text)
            if member is None:
                self._note_unread(key, shape, path)
            elif not _is_absent(value, member):
                found[key.text] = self.read(value, member, self._recorded(key, path))
        return found

    def _recorded(self, key: Scalar, path: str) -> str:
        """Returns the path of a member, whose line is that of its key."""
        member = _joined(path, key.text)
        self.reading.lines[member] = key.line
        return member

    def _note_unread(self, key: Scalar, shape: Object, path: str) -> None:
        if key.text not in shape.silent:
            known = tuple(shape.keys) + shape.silent
            if shape.has_integrations:
                known += tuple(f"{kind}_configs" for kind in SENDS_RESOLVED)
            self.reading.unread.append(Unread(_joined(path, key.text), key.text, key.line, known))

    def _integration(self, node: Mapping, shape: Integration, path: str) -> dict[str, Any]:
        """Keeps `send_resolved` alone, and sets the default of a kind that the program doesn't know."""
        found = self._members(
            node, Object({"send_resolved": Boolean()}, silent=tuple(key.text for key, _ in node.pairs)), path
        )
        return with_default(found, shape.kind)

    def _text(self, node: Node, path: str) -> Any:
        """Returns the text of a member of an object of texts. Alertmanager takes no value for the empty text there."""
        return self.read(node, TEXT, path)

    def _any(self, node: Node) -> Any:
        if isinstance(node, Sequence):
            return [self._any(each) for each in node.items]
        if isinstance(node, Mapping):
            return {key.text: self._any(value) for key, value in node.pairs}
        return None if node.is_null() else node.text


def _scalar(node: Scalar, shape: Shape) -> Any:
    if isinstance(shape, Boolean):
        value = node.as_boolean()
        return node.text if value is None else value
    if node.is_null():
        return None if isinstance(shape, (Object, Integration, ListOf, Texts)) else ""
    return node.text


def _is_absent(node: Node, shape: Shape) -> bool:
    if isinstance(node, Scalar):
        return node.is_null()
    return isinstance(shape, ListOf) and shape.is_absent_if_empty and isinstance(node, Sequence) and not node.items


def _joined(path: str, key: str) -> str:
    return f"{path}.{key}" if path else key
