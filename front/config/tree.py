"""A YAML text as a tree of nodes that keep each scalar's own text and line, with aliases and merges resolved."""
from __future__ import annotations

from dataclasses import dataclass, field
from typing import Any, Iterator, Union

from ..program import Fault

try:
    import yaml
except ModuleNotFoundError:
    yaml = None

DEPTH_AT_MOST = 200
NODES_AT_MOST = 500_000
NULLS = {"", "~", "null", "Null", "NULL"}
BOOLEANS = {
    **dict.fromkeys(["y", "Y", "yes", "Yes", "YES", "true", "True", "TRUE", "on", "On", "ON"], True),
    **dict.fromkeys(["n", "N", "no", "No", "NO", "false", "False", "FALSE", "off", "Off", "OFF"], False),
}


class BadYaml(ValueError):
    """A text that isn't the YAML of a configuration. Its text says where and why."""


@dataclass
class Scalar:
    """A scalar: its text as written, and whether it stands plain, without quotes and tags."""

    text: str
    is_plain: bool
    line: int

    def is_null(self) -> bool:
        """Returns whether YAML takes it for no value."""
        return self.is_plain and self.text in NULLS

    def as_boolean(self) -> bool | None:
        """Returns its boolean if YAML takes it for one."""
        return BOOLEANS.get(self.text) if self.is_plain else None


@dataclass
class Sequence:
    """A list of nodes."""

    line: int
    items: list[Node] = field(default_factory=list)


@dataclass
class Mapping:
    """Pairs of a key and a node, in the order of the text."""

    line: int
    pairs: list[tuple[Scalar, Node]] = field(default_factory=list)


Node = Union[Scalar, Sequence, Mapping]


def tree_of(text: str, are_keys_unique: bool = True) -> Node | None:
    """Returns the tree of a YAML text with one document, or nothing if it is empty. Raises a fault if there is nothing to read YAML with."""
    if yaml is None:
        raise Fault("amreplay: reading YAML needs PyYAML; Debian's package is python3-yaml")
    try:
        return _Composer(text, are_keys_unique).document()
    except yaml.YAMLError as error:
        raise BadYaml(_described(error)) from None


def tree_of_json(value: Any) -> Node:
    """Returns the tree of a JSON value, whose lines aren't known."""
    if isinstance(value, dict):
        return Mapping(0, [(Scalar(key, False, 0), tree_of_json(member)) for key, member in value.items()])
    if isinstance(value, list):
        return Sequence(0, [tree_of_json(each) for each in value])
    return Scalar("" if value is None else str(value), value is None, 0)


def _described(error: yaml.YAMLError) -> str:
    mark = getattr(error, "problem_mark", None) or getattr(error, "context_mark", None)
    problem = getattr(error, "problem", None) or getattr(error, "reason", None) or "not YAML"
    return f"line {mark.line + 1}, column {mark.column + 1}: {problem}" if mark else str(problem)


class _Composer:
    """Builds nodes from the events of the parser, with bounds on depth and size."""

    def __init__(self, text: str, are_keys_unique: bool) -> None:
        loader = getattr(yaml, "CSafeLoader", yaml.SafeLoader)
        self.events: Iterator[Any] = yaml.parse(text, Loader=loader)
        self.anchors: dict[str, tuple[Node, int]] = {}
        self.are_keys_unique = are_keys_unique
        self.count = 0

    def document(self) -> Node | None:
        """Returns the node of the only document."""
        root = None
        for event in self.events:
            if isinstance(event, yaml.DocumentStartEvent):
                if root is not None:
                    raise BadYaml(f"line {event.start_mark.line + 1}: a second document begins")
                root = self._node(next(self.events), 0)
        return root

    def _node(self, event: Any, depth: int) -> Node:
        line = event.start_mark.line + 1
        if depth > DEPTH_AT_MOST:
            raise BadYaml(f"line {line}: more than {DEPTH_AT_MOST} levels")
        if isinstance(event, yaml.AliasEvent):
            return self._alias(event.anchor, line)
        before = self.count
        self._count(1, line)
        node = self._composed(event, line, depth)
        if event.anchor is not None:
            self.anchors[event.anchor] = node, self.count - before
        return node

    def _composed(self, event: Any, line: int, depth: int) -> Node:
        if isinstance(event, yaml.ScalarEvent):
            return Scalar(event.value, event.implicit[0] and event.tag is None, line)
        if isinstance(event, yaml.SequenceStartEvent):
            return self._sequence(line, depth)
        return self._mapping(line, depth)

    def _alias(self, anchor: str, line: int) -> Node:
        if anchor not in self.anchors:
            raise BadYaml(f"line {line}: there is no anchor {anchor} above, or it isn't complete")
        node, size = self.anchors[anchor]
        self._count(size, line)
        return node

    def _count(self, more: int, line: int) -> None:
        self.count += more
        if self.count > NODES_AT_MOST:
            raise BadYaml(f"line {line}: more than {NODES_AT_MOST} values")

    def _sequence(self, line: int, depth: int) -> Sequence:
        found = Sequence(line)
        while not isinstance(event := next(self.events), yaml.SequenceEndEvent):
            found.items.append(self._node(event, depth + 1))
        return found

    def _mapping(self, line: int, depth: int) -> Mapping:
        found, merged = Mapping(line), Mapping(line)
        while not isinstance(event := next(self.events), yaml.MappingEndEvent):
            key = self._node(event, depth + 1)
            value = self._node(next(self.events), depth + 1)
            if not isinstance(key, Scalar):
                raise BadYaml(f"line {key.line}: a key that isn't a text")
            if key.is_plain and key.text == "<<":
                merged.pairs += _members_to_merge(value, key.line)
            else:
                found.pairs.append((key, value))
        if self.are_keys_unique:
            _refuse_a_repeated_key(found)
        return _with_merged(found, merged)


def _members_to_merge(value: Node, line: int) -> list[tuple[Scalar, Node]]:
    parts = value.items if isinstance(value, Sequence) else [value]
    pairs: list[tuple[Scalar, Node]] = []
    for part in parts:
        if not isinstance(part, Mapping):
            raise BadYaml(f"line {line}: << takes an object, or a list of objects")
        pairs += part.pairs
    return pairs


def _refuse_a_repeated_key(mapping: Mapping) -> None:
    seen: set[str] = set()
    for key, _ in mapping.pairs:
        if key.text in seen:
            raise BadYaml(f"line {key.line}: the key {key.text} is repeated")
        seen.add(key.text)


def _with_merged(found: Mapping, merged: Mapping) -> Mapping:
    """Adds the merged members whose keys aren't there yet. The first of equal keys counts."""
    seen = {key.text for key, _ in found.pairs}
    for key, value in merged.pairs:
        if key.text not in seen:
            seen.add(key.text)
            found.pairs.append((key, value))
    return found
