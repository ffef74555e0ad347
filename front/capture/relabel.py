"""Relabelling of alerts, as Prometheus does it before it sends them."""

from __future__ import annotations

import hashlib
import re
import warnings
from dataclasses import dataclass
from typing import Callable, Mapping

from .faults import fault

Labels = dict[str, str]
LABEL_NAME = re.compile(r"[a-zA-Z_][a-zA-Z0-9_]*")
REFERENCE = re.compile(r"\$(?:(\$)|(\w+)|\{(\w+)\})", re.ASCII)
CLASSES = {
    "[:alnum:]": "0-9A-Za-z", "[:alpha:]": "A-Za-z", "[:digit:]": "0-9", "[:lower:]": "a-z", "[:upper:]": "A-Z",
    "[:space:]": r"\t\n\v\f\r ", "[:word:]": "0-9A-Za-z_", "[:xdigit:]": "0-9A-Fa-f",
}  # fmt: skip
FLAGS = re.compile(r"\(\?([a-zA-Z]+)\)")


@dataclass(frozen=True)
class Step:
    """One relabelling step."""

    action: str
    source_labels: tuple[str, ...]
    separator: str
    regex: re.Pattern[str]
    target_label: str
    replacement: str
    modulus: int

    def value(self, labels: Labels) -> str:
        """Returns the values of the source labels, joined."""
        return self.separator.join(labels.get(name, "") for name in self.source_labels)


def step_of(fields: Mapping[str, str], source_labels: list[str], location: str) -> Step:
    """Returns the step that a configuration has, with Prometheus's defaults."""
    action = fields.get("action", "replace").lower()
    if action not in ACTIONS:
        raise fault(f"{location}: the action {action} isn't known")
    try:
        modulus = int(fields.get("modulus", "0"))
    except ValueError:
        raise fault(f"{location}: the modulus isn't a number") from None
    if action == "hashmod" and modulus < 1:
        raise fault(f"{location}: hashmod needs a modulus")
    pattern = _pattern(fields.get("regex", "(.*)"), location)
    target, replacement = fields.get("target_label", ""), fields.get("replacement", "$1")
    return Step(action, tuple(source_labels), fields.get("separator", ";"), pattern, target, replacement, modulus)


def relabelled(labels: Labels, steps: list[Step]) -> Labels | None:
    """Returns the labels after all steps, or nothing if one drops them."""
    result = dict(labels)
    for step in steps:
        if not ACTIONS[step.action](step, result):
            return None
    return {name: value for name, value in result.items() if value}


def _pattern(text: str, location: str) -> re.Pattern[str]:
    """Returns a pattern of Go's library. It matches whole values. Its flags at the start are moved to its group."""
    for name, members in CLASSES.items():
        text = text.replace(name, members)
    flags = FLAGS.match(text)
    body = f"(?{flags[1]}:{text[flags.end():]})" if flags else f"(?:{text})"
    try:
        if "[:" in text:
            raise re.error("its class of characters isn't known")
        with warnings.catch_warnings():
            warnings.simplefilter("ignore", FutureWarning)
            return re.compile(body, re.ASCII)
    except (re.error, OverflowError, RecursionError) as error:
        raise fault(f"{location}: the pattern {text!r} can't be read here: {error}") from None


def _expanded(template: str, found: re.Match[str]) -> str:
    """Expands `$1`, `${1}` and `${name}` as Go does: a group that isn't there is empty."""

    def part(reference: re.Match[str]) -> str:
        if reference[1]:
            return "$"
        name = reference[2] or reference[3]
        try:
            return found.group(int(name) if name.isdigit() else name) or ""
        except IndexError:
            return ""

    return REFERENCE.sub(part, template)


def _replace(step: Step, labels: Labels) -> bool:
    found = step.regex.fullmatch(step.value(labels))
    if not found:
        return True
    target, value = _expanded(step.target_label, found), _expanded(step.replacement, found)
    if LABEL_NAME.fullmatch(target) and value:
        labels[target] = value
    else:
        labels.pop(target if LABEL_NAME.fullmatch(target) else step.target_label, None)
    return True


def _hashmod(step: Step, labels: Labels) -> bool:
    digest = hashlib.md5(step.value(labels).encode(), usedforsecurity=False).digest()
    labels[step.target_label] = str(int.from_bytes(digest[8:], "big") % step.modulus)
    return True


def _labelmap(step: Step, labels: Labels) -> bool:
    for name, value in list(labels.items()):
        found = step.regex.fullmatch(name)
        if found:
            labels[_expanded(step.replacement, found)] = value
    return True


def _without(is_dropped: Callable[[Step, str], bool]) -> Callable[[Step, Labels], bool]:
    def act(step: Step, labels: Labels) -> bool:
        for name in list(labels):
            if is_dropped(step, name):
                del labels[name]
        return True

    return act


def _cased(change: Callable[[str], str]) -> Callable[[Step, Labels], bool]:
    def act(step: Step, labels: Labels) -> bool:
        labels[step.target_label] = change(step.value(labels))
        return True

    return act


ACTIONS: dict[str, Callable[[Step, Labels], bool]] = {
    "replace": _replace,
    "keep": lambda step, labels: step.regex.fullmatch(step.value(labels)) is not None,
    "drop": lambda step, labels: step.regex.fullmatch(step.value(labels)) is None,
    "keepequal": lambda step, labels: labels.get(step.target_label, "") == step.value(labels),
    "dropequal": lambda step, labels: labels.get(step.target_label, "") != step.value(labels),
    "hashmod": _hashmod,
    "labelmap": _labelmap,
    "labeldrop": _without(lambda step, name: step.regex.fullmatch(name) is not None),
    "labelkeep": _without(lambda step, name: step.regex.fullmatch(name) is None),
    "lowercase": _cased(str.lower),
    "uppercase": _cased(str.upper),
}
