"""What is wrong in a line of a script that the program refused: which key, and what to write."""

from __future__ import annotations

import json
import re
from typing import Any, Iterator

from ..meant import meant
from ..moments import nanoseconds
from ..program import Refusal
from ..script import ACTS, JSON_SPACE
from .findings import ERROR, WARNING, Finding, value_text

BYTES_AT_MOST = 1_048_576
UUID = re.compile(r"(urn:uuid:)?\{?[0-9a-f]{8}-?([0-9a-f]{4}-?){3}[0-9a-f]{12}\}?", re.IGNORECASE)
LINE_KEYS = ("at", "newId", "v", *ACTS)
ALERT_KEYS = (
    "labels",
    "annotations",
    "startsAt",
    "endsAt",
    "generatorURL",
    "fingerprint",
    "status",
    "updatedAt",
    "receivers",
)
SILENCE_KEYS = ("id", "matchers", "startsAt", "endsAt", "createdBy", "comment", "status", "updatedAt")
MATCHER_KEYS = ("name", "value", "isRegex", "isEqual")
UNLIMITED = {14: f"the line has more than {BYTES_AT_MOST:,} bytes", 15: "there are more than 1,000,000 events"}
Fault = tuple[str, str, str]


def explain_script(refusal: Refusal, script: bytes) -> list[Finding]:
    """Returns the faults of the line that the program refused."""
    said = f" ({refusal.number} {refusal.name})"
    if refusal.number != 13:
        return [Finding(ERROR, refusal.line or None, "", UNLIMITED.get(refusal.number, "the script is refused") + said)]
    lines = script.split(b"\n")
    line = lines[refusal.line - 1] if 0 < refusal.line <= len(lines) else b""
    faults = list(faults_of_line(line)) or [("", "the line is no event", "docs/FORMATS.md has the shapes")]
    return [Finding(ERROR, refusal.line, path, what + said, write) for path, what, write in faults]


def faults_of_line(line: bytes) -> Iterator[Fault]:
    """Yields what is wrong in a line: the key, what it is, and what to write."""
    try:
        value = json.loads(line.decode())
    except UnicodeDecodeError as error:
        yield "", f"no UTF-8, at byte {error.start + 1}", ""
        return
    except json.JSONDecodeError as error:
        yield "", f"no JSON: {error.msg} at column {error.colno}", "a line is one object"
        return
    if not isinstance(value, dict):
        yield "", f"{value_text(value)} is no object", 'a line is as {"at":"2024-05-01T10:00:00Z","tick":true}'
        return
    yield from _moment(value, "at", "at")
    acts = [key for key in ACTS if key in value]
    if len(acts) != 1:
        unknown = next((key for key in value if key not in LINE_KEYS and meant(key, ACTS)), None)
        hint = (
            f"did you mean {meant(unknown, ACTS)}, and not {unknown}?" if unknown else f"write one of {', '.join(ACTS)}"
        )
        yield "", f"the line has {' and '.join(acts) or 'no action'}", hint
        return
    yield from _act(acts[0], value)


def _act(act: str, value: dict[str, Any]) -> Iterator[Fault]:
    held = value[act]
    if act == "alerts":
        yield from _alerts(held)
    elif act == "silence":
        yield from _silence(held)
        yield from _uuid(
            value.get("newId"), "newId", "a line with a silence has a newId, the id that a new silence gets"
        )
    elif act == "expire":
        yield from _uuid(held, "expire", "write the id of the silence")
    elif act == "tick" and held is not True:
        yield "tick", f"{value_text(held)} isn't true", "write true"
    elif act == "label":
        what = "is no text" if not isinstance(held, str) else "may be in a script of version 2 alone"
        yield "label", f"{value_text(held)} {what}", 'begin the script with the line {"v":2}'


def _alerts(alerts: Any) -> Iterator[Fault]:
    if not isinstance(alerts, list):
        yield "alerts", f"{value_text(alerts)} is no list", f"write [{value_text(alerts)}]"
        return
    for i, alert in enumerate(alerts):
        path = f"alerts[{i}]"
        if not isinstance(alert, dict):
            yield path, f"{value_text(alert)} is no object", ""
            continue
        if "labels" not in alert:
            yield path, "labels is required, and isn't there", ""
        for key in ("labels", "annotations"):
            yield from _texts(alert.get(key, {}), f"{path}.{key}", key == "annotations")
        for key in ("startsAt", "endsAt"):
            if alert.get(key) not in (None, ""):
                yield from _moment(alert, key, f"{path}.{key}")


def _texts(value: Any, path: str, may_be_null: bool) -> Iterator[Fault]:
    if value is None and may_be_null:
        return
    if not isinstance(value, dict):
        yield path, f"{value_text(value)} is no object of texts", ""
        return
    for name, each in value.items():
        if not isinstance(each, str):
            yield f"{path}.{name}", f"{value_text(each)} is no text", f'write "{each}"' if isinstance(
                each, (int, float)
            ) else "write a text"


def _silence(silence: Any) -> Iterator[Fault]:
    if not isinstance(silence, dict):
        yield "silence", f"{value_text(silence)} is no object", ""
        return
    for key in ("startsAt", "endsAt"):
        yield from _moment(silence, key, f"silence.{key}")
    if silence.get("id") not in (None, ""):
        yield from _uuid(silence["id"], "silence.id", "leave it out for a new silence")
    matchers = silence.get("matchers")
    if not isinstance(matchers, list):
        yield "silence.matchers", f"{value_text(matchers)} is no list", 'write [{"name":"alertname","value":"X"}]'
        return
    for i, matcher in enumerate(matchers):
        yield from _matcher(matcher, f"silence.matchers[{i}]")


def _matcher(matcher: Any, path: str) -> Iterator[Fault]:
    if not isinstance(matcher, dict):
        yield path, f"{value_text(matcher)} is no object", 'write {"name":"alertname","value":"X"}'
        return
    for key in ("name", "value"):
        if not isinstance(matcher.get(key), str):
            yield f"{path}.{key}", f"{value_text(matcher.get(key))} is no text", f"a matcher has a {key}"
    for key in ("isRegex", "isEqual"):
        if not isinstance(matcher.get(key), (bool, type(None))):
            yield f"{path}.{key}", f"{value_text(matcher[key])} is no boolean", "write true or false"


def _uuid(value: Any, path: str, write: str) -> Iterator[Fault]:
    if value is None:
        yield path, f"{path} is required, and isn't there", write
    elif not isinstance(value, str) or not UUID.fullmatch(value):
        yield path, f"{value_text(value)} is no UUID", "write it as 5b1e0000-0000-4000-8000-000000000001"


def _moment(value: dict[str, Any], key: str, path: str) -> Iterator[Fault]:
    moment = value.get(key)
    if moment is None:
        yield path, f"{key} is required, and isn't there", "write a moment, as 2024-05-01T10:00:00Z"
        return
    try:
        is_moment = nanoseconds(moment) >= 0
    except (ValueError, TypeError):
        is_moment = False
    if not is_moment:
        yield path, f"{value_text(moment)} is no moment", "write it as 2024-05-01T10:00:00Z, or with +02:00 in place of Z"


def unknown_keys_of(lines: list[bytes], numbers: list[int]) -> Iterator[Finding]:
    """Yields the keys of accepted lines that are ignored and look like keys that aren't."""
    for number, line in zip(numbers, lines):
        value = json.loads(line)
        yield from _unknown(number, value, LINE_KEYS, "")
        for i, alert in enumerate(value.get("alerts") or []):
            yield from _unknown(number, alert, ALERT_KEYS, f"alerts[{i}].")
        if "silence" in value:
            yield from _unknown(number, value["silence"], SILENCE_KEYS, "silence.")
            for i, matcher in enumerate(value["silence"]["matchers"]):
                yield from _unknown(number, matcher, MATCHER_KEYS, f"silence.matchers[{i}].")


def _unknown(number: int, value: dict[str, Any], known: tuple[str, ...], path: str) -> Iterator[Finding]:
    for key in value:
        if key not in known:
            near = meant(key, known)
            if near:
                yield Finding(
                    WARNING, number, path + key, f"unknown key {key}, which is ignored", f"did you mean {near}?"
                )
