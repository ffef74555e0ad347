"""`amreplay expect`: tests a configuration against what is expected of it."""

from __future__ import annotations

import argparse
import json
import os
import sys
from pathlib import Path

from .arguments import add_config, add_output, add_script, parser_of
from .expectations import Failure, expectations_in, failures_of, recorded
from .inputs import opened, shown
from .program import Fault
from .story import story_of
from .telling import count_text, printable


def main(arguments: list[str]) -> int:
    """Tests the expectations, or records them. The status is 1 if one fails."""
    options = _options(arguments)
    with opened() as inputs:
        script = inputs.script(options.script)
        config = inputs.config(options.config, script)
        expected = None if options.record else inputs.read(options.expectations)
        expectations = [] if expected is None else expectations_in(_text(expected.data, expected.name), expected.name)
        story = story_of(inputs.source(config, script), config.value)
    if expected is None:
        lines = [json.dumps(each, ensure_ascii=False, separators=(",", ":")) + "\n" for each in recorded(story)]
        return _record(lines, options.expectations)
    failures = failures_of(story, expectations)
    if options.output == "json":
        _print_json(failures, len(expectations))
    else:
        _print(failures, len(expectations), expected.name)
    return 1 if failures else 0


def _options(arguments: list[str]) -> argparse.Namespace:
    parser = parser_of(
        "expect",
        "Tests a configuration: each line of EXPECTATIONS says which receiver is notified of which alerts by when, or never. "
        "The status is 1 if one fails, with the reason.",
        epilog='A line: {"labels":{"alertname":"X"},"receiver":"pager","by":"2024-05-01T10:05:00Z"}, or "never":true in place of "by". '
        'A part of the labels suffices; "integration" and "after" may be there too. docs/EXPECT.md has an example for CI.',
    )
    add_config(parser)
    add_script(parser)
    parser.add_argument(
        "expectations", metavar="EXPECTATIONS", help="the expectations, one on each line; - is standard input or output"
    )
    parser.add_argument(
        "--record", action="store_true", help="write what happens now to EXPECTATIONS, which isn't there yet"
    )
    add_output(parser, "failures are")
    return parser.parse_args(arguments)


def _text(data: bytes, name: str) -> str:
    try:
        return data.decode()
    except UnicodeDecodeError as error:
        raise Fault(f"amreplay: {name}: no UTF-8, at byte {error.start + 1}") from error


def _record(lines: list[str], path: str) -> int:
    """Writes expectations, whole or not at all, and over no file that is there."""
    if path == "-":
        sys.stdout.write("".join(lines))
        return 0
    if os.path.lexists(path):
        raise Fault(f"amreplay: {shown(path)} is there already; remove it to record anew")
    part = Path(f"{path}.part")
    try:
        part.write_text("".join(lines), "utf-8")
        part.replace(path)
    except OSError as error:
        raise Fault(f"amreplay: cannot write {shown(path)}: {error.strerror}") from error
    print(f"{count_text(len(lines), 'expectation')} recorded in {shown(path)}")
    return 0


def _print(failures: list[Failure], count: int, name: str) -> None:
    failed = {failure.expectation.line for failure in failures}
    for failure in failures:
        each = failure.expectation
        receiver = f"{each.receiver} ({each.integration})" if each.integration else each.receiver
        print(printable(f"{name}:{each.line}: {receiver}: {failure.what}"))
        for line in failure.reasons:
            print(printable(line))
    print(f"{count - len(failed)} of {count_text(count, 'expectation')} met")


def _print_json(failures: list[Failure], count: int) -> None:
    listed = [
        {
            "line": failure.expectation.line,
            "receiver": failure.expectation.receiver,
            "labels": dict(failure.expectation.labels),
            "what": failure.what,
            "reasons": [line.strip() for line in failure.reasons],
        }
        for failure in failures
    ]
    json.dump({"expectations": count, "failures": listed}, sys.stdout, ensure_ascii=False, indent=1)
    print()
