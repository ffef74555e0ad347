"""`amreplay diff`: what another configuration would have gained and lost."""

from __future__ import annotations

import argparse
import json
import sys
from typing import Any

from .arguments import add_output, add_script, parser_of
from .diff_text import text_of
from .inputs import Given, opened
from .moments import SECOND, moment_text
from .script import event_of
from .story import Mark, Story, story_of
from .story.differing import LOST, Difference, differences_of, moment_of
from .story.names import Names
from .why_json import span_as_json


def main(arguments: list[str]) -> int:
    """Prints how the replay differs under two configurations. The status is 1 if a notification is lost."""
    options = _options(arguments)
    with opened() as inputs:
        script = inputs.script(options.script)
        first, second = inputs.config(options.a, script), inputs.config(options.b, script)
        left_out: list[Mark] = []
        if options.ignore_reloads:
            before = story_of(inputs.source(first, script), first.value)
            left_out = [mark for mark in before.marks if mark.kind == "reload"]
            script = without_reloads(script)
        before, after = (story_of(inputs.source(each, script), each.value) for each in (first, second))
    differences = differences_of(before, after)
    names = (first.name, second.name, script.name)
    if options.output == "json":
        json.dump(_as_json(before, after, differences, left_out), sys.stdout, ensure_ascii=False, indent=1)
        print()
    else:
        print(text_of(names, before, after, differences, left_out, options.all), end="")
    return 1 if any(each.kind == LOST for each in differences) else 0


def without_reloads(script: Given) -> Given:
    """Returns a script with a blank line in place of each reload, so that the other lines keep their numbers."""
    lines = script.data.split(b"\n")
    return Given(script.name, b"\n".join(b"" if _is_reload(line) else line for line in lines))


def _is_reload(line: bytes) -> bool:
    """Returns whether a line is a reload. One that is no event is left for the program to refuse."""
    try:
        return b'"reload"' in line and event_of(line).act == "reload"
    except (ValueError, KeyError, StopIteration, TypeError):
        return False


def _options(arguments: list[str]) -> argparse.Namespace:
    parser = parser_of(
        "diff",
        "Replays a script under two configurations, and says for each alert and receiver what is lost, new, later and earlier under the second. "
        "The status is 1 if something is lost.",
    )
    parser.add_argument("a", metavar="A", help="the first configuration, as JSON or YAML")
    parser.add_argument("b", metavar="B", help="the second")
    add_script(parser)
    parser.add_argument(
        "--ignore-reloads",
        action="store_true",
        help="leave the script's reloads out; otherwise both runs go on under what they load",
    )
    parser.add_argument("--all", action="store_true", help="all entries, however many")
    add_output(parser, "the differences are")
    return parser.parse_args(arguments)


def _as_json(before: Story, after: Story, differences: list[Difference], left_out: list[Mark]) -> dict[str, Any]:
    reloads = [mark for mark in before.marks if mark.kind == "reload"]
    names = Names(before), Names(after)
    return {
        "reloads": {
            "kept": [moment_text(each.at) for each in reloads],
            "left_out": [moment_text(each.at) for each in left_out],
        },
        "notifications": {"before": before.receivers, "after": after.receivers},
        "differences": [_difference(each, names) for each in differences],
    }


def _difference(each: Difference, names: tuple[Names, Names]) -> dict[str, Any]:
    moments = [moment_of(told) for told in (each.before, each.after)]
    reasons = [
        [span_as_json(span, of) for span in told.reasons] if told else []
        for told, of in zip((each.before, each.after), names)
    ]
    return {
        "kind": each.kind,
        "labels": dict(each.alert),
        "fired": moment_text(each.firing.fired),
        "receiver": each.row.receiver,
        "integration": each.row.integration,
        "place": each.row.place,
        "before": None if moments[0] is None else moment_text(moments[0]),
        "after": None if moments[1] is None else moment_text(moments[1]),
        "gain": each.gain / SECOND,
        "reasons": {"before": reasons[0], "after": reasons[1]},
    }
