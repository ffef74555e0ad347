"""`amreplay why`: who was notified when, who wasn't, and why."""

from __future__ import annotations

import argparse
import dataclasses
import json
import sys
from typing import Optional

from .arguments import add_config, add_output, add_script, duration, parser_of
from .inputs import opened
from .labels import contains, labels_in
from .meant import did_you_mean
from .program import Fault
from .story import Pairs, Story, story_of
from .story.reasons import reasons_of
from .story.sections import LATE_AFTER
from .why_json import as_json
from .why_text import Telling, text_of, told_in_full


def main(arguments: list[str]) -> int:
    """Prints the story of a script under a configuration."""
    options = _options(arguments)
    with opened() as inputs:
        script = inputs.script(options.script)
        config = inputs.config(options.config, script)
        source = inputs.source(config, script)
        story = story_of(source, config.value)
        part = labels_in(options.alert, "--alert") if options.alert else None
        _check_receiver(story, options.receiver)
        kept = _with_labels(story, part) if part is not None else story
        is_json = options.output == "json"
        telling = Telling(options.late, options.receiver, part is not None or options.all or is_json)
        reasons = reasons_of(source, story, told_in_full(kept, telling))
    if is_json:
        told = as_json(story, kept, options.late, options.receiver, reasons)
        json.dump(told, sys.stdout, ensure_ascii=False, indent=1)
        print()
    else:
        print(text_of(story, kept, telling, reasons), end="")
    return 0


def _options(arguments: list[str]) -> argparse.Namespace:
    parser = parser_of(
        "why",
        "Says of each alert and receiver when the first notification was, how late, and why not before or not at all.",
    )
    add_config(parser)
    add_script(parser)
    parser.add_argument(
        "--alert",
        metavar="LABELS",
        help="alerts with these labels alone, in full: a part of their labels suffices, or a name",
    )
    parser.add_argument("--receiver", metavar="RECEIVER", help="this receiver alone")
    parser.add_argument(
        "--late",
        metavar="DURATION",
        type=duration,
        default=LATE_AFTER,
        help="later than this, besides group_wait, is late (2m)",
    )
    parser.add_argument("--all", action="store_true", help="all entries, however many, and all reasons")
    add_output(parser, "the story is")
    return parser.parse_args(arguments)


def _check_receiver(story: Story, receiver: Optional[str]) -> None:
    if receiver is not None and receiver not in story.receivers:
        raise Fault(f"amreplay: --receiver: no route names {receiver}{did_you_mean(receiver, story.receivers)}", 2)


def _with_labels(story: Story, part: Pairs) -> Story:
    """Returns the story with those alerts alone that have some labels."""
    alerts = [alert for alert in story.alerts if contains(alert.labels, part)]
    if not alerts:
        raise Fault(
            f"amreplay: --alert: none of the {len(story.alerts)} alerts has all of these labels{_nearest(story, part)}",
            2,
        )
    return dataclasses.replace(story, alerts=alerts)


def _nearest(story: Story, part: Pairs) -> str:
    """Says how many alerts have each of some labels, so that the wrong one is seen."""
    if not part:
        return ""
    counts = [(name, value, sum((name, value) in alert.labels for alert in story.alerts)) for name, value in part]
    hint = ", ".join(f'{name}="{value}" {count}' for name, value, count in counts)
    name, value, count = counts[0] if len(counts) == 1 else ("", "", 1)
    values = {dict(alert.labels).get(name, "") for alert in story.alerts} if not count else set()
    return f" ({hint}){did_you_mean(value, values)}"
