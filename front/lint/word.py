"""`amreplay lint`: what is wrong or odd in a configuration or a script, where, and what to write."""

from __future__ import annotations

import argparse
import json
import sys
from pathlib import Path
from typing import Iterator

from ..arguments import add_config, add_output, parser_of
from ..config.yaml_config import Reading
from ..inputs import Config, Given, opened
from ..program import Counts, Fault, Program, converse
from ..refusals import refused_event
from ..script import event_of, script_of
from ..telling import count_text, printable
from .findings import ERROR, WARNING, Finding
from .odd import oddities, unknown_keys
from .refused import explain
from .scripts import explain_script, unknown_keys_of
from .values import words_for


def main(arguments: list[str]) -> int:
    """Prints what is found. The status is 1 if the program refuses a file, or with --lint-fatal if anything is found."""
    options = _options(arguments)
    with opened() as inputs:
        script = inputs.script(options.script) if options.script is not None else None
        config = inputs.config_as_it_is(options.config)
        zones = [*_zones(config)]
        config = inputs.in_utc(config, script)
        counts, found = lint_config(config)
        listed = [(config.name, each) for each in [*(zones if config.in_zones else []), *found]]
        if script is not None:
            if counts is None:
                usable = Config(
                    script.name, config.reading, inputs.write(b'{"route":{"receiver":"r"},"receivers":[{"name":"r"}]}')
                )
                listed += [
                    (script.name, each)
                    for each in _refused_script(Program.found(), usable, script, inputs.write(script.data))
                ]
            else:
                listed += [(script.name, each) for each in lint_script(config, script, inputs.write(script.data))]
    _print(listed, counts, config.name, options.output)
    is_wrong = any(each.level == ERROR for _, each in listed)
    return 1 if is_wrong or (listed and options.lint_fatal) else 0


def _options(arguments: list[str]) -> argparse.Namespace:
    parser = parser_of(
        "lint",
        "Says what the program refuses in a configuration or a script, in which line, and what to write; and what is odd: keys that nobody knows, "
        "receivers and time intervals that no route uses, routes that no alert reaches, rules that mute everything.",
    )
    add_config(parser)
    parser.add_argument(
        "script",
        metavar="SCRIPT",
        nargs="?",
        help="a script; the events that are refused under the configuration are found too",
    )
    parser.add_argument("--lint-fatal", action="store_true", help="warnings give the status 1 too")
    add_output(parser, "findings are")
    return parser.parse_args(arguments)


def _nearly_json(config: Config) -> list[Finding]:
    """Returns what keeps a file from being JSON that begins as JSON, and that YAML reads. The launcher knows YAML by its name too."""
    data = config.reading.original
    if config.reading.is_json or not data.lstrip().startswith(b"{") or config.name.endswith((".yml", ".yaml")):
        return []
    try:
        json.loads(data)
    except json.JSONDecodeError as fault:
        what = f"no JSON: {fault.msg} at column {fault.colno}"
        return [
            Finding(
                WARNING,
                fault.lineno,
                "",
                what,
                "the words beside the program read it as YAML, but check, run and session refuse it",
            )
        ]
    except UnicodeDecodeError:
        pass
    return []


def _zones(config: Config) -> Iterator[Finding]:
    """Yields where time intervals have a zone."""
    for key in ("mute_time_intervals", "time_intervals"):
        listed = config.value.get(key)
        for i, interval in enumerate(listed if isinstance(listed, list) else []):
            members = interval.get("time_intervals") if isinstance(interval, dict) else None
            for j, member in enumerate(members if isinstance(members, list) else []):
                zone = member.get("location") if isinstance(member, dict) else None
                if zone not in (None, "", "UTC"):
                    path = f"{key}[{i}].time_intervals[{j}].location"
                    what, write = words_for(path, zone, config.value)
                    yield Finding(WARNING, config.reading.line_of(path), path, what, write)


def lint_config(config: Config) -> tuple[Counts | None, list[Finding]]:
    """Returns the program's counts, or None if it refuses the configuration, and the findings."""
    found = [*_nearly_json(config), *unknown_keys(config.reading)]
    try:
        counts = Program.found().check(config.path, config.name)
    except Fault as fault:
        if fault.refusal is None:
            raise
        return None, [*explain(fault.refusal, config.reading), *found]
    return counts, [*found, *oddities(config.reading)]


def lint_script(config: Config, script: Given, path: str) -> list[Finding]:
    """Returns the findings of a script under a configuration that the program accepts."""
    program = Program.found()
    found = _refused_script(program, config, script, path)
    if found:
        return found
    lines = script_of(script.data)
    found += unknown_keys_of(lines.lines, lines.numbers)
    for line in program.run(program.source(config.path, path, config.name, script.name)):
        if "reason" in line:
            number, event = lines.numbers[line["event"] - 1], event_of(lines.lines[line["event"] - 1])
            found.append(Finding(WARNING, number, event.act, refused_event(line["reason"], event.act)))
            if event.act == "reload":
                found += _refused_reload(program, event.value, number, path)
        elif "skipped" in line:
            listed = ", ".join(map(str, line["skipped"]))
            found.append(
                Finding(
                    WARNING,
                    lines.numbers[line["event"] - 1],
                    "alerts",
                    f"skipped, since they are invalid: {listed}, counted from 1",
                )
            )
    return sorted(found, key=lambda each: each.line or 0)


def _refused_reload(program: Program, value: object, number: int, path: str) -> list[Finding]:
    """Returns why the program refuses the configuration of a reload, or nothing if that isn't why."""
    try:
        program.check(_written(f"{path}-reload", value))
    except Fault as fault:
        if fault.refusal is not None:
            found = explain(fault.refusal, Reading(value))
            return [Finding(WARNING, number, f"reload: {each.path}", each.what, each.write) for each in found]
    return []


def _written(path: str, value: object) -> str:
    Path(path).write_text(json.dumps(value), "utf-8")
    return path


def _refused_script(program: Program, config: Config, script: Given, path: str) -> list[Finding]:
    try:
        for _ in converse(program.source(config.path, path, config.name, script.name), ["cursor"]):
            pass
    except Fault as fault:
        if fault.refusal is None or fault.refusal.file != "script":
            raise
        return explain_script(fault.refusal, script.data)
    return []


def _print(listed: list[tuple[str, Finding]], counts: Counts | None, name: str, output: str) -> None:
    if output == "json":
        found = [{"file": file, **vars(each)} for file, each in listed]
        json.dump(
            {"counts": vars(counts) if counts else None, "findings": found}, sys.stdout, ensure_ascii=False, indent=1
        )
        print()
        return
    for file, each in listed:
        print(printable(each.text(file)))
    levels = [each.level for _, each in listed]
    told = f"{count_text(levels.count(ERROR), 'error')}, {count_text(levels.count(WARNING), 'warning')}"
    parts = (
        ""
        if counts is None
        else ", ".join(count_text(getattr(counts, key), key[:-1]) for key in ("receivers", "routes", "rules")) + "; "
    )
    print(printable(f"{name}: {parts}{told}"))
