"""The program's own forms, `check`, `run` and `session`, where CONFIG isn't a file of JSON, and `run --text`. The launcher starts the program
itself for all others."""

from __future__ import annotations

import argparse
from pathlib import Path

from .arguments import add_config, add_script, parser_of
from .inputs import STANDARD_INPUT, opened
from .program import Fault, Program
from .run_text import text_of
from .story.times import DAYS_AFTER

EPILOG = "docs/FORMATS.md describes what is read and printed."


def check(arguments: list[str]) -> int:
    """Has the program check a configuration."""
    parser = parser_of("check", "Validates the configuration, and prints how much it has.", EPILOG)
    add_config(parser)
    return _become("check", parser.parse_args(arguments).config)


def run(arguments: list[str]) -> int:
    """Has the program run a script. With --text its lines are written anew, as it prints them."""
    parser = _parser("run", "Runs all events of the script, and prints their lines.")
    parser.add_argument("--text", action="store_true", help="lines to read, and not JSON")
    options = parser.parse_args(arguments)
    if not options.text:
        return _become("run", options.config, options.script)
    with opened() as inputs:
        script = inputs.script(options.script)
        config = inputs.config(options.config, script)
        for line in text_of(Program.found().lines(inputs.source(config, script)), config.value, script.data):
            print(line, flush=True)
    return 0


def session(arguments: list[str]) -> int:
    """Has the program answer commands."""
    options = _parser("session", "Reads commands from standard input, and prints their answers.").parse_args(arguments)
    if STANDARD_INPUT in (options.config, options.script):
        raise Fault("amreplay: standard input has the commands of a session, and no file", 2)
    return _become("session", options.config, options.script)


def _parser(form: str, description: str) -> argparse.ArgumentParser:
    parser = parser_of(form, description, EPILOG)
    add_config(parser)
    add_script(parser)
    return parser


def _become(form: str, config_path: str, script_path: str | None = None) -> int:
    """Becomes the program, with a configuration that it can read. JSON it judges in its own words; of other files `lint` says what is wrong."""
    scripts: list[str | bytes] = []
    with opened() as inputs:
        config = inputs.config_as_it_is(config_path)
        if script_path is not None:
            scripts.append("/dev/stdin" if script_path == STANDARD_INPUT else script_path)
        if not config.reading.is_json:
            script = inputs.script(script_path) if script_path is not None and config.may_have_zones else None
            if script is not None:
                scripts = [script.data]
            config = inputs.in_utc(config, script, DAYS_AFTER if form == "session" else 0)
            inputs.check(config)
        data = Path(config.path).read_bytes()
    Program.found().become(form, data, *scripts)
