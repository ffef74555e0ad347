"""What the words' options have in common."""

from __future__ import annotations

import argparse

from .moments import length_of


def parser_of(
    word: str, description: str, epilog: str = "docs/WORDS.md describes the words."
) -> argparse.ArgumentParser:
    """Returns the parser of a word's arguments."""
    return argparse.ArgumentParser(prog=f"amreplay {word}", description=description, epilog=epilog, allow_abbrev=False)


def add_config(parser: argparse.ArgumentParser) -> None:
    """Adds CONFIG."""
    parser.add_argument("config", metavar="CONFIG", help="the configuration, as YAML or JSON; - is standard input")


def add_script(parser: argparse.ArgumentParser) -> None:
    """Adds SCRIPT."""
    parser.add_argument("script", metavar="SCRIPT", help="what happened, an event on each line; - is standard input")


def add_output(parser: argparse.ArgumentParser, what: str) -> None:
    """Adds --output for what is printed, as `amtool` and `promtool` have it, and --json."""
    parser.add_argument("--output", choices=("text", "json"), default="text", help=f"how {what} printed (text)")
    parser.add_argument("--json", dest="output", action="store_const", const="json", help="the same as --output json")


def duration(text: str) -> int:
    """Reads a duration such as 1m30s."""
    length = length_of(text)
    if length is None:
        raise argparse.ArgumentTypeError(f"{text} is no duration such as 1m30s")
    return length
