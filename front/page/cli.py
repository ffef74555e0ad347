"""The words of `amreplay page`, and how the page is written."""

from __future__ import annotations

import gc
import os
import sys
import tempfile
from pathlib import Path

from ..arguments import add_config, add_script, parser_of
from ..labels import labels_in
from .making import Options, make


def main(words: list[str]) -> int:
    """Writes the page that the words ask for, whole or not at all, and returns the status."""
    # What is collected stays until the page is written, and has no cycles to look for.
    gc.disable()
    options = read_words(words)
    options.named = [labels_in(text, "--explain") for text in options.explain]
    return _write(make(options), options.output)


def read_words(words: list[str]) -> Options:
    """Reads the words. Faulty ones end the program with status 2."""
    parser = parser_of("page", "Writes one self-contained page of an incident.", "docs/PAGE.md describes the page.")
    add_config(parser)
    add_script(parser)
    add = parser.add_argument
    add("--output", metavar="FILE", help="write the page to FILE, and not to standard output")
    add("--title", metavar="TEXT", help="the page's title")
    add("--against", metavar="OTHER_CONFIG", help="replay the script under this configuration too, and compare")
    add("--ignore-reloads", action="store_true", help="leave the script's reloads out")
    add("--try", dest="tried", metavar="EVENT", help="a line of a script that never happened: what would it have done?")
    add("--from", dest="start", metavar="POSITION", help="the first event of the page: its number, or a moment")
    add("--to", dest="end", metavar="POSITION", help="the last event of the page: its number, or a moment")
    add(
        "--explain",
        metavar="LABELS",
        action="append",
        default=[],
        help="choose the alerts with these labels first, and explain them at every event",
    )
    return parser.parse_args(words, Options())


def _write(text: str, output: str | None) -> int:
    """Writes the page to standard output, or to a file that is there whole or not at all."""
    try:
        if output is None:
            sys.stdout.buffer.write(text.encode())
            sys.stdout.buffer.flush()
        else:
            _write_file(text.encode(), Path(output))
    except OSError as error:
        print(f"amreplay: cannot write: {error.strerror}", file=sys.stderr)
        return 1
    return 0


def _write_file(text: bytes, output: Path) -> None:
    handle, name = tempfile.mkstemp(dir=output.parent, prefix=output.name, suffix=".part")
    try:
        with os.fdopen(handle, "wb") as file:
            file.write(text)
        os.chmod(name, 0o666 & ~_umask())
        os.replace(name, output)
    except OSError:
        os.unlink(name)
        raise


def _umask() -> int:
    mask = os.umask(0)
    os.umask(mask)
    return mask
