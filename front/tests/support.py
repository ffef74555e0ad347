"""What the tests share: the program, folders, and the incidents of the repository."""

from __future__ import annotations

import contextlib
import io
import json
import tempfile
import unittest
from pathlib import Path
from typing import Any, Iterator

from front.__main__ import answer
from front.program import Program, Source

TOP = Path(__file__).resolve().parent.parent.parent
INCIDENT = Path(__file__).resolve().parent / "incident"


class WithRoom(unittest.TestCase):
    """A test with a folder of its own, in which files are written by name."""

    def setUp(self) -> None:
        self._room = tempfile.TemporaryDirectory()
        self.addCleanup(self._room.cleanup)
        self.room = Path(self._room.name)

    def write(self, name: str, text: str) -> str:
        path = self.room / name
        path.write_text(text, "utf-8")
        return str(path)

    def write_json(self, name: str, value: Any) -> str:
        return self.write(name, json.dumps(value))

    def write_lines(self, name: str, values: list[Any]) -> str:
        return self.write(name, "".join(json.dumps(value) + "\n" for value in values))

    def source(self, config: Any, events: list[Any]) -> Source:
        return Program.found().source(self.write_json("config.json", config), self.write_lines("script.jsonl", events))


def run_word(*words: str) -> tuple[int, str, str]:
    """Returns the status of a word, and what it printed on standard output and standard error."""
    out, errors = io.StringIO(), io.StringIO()
    with contextlib.redirect_stdout(out), contextlib.redirect_stderr(errors):
        try:
            status = answer(list(words))
        except SystemExit as end:
            status = int(end.code or 0)
    return status, out.getvalue(), errors.getvalue()


def incidents() -> Iterator[tuple[str, Path, Path]]:
    """Yields the name, the configuration and the script of the incidents and examples that the program accepts."""
    for folder in sorted([*TOP.glob("incidents/*/*"), *TOP.glob("examples/*"), INCIDENT]):
        config, script = folder / "config.json", folder / "script.jsonl"
        if config.exists() and script.exists() and script.stat().st_size < 200_000 and not (folder / "status").exists():
            yield folder.name, config, script
