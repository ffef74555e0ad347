"""A progress bar on standard error, where that is a terminal."""

from __future__ import annotations

import sys
import time
from typing import TextIO

from .telling import printable

WIDTH = 30
PAUSE = 0.1
LONGEST_NAME = 100


class Progress:
    """Draws how much of a task is done. It draws nothing where the stream is no terminal."""

    def __init__(self, stream: TextIO = sys.stderr) -> None:
        self._stream = stream
        self._shown = stream.isatty()
        self._last = 0.0

    def draw(self, task: str, done: int, total: int) -> None:
        """Draws the bar of a task, at most ten times a second."""
        if not self._shown or (done < total and time.monotonic() - self._last < PAUSE):
            return
        self._last = time.monotonic()
        filled = WIDTH * done // max(total, 1)
        bar = "#" * filled + "." * (WIDTH - filled)
        self._stream.write(f"\r\x1b[K{printable(task)[:LONGEST_NAME]} [{bar}] {done:,} of {total:,}")
        self._stream.flush()

    def clear(self) -> None:
        """Wipes the bar away."""
        if self._shown:
            self._stream.write("\r\x1b[K")
            self._stream.flush()
