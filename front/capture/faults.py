"""The faults of a capture: each is one line, and ends the capture before anything is written."""

from __future__ import annotations

import re
import signal
import threading
import types
from contextlib import contextmanager
from typing import Iterator

from ..program import Fault

CHARACTERS_AT_MOST = 300


def fault(text: str, status: int = 1) -> Fault:
    """Returns the fault with a text, in one line that a terminal can show."""
    return Fault(f"amreplay: capture: {one_line(text)}", status)


def one_line(text: str) -> str:
    """Returns a text in one line without control characters, and cut where it is long."""
    shown = re.sub(r"[\x00-\x1f\x7f-\x9f\u2028\u2029\u202a-\u202e\u2066-\u2069]+", " ", text).strip()
    return shown if len(shown) <= CHARACTERS_AT_MOST else shown[:CHARACTERS_AT_MOST] + ".."


@contextmanager
def time_limit(seconds: float, text: str) -> Iterator[None]:
    """Ends a block with a fault if it takes longer than some seconds, wherever it waits."""

    def end(_signal: int, _frame: types.FrameType | None) -> None:
        raise fault(text)

    if threading.current_thread() is not threading.main_thread():
        yield
        return
    before = signal.signal(signal.SIGALRM, end)
    signal.setitimer(signal.ITIMER_REAL, seconds)
    try:
        yield
    finally:
        signal.setitimer(signal.ITIMER_REAL, 0)
        signal.signal(signal.SIGALRM, before)
