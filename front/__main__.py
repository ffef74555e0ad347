"""Runs one word: `python3 -m front WORD ..`. The launcher `./amreplay` does so."""

from __future__ import annotations

import io
import os
import signal
import sys
from types import FrameType

from .program import Fault
from .words import FORMS, WORDS, load, usage

INTERRUPTED = 130


def main(arguments: list[str]) -> int:
    """Prepares the process, and runs the word that comes first."""
    for number in (signal.SIGTERM, signal.SIGHUP):
        if signal.getsignal(number) == signal.SIG_DFL:
            signal.signal(number, _end)
    # Characters that the output can't have are written by number.
    if isinstance(sys.stdout, io.TextIOWrapper):
        sys.stdout.reconfigure(errors="backslashreplace")
    return answer(arguments)


def _end(number: int, _frame: FrameType | None) -> None:
    """Lets a signal that asks for an end leave nothing behind."""
    sys.exit(128 + number)


def answer(arguments: list[str]) -> int:
    """Runs the word that comes first, and returns its status. A fault is one line on standard error, and an interrupt nothing."""
    if not arguments or arguments[0] not in (*WORDS, *FORMS):
        print(usage(), file=sys.stderr)
        return 2
    try:
        status = load(arguments[0])(arguments[1:])
        sys.stdout.flush()
        return status
    except Fault as fault:
        print(fault.line, file=sys.stderr)
        return fault.status
    except KeyboardInterrupt:
        return INTERRUPTED
    except OSError as error:
        if not isinstance(error, BrokenPipeError):
            print(f"amreplay: {error.filename or 'cannot write'}: {error.strerror}", file=sys.stderr)
        # What is still to be written has nowhere to go.
        os.dup2(os.open(os.devnull, os.O_WRONLY), sys.stdout.fileno())
        return 1


if __name__ == "__main__":
    sys.exit(main(sys.argv[1:]))
