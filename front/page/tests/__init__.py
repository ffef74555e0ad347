"""Tests, with the program that AMREPLAY_PROGRAM names, or the one that is built already: a test never builds it."""

import os
from pathlib import Path

BUILT = Path(__file__).resolve().parents[3] / "crates" / "amreplay" / "out" / "amreplay"
os.environ.setdefault("AMREPLAY_PROGRAM", str(BUILT))
