"""What is wrong or odd in a file: where, what, and what to write."""

from __future__ import annotations

import json
from dataclasses import dataclass
from typing import Any, Optional

ERROR, WARNING = "error", "warning"
VALUE_AT_MOST = 80


@dataclass(frozen=True)
class Finding:
    """A fault or an oddity: the line in the user's file if it is known, the path there, what is wrong, and what to write instead."""

    level: str
    line: Optional[int]
    path: str
    what: str
    write: str = ""

    def text(self, file: str) -> str:
        """Returns `FILE:LINE: error: PATH: WHAT; WRITE`."""
        location = f"{file}:{self.line}" if self.line else file
        path = f"{self.path}: " if self.path else ""
        return f"{location}: {self.level}: {path}{self.what}" + (f"; {self.write}" if self.write else "")


def value_text(value: Any) -> str:
    """Returns a value as JSON, cut if it is long."""
    text = json.dumps(value, ensure_ascii=False)
    return text if len(text) <= VALUE_AT_MOST else text[:VALUE_AT_MOST] + ".."
