"""What the tests share: the program, the files, and the session's own lines, asked for plainly."""
from __future__ import annotations

import json
import os
import re
import subprocess
import sys
import tempfile
import unittest
from pathlib import Path
from typing import Any

TOP = Path(__file__).resolve().parents[3]
EXAMPLES = TOP / "examples"
PROGRAM = os.environ.get("AMREPLAY_PROGRAM", str(TOP / "amreplay"))
PAGE = [sys.executable, "-B", "-m", "front", "page"]
ENVIRONMENT = {**os.environ, "PYTHONPATH": str(TOP), "AMREPLAY_PROGRAM": PROGRAM}
LISTS = ("alerts", "silences", "groups", "log")
HOSTILE = (
    "</script><script>window.hostile=1</script>",
    "<img src=x onerror='window.hostile=2'>",
    "\"'`${window.hostile=3}\\",
    "a\nb\r\tc\u2028d\u2029e",
    "\u202egnp.elif\u202c \u05d0\u05d1\u05d2",
    "]]><!--<script>",
    "__proto__",
    "constructor",
    "&lt;b&gt;&#60;",
    "\u0000\u0007\u007f\u0085\ufeff",
    "x" * 5000,
    "\U0001f525 caf\u00e9",
)


class Session:
    """The session's own answers at each event, each command asked plainly in its turn."""

    def __init__(self, config: Path, script: Path) -> None:
        self.config, self.script = config, script

    def ask(self, commands: list[str]) -> list[tuple[list[str], dict[str, Any]]]:
        done = subprocess.run(
            [PROGRAM, "session", str(self.config), str(self.script)],
            input="".join(command + "\n" for command in commands).encode(),
            capture_output=True,
            check=True,
        )
        answers: list[tuple[list[str], dict[str, Any]]] = []
        lines: list[str] = []
        for line in done.stdout.decode().split("\n")[:-1]:
            if line.startswith('{"command":'):
                answers.append((lines, json.loads(line)))
                lines = []
            else:
                lines.append(line)
        return answers

    def states(self) -> list[dict[str, list[str]]]:
        """Returns the lines of each list at each cursor from 0 on, and what the event there printed."""
        count = self.ask(["cursor"])[0][1]["events"]
        answers = self.ask([*LISTS, *(command for _ in range(count) for command in ("step", *LISTS))])
        states: list[dict[str, list[str]]] = [{**dict(zip(LISTS, [lines for lines, _ in answers[:4]])), "printed": []}]
        for i in range(4, len(answers), 5):
            lines = [each for each, _ in answers[i : i + 5]]
            states.append(dict(zip(LISTS, lines[1:]), printed=lines[0]))
        return states

    def explanations(self, alerts: list[dict[str, str]], count: int) -> list[list[list[str]]]:
        """Returns the explanation of each alert at each cursor from 0 to a count."""
        asked = ["explain " + json.dumps(labels) for labels in alerts]
        answers = [
            lines for lines, _ in self.ask([*asked, *(command for _ in range(count) for command in ("step", *asked))])
        ]
        size = len(asked)
        return [answers[:size]] + [answers[size + 1 + i * (size + 1) :][:size] for i in range(count)]


def page_of(*words: Any) -> tuple[int, str, str]:
    """Runs `amreplay page` and returns its status and what it printed."""
    done = subprocess.run([*PAGE, *map(str, words)], capture_output=True, check=False, env=ENVIRONMENT)
    return done.returncode, done.stdout.decode(), done.stderr.decode()


def data_of(page: str) -> dict[str, Any]:
    """Returns the data of a page."""
    found = re.search(r'<script type="application/json" id="data">(.*?)</script>', page, re.S)
    assert found
    data: dict[str, Any] = json.loads(found[1])
    return data


def hostile_files(room: Path) -> tuple[Path, Path]:
    """Writes a configuration and a script whose texts are hostile wherever a text may stand."""
    receivers = [{"name": text, "webhook_configs": [{}]} for text in HOSTILE]
    routes = [{"match": {"n": str(i)}, "receiver": text} for i, text in enumerate(HOSTILE)]
    route = {"receiver": HOSTILE[0], "group_by": ["alertname", *HOSTILE], "routes": routes, "group_wait": "1s"}
    at = "2024-05-01T10:00:00Z"
    alerts = [
        {
            "labels": {"alertname": text, "n": str(i), text: text},
            "annotations": {text: text},
            "startsAt": at,
            "endsAt": "2024-05-01T10:03:00Z",
        }
        for i, text in enumerate(HOSTILE)
    ]
    matchers = [{"name": text, "value": text} for text in HOSTILE[:4]]
    silence = {"matchers": matchers, "startsAt": "2024-05-01T10:00:00Z", "endsAt": "2024-05-01T11:00:00Z"}
    events = [
        {"at": at, "alerts": alerts},
        {"at": at, "silence": silence, "newId": "00000000-0000-4000-8000-000000000001"},
        {"at": "2024-05-01T10:01:00Z", "tick": True},
        {"at": "2024-05-01T10:10:00Z", "tick": True},
    ]
    config, script = room / "config.json", room / "script.jsonl"
    config.write_text(json.dumps({"route": route, "receivers": receivers}))
    script.write_text("".join(json.dumps(event) + "\n" for event in events))
    return config, script


class WithRoom(unittest.TestCase):
    """A test with a folder of its own."""

    def setUp(self) -> None:
        room = tempfile.TemporaryDirectory()
        self.addCleanup(room.cleanup)
        self.room = Path(room.name)

    def files(self, config: Any, events: list[Any]) -> tuple[Path, Path]:
        """Writes a configuration and a script, and returns their paths."""
        paths = self.room / "config.json", self.room / "script.jsonl"
        paths[0].write_text(json.dumps(config))
        paths[1].write_text("".join(json.dumps(event) + "\n" for event in events))
        return paths
