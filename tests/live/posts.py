"""Sets the posts of a captured script beside those that Prometheus really made."""

from __future__ import annotations

import json
import sys
from pathlib import Path
from typing import Any

sys.path.insert(0, str(Path(__file__).resolve().parents[2]))

from front.moments import SECOND, nanoseconds  # noqa: E402

Key = tuple[str, int, int]


def compared(log: Path, script: Path) -> str:
    """Returns how many alerts of real posts the script has with the same labels, start and end, and when."""
    lines = [json.loads(line) for line in script.read_text().splitlines()]
    last = nanoseconds(lines[-1]["at"])
    real = _moments((json.loads(line) for line in log.read_text().splitlines()), "receivedAt", "body")
    made = _moments((line for line in lines if "alerts" in line), "at", "alerts")
    real = {key: [at for at in moments if at <= last] for key, moments in real.items()}
    pairs = [pair for key in real.keys() & made.keys() for pair in zip(real[key], made[key])]
    count, made_count = (sum(map(len, each.values())) for each in (real, made))
    late = sorted(left - right for left, right in pairs)
    for word, one, other in (("only posted", real, made), ("only in the script", made, real)):
        for labels, start, end in sorted(key for key in one if len(one[key]) > len(other.get(key, []))):
            times = ", ".join(f"{at / SECOND % 3600:.3f}" for at in one[labels, start, end])
            print(f"{word}: {labels} {start / SECOND % 3600:.3f} {end / SECOND % 3600:.3f} at {times}")
    return (
        f"{count} alerts posted by Prometheus, {made_count} in the script; {len(pairs)} the same in labels, start and end,"
        f" posted {late[0] / SECOND:.3f} to {late[-1] / SECOND:.3f} s after their evaluation (median {late[len(late) // 2] / SECOND:.3f})"
    )


def _moments(posts: Any, at: str, alerts: str) -> dict[Key, list[int]]:
    """Returns at which moments each alert was posted with each start and end, rounded to milliseconds."""
    found: dict[Key, list[int]] = {}
    for post in posts:
        for alert in post[alerts]:
            if alert["labels"]["alertname"] != "BackupFailed":
                start, end = (nanoseconds(alert[key]) // 1_000_000 * 1_000_000 for key in ("startsAt", "endsAt"))
                key = json.dumps(alert["labels"], sort_keys=True), start, end
                found.setdefault(key, []).append(nanoseconds(post[at]))
    return {key: sorted(moments) for key, moments in found.items()}
