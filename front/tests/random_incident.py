"""Makes small random incidents that are rich in what changes answers: time intervals, inhibition, silences, reloads, alerts without ends."""

from __future__ import annotations

import random
from typing import Any

from front.moments import MINUTE, SECOND, moment_text, nanoseconds

BEGIN = nanoseconds("2024-05-01T10:00:00Z")
NAMES, CLUSTERS, SEVERITIES = ("Down", "Full", "Slow"), ("eu", "us"), ("critical", "warning")


class Dice:
    """Throws for one incident."""

    def __init__(self, seed: int) -> None:
        self._dice = random.Random(seed)
        self._silences: list[str] = []

    def config(self) -> dict[str, Any]:
        """Returns a configuration."""
        return {
            "global": {"resolve_timeout": self.one_of("1m", "5m", "7m")},
            "route": {
                "receiver": "a",
                "group_by": self.some("alertname", "cluster", "severity"),
                **self.times(),
                "routes": self.routes(2),
            },
            "receivers": [
                {"name": "a", "webhook_configs": [{}]},
                {"name": "b", "slack_configs": [{"send_resolved": self.is_true()}], "email_configs": [{}, {}]},
                {"name": "c"},
            ],
            "inhibit_rules": [
                {
                    "source_matchers": [self.matcher()],
                    "target_matchers": [self.matcher()],
                    "equal": self.some("cluster", "severity"),
                }
                for _ in range(self.below(3))
            ],
            "time_intervals": [{"name": name, "time_intervals": [{"times": [self.interval()]}]} for name in ("x", "y")],
        }

    def routes(self, levels: int) -> list[dict[str, Any]]:
        return [self.route(levels) for _ in range(self.below(3) + (levels == 2))] if levels else []

    def route(self, levels: int) -> dict[str, Any]:
        route: dict[str, Any] = {
            "matchers": [self.matcher()],
            "receiver": self.one_of("a", "b", "b", "c"),
            "continue": self.is_true(),
        }
        if self.below(3) == 0:
            route["group_by"] = self.some("alertname", "cluster", "severity")
        if self.below(3) == 0:
            route[self.one_of("mute_time_intervals", "active_time_intervals")] = self.some("x", "y")
        return {**route, **(self.times() if self.is_true() else {}), "routes": self.routes(levels - 1)}

    def times(self) -> dict[str, str]:
        return {
            "group_wait": self.one_of("0s", "10s", "30s", "2m"),
            "group_interval": self.one_of("30s", "1m", "5m"),
            "repeat_interval": self.one_of("1m", "5m", "1h"),
        }

    def interval(self) -> dict[str, str]:
        start = self.below(60)
        return {"start_time": f"10:{start:02}", "end_time": f"1{1 if start + 5 > 59 else 0}:{(start + 5) % 60:02}"}

    def matcher(self) -> str:
        texts = (
            'alertname="Down"',
            'alertname=~"Down|Full"',
            'cluster="eu"',
            'severity!="critical"',
            'severity=~"crit.*"',
            'cluster!~"e."',
        )
        return self._dice.choice(texts)

    def events(self, count: int) -> list[dict[str, Any]]:
        """Returns the lines of a script, in order of their moments but for a few."""
        at, events = BEGIN, []
        for _ in range(count):
            at += self.one_of(0, SECOND, 10 * SECOND, 30 * SECOND, MINUTE, 3 * MINUTE) + self.one_of(
                0, 0, 0, 123_456_789
            )
            moment = at - MINUTE if self.below(40) == 0 else at
            events.append({"at": moment_text(max(moment, BEGIN)), **self.act(at)})
        return [*events, {"at": moment_text(at + 20 * MINUTE), "tick": True}]

    def act(self, at: int) -> dict[str, Any]:
        kind = self.below(20)
        if kind < 12:
            return {"alerts": [self.alert(at) for _ in range(1 + self.below(3))]}
        if kind < 15:
            return self.silence(at)
        if kind == 15 and self._silences:
            return {"expire": self._dice.choice(self._silences)}
        return {"reload": self.config()} if kind == 16 and self.is_true() else {"tick": True}

    def alert(self, at: int) -> dict[str, Any]:
        labels = {
            "alertname": self.one_of(*NAMES),
            "cluster": self.one_of(*CLUSTERS),
            "severity": self.one_of(*SEVERITIES),
        }
        alert: dict[str, Any] = {"labels": labels}
        if self.is_true():
            alert["startsAt"] = moment_text(at - self.one_of(0, SECOND, 5 * MINUTE))
        if self.below(3):
            alert["endsAt"] = moment_text(at + self.one_of(0, 5 * SECOND, MINUTE, 4 * MINUTE, 30 * MINUTE))
        return alert

    def silence(self, at: int) -> dict[str, Any]:
        new_id = f"5b1e0000-0000-4000-8000-{len(self._silences):012}"
        matchers = [{"name": "alertname", "value": self.one_of("Down|Fu.*", "Sl[o]w", "(?i)full"), "isRegex": True}]
        if self.is_true():
            matchers.append({"name": "cluster", "value": self.one_of(*CLUSTERS), "isEqual": self.is_true()})
        silence: dict[str, Any] = {"matchers": matchers, "startsAt": moment_text(at + self.one_of(0, MINUTE))}
        silence["endsAt"] = moment_text(at + self.one_of(2 * MINUTE, 5 * MINUTE, 20 * MINUTE))
        if self._silences and self.below(4) == 0:
            silence["id"] = self._dice.choice(self._silences)
        self._silences.append(new_id)
        return {"silence": silence, "newId": new_id}

    def some(self, *names: str) -> list[str]:
        return [name for name in names if self.is_true()]

    def one_of(self, *values: Any) -> Any:
        return self._dice.choice(values)

    def below(self, count: int) -> int:
        return self._dice.randrange(count)

    def is_true(self) -> bool:
        return self.below(2) == 0
