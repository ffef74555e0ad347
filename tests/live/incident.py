"""The incident that is played: what happens at which second."""

from __future__ import annotations

from datetime import datetime, timedelta, timezone
from typing import Callable

from servers import Servers

Step = tuple[float, Callable[[Servers], None], str]


def fire(host: str, name: str = "down") -> Callable[[Servers], None]:
    """Returns the step that makes an alert fire."""
    return lambda servers: servers.target.set(name, host, 1)


def end(host: str, name: str = "down") -> Callable[[Servers], None]:
    """Returns the step that makes an alert end."""
    return lambda servers: servers.target.set(name, host, 0)


def silence(host: str, seconds: int, comment: str) -> Callable[[Servers], None]:
    """Returns the step that silences a host for some seconds."""

    def act(servers: Servers) -> None:
        now = datetime.now(timezone.utc)
        matchers = [{"name": "host", "value": host, "isRegex": False, "isEqual": True}]
        body = {
            "matchers": matchers,
            "startsAt": now.isoformat(),
            "endsAt": (now + timedelta(seconds=seconds)).isoformat(),
            "createdBy": "sam",
            "comment": comment,
        }
        servers.post_silence(body)

    return act


def other(seconds: int) -> Callable[[Servers], None]:
    """Returns the step in which another sender posts an alert."""

    def act(servers: Servers) -> None:
        now = datetime.now(timezone.utc)
        ends = (now + timedelta(seconds=seconds)).isoformat()
        servers.post_alerts(
            [{"labels": {"alertname": "BackupFailed", "host": "h9"}, "startsAt": now.isoformat(), "endsAt": ends}]
        )

    return act


def steps(is_short: bool) -> list[Step]:
    """Returns the steps in order: the second at which each is due, what it does, and what to print."""
    first: list[Step] = [
        (12, fire("h1"), "h1 goes down"),
        (15, fire("h2"), "h2 goes down"),
        (16, fire("h1", "slow"), "h1 is slow: inhibited while it is down"),
        (20, fire("shop", "code500"), "the shop answers 500"),
        (24, fire("h3"), "h3 goes down"),
        (25, silence("h3", 30, "replacing its disk"), "h3 is silenced for 30 seconds"),
        (28, end("h2"), "h2 is up"),
        (34, fire("h2"), "h2 flaps"),
        (37, end("h2"), "h2 flaps"),
        (42, fire("h2"), "h2 goes down again"),
        (47, end("h1"), "h1 is up, and still slow"),
        (62, lambda servers: servers.restart_prometheus(1), "the second Prometheus is started again"),
        (80, end("shop", "code500"), "the shop recovers"),
        (88, end("h1", "slow"), "h1 is fast"),
        (95, end("h3"), "h3 is up"),
    ]
    if is_short:
        return [*first, (115, lambda _: None, "the end")]
    second: list[Step] = [
        (100, other(400), "another sender posts an alert"),
        (104, fire("h4"), "h4 goes down"),
        (107, silence("h4", 600, "ended by hand"), "h4 is silenced for long"),
        (109, fire("h5", "slow"), "h5 is slow"),
        (128, lambda servers: servers.expire_silences("ended by hand"), "h4's silence is ended"),
        (135, end("h2"), "h2 is up"),
        (140, fire("shop", "code500"), "the shop answers 500 again"),
        (150, lambda servers: servers.restart_both(), "both Prometheus servers are started again, while h4 is down"),
        (185, end("h4"), "h4 is up"),
        (190, fire("h6"), "h6 goes down"),
        (196, end("h6"), "h6 flaps"),
        (202, fire("h6"), "h6 flaps"),
        (208, end("h6"), "h6 is up"),
        (215, end("h5", "slow"), "h5 is fast"),
        (220, end("shop", "code500"), "the shop recovers"),
        (250, lambda _: None, "the end"),
    ]
    return first + second
