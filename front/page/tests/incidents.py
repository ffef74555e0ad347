"""Small incidents that the tests of the page make."""
from __future__ import annotations

from typing import Any

SILENCE = "7f2c9a10-3d4e-4b6a-9c1d-2e5f8a7b6c01"
DAY = "2024-05-01T"


def config(
    *routes: dict[str, Any], receivers: tuple[str, ...] = ("ops", "team", "quiet"), **more: Any
) -> dict[str, Any]:
    """Returns a configuration with a webhook for each receiver. The root notifies the first one."""
    listed = [{"name": name, "webhook_configs": [{"url": "http://localhost/"}]} for name in receivers]
    root = {
        "receiver": receivers[0],
        "group_by": ["alertname"],
        "group_wait": "30s",
        "group_interval": "5m",
        "routes": list(routes),
    }
    return {"route": root, "receivers": listed, **more}


def alert(name: str, start: str, end: str, **labels: str) -> dict[str, Any]:
    return {"labels": {"alertname": name, **labels}, "startsAt": moment(start), "endsAt": moment(end)}


def post(at: str, *alerts: dict[str, Any]) -> dict[str, Any]:
    return {"at": moment(at), "alerts": list(alerts)}


def tick(at: str) -> dict[str, Any]:
    return {"at": moment(at), "tick": True}


def silence(at: str, end: str, name: str, new_id: str = SILENCE, **more: Any) -> dict[str, Any]:
    matchers = [{"name": "alertname", "value": name}]
    value = {
        "matchers": matchers,
        "startsAt": moment(at),
        "endsAt": moment(end),
        "createdBy": "marie",
        "comment": "deploy",
    }
    return {"at": moment(at), "silence": {**value, **more}, "newId": new_id}


def moment(text: str) -> str:
    """Returns a moment: a time of one day, or a whole one."""
    return text if "T" in text else f"{DAY}{text}:00Z" if len(text) == 5 else f"{DAY}{text}Z"


# A silence of an hour within a gap of hours between two events.
GAP = [
    silence("09:00", "11:00", "HighLatency"),
    post("10:00", alert("HighLatency", "10:00", "20:00", cluster="eu")),
    tick("14:00"),
]
