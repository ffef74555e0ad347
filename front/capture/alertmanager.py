"""What an Alertmanager has kept: its configuration, silences, and the alerts that are stored now."""

from __future__ import annotations

import uuid
from dataclasses import dataclass
from typing import Any

from .answers import Answer
from .servers import Server


@dataclass(frozen=True)
class Silence:
    """A silence as the API has it."""

    id: str
    matchers: list[dict[str, Any]]
    starts_at: int
    ends_at: int
    updated_at: int
    created_by: str
    comment: str


@dataclass(frozen=True)
class StoredAlert:
    """An alert that is stored: its times are those of its last post."""

    labels: dict[str, str]
    annotations: dict[str, str]
    starts_at: int
    ends_at: int
    updated_at: int


@dataclass
class Alertmanager:
    """All that was found in an Alertmanager."""

    name: str
    version: str
    instances: int
    started: int | None
    config: bytes
    silences: list[Silence]
    alerts: list[StoredAlert]


def alertmanager_of(server: Server) -> Alertmanager:
    """Asks an Alertmanager for all that it has kept."""
    status = _answer(server, "status", "/api/v2/status")
    version, started = status.optional("versionInfo"), status.optional("uptime")
    number = version.optional("version") if version else None
    cluster = status.optional("cluster")
    peers = cluster.optional("peers") if cluster else None
    return Alertmanager(
        server.name,
        number.text() if number else "?",
        len(list(peers.items())) if peers else 1,
        started.moment() if started else None,
        status.member("config").member("original").text().encode(),
        [_silence(each) for each in _answer(server, "silences", "/api/v2/silences").items()],
        [_alert(each) for each in _answer(server, "alerts", "/api/v2/alerts").items()],
    )


def _answer(server: Server, name: str, path: str) -> Answer:
    return Answer.of(server.get(name, path), f"{server.name}{path}")


def _silence(answer: Answer) -> Silence:
    created_by, comment = answer.optional("createdBy"), answer.optional("comment")
    return Silence(
        _id(answer.member("id")),
        [_matcher(each) for each in answer.member("matchers").items()],
        answer.member("startsAt").moment(),
        answer.member("endsAt").moment(),
        answer.member("updatedAt").moment(),
        created_by.text() if created_by else "",
        comment.text() if comment else "",
    )


def _id(answer: Answer) -> str:
    try:
        return str(uuid.UUID(answer.text()))
    except ValueError:
        raise answer.wrong("a UUID") from None


def _matcher(answer: Answer) -> dict[str, Any]:
    is_equal = answer.optional("isEqual")
    return {
        "isEqual": is_equal.boolean() if is_equal else True,
        "isRegex": answer.member("isRegex").boolean(),
        "name": answer.member("name").text(),
        "value": answer.member("value").text(),
    }


def _alert(answer: Answer) -> StoredAlert:
    annotations = answer.optional("annotations")
    return StoredAlert(
        answer.member("labels").texts(),
        annotations.texts() if annotations else {},
        answer.member("startsAt").moment(),
        answer.member("endsAt").moment(),
        answer.member("updatedAt").moment(),
    )
