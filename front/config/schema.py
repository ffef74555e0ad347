"""The shapes of Alertmanager's configuration: which keys an object has, and where it has a text, a boolean or a list."""
from __future__ import annotations

from dataclasses import dataclass
from typing import Any, Union


@dataclass(frozen=True)
class Text:
    """A text, also if YAML would take it for a number, a boolean or a date."""


@dataclass(frozen=True)
class Boolean:
    """A boolean."""


@dataclass(frozen=True)
class ListOf:
    """A list. If `is_absent_if_empty`, Alertmanager takes an empty one for none."""

    item: Shape
    is_absent_if_empty: bool = False


@dataclass(frozen=True)
class Texts:
    """An object of texts."""


@dataclass(frozen=True)
class Object:
    """An object with its keys' shapes, and keys that Alertmanager knows and that say nothing about who is notified and when."""

    keys: dict[str, Shape]
    silent: tuple[str, ...] = ()
    has_integrations: bool = False


@dataclass(frozen=True)
class Integration:
    """An entry of `KIND_configs`: an object whose `send_resolved` alone counts."""

    kind: str


@dataclass(frozen=True)
class Route:
    """A route, whose `routes` are routes again."""


Shape = Union[Text, Boolean, ListOf, Texts, Object, Integration, Route]

TEXT, BOOLEAN = Text(), Boolean()
TEXTS_LIST = ListOf(TEXT)

MEMBER = Object({
    "times": ListOf(Object({"start_time": TEXT, "end_time": TEXT})),
    "weekdays": TEXTS_LIST,
    "days_of_month": TEXTS_LIST,
    "months": TEXTS_LIST,
    "years": TEXTS_LIST,
    "location": TEXT,
})  # fmt: skip
INTERVALS = ListOf(Object({"name": TEXT, "time_intervals": ListOf(MEMBER)}))

ROUTE = Object({
    "receiver": TEXT,
    "group_by": ListOf(TEXT, is_absent_if_empty=True),
    "group_wait": TEXT,
    "group_interval": TEXT,
    "repeat_interval": TEXT,
    "continue": BOOLEAN,
    "match": Texts(),
    "match_re": Texts(),
    "matchers": TEXTS_LIST,
    "active_time_intervals": TEXTS_LIST,
    "mute_time_intervals": TEXTS_LIST,
    "routes": ListOf(Route()),
})  # fmt: skip

RULE = Object({
    "source_match": Texts(),
    "source_match_re": Texts(),
    "source_matchers": TEXTS_LIST,
    "target_match": Texts(),
    "target_match_re": Texts(),
    "target_matchers": TEXTS_LIST,
    "equal": TEXTS_LIST,
})  # fmt: skip

GLOBAL = Object(
    {"resolve_timeout": TEXT},
    silent=(
        "http_config", "opsgenie_api_key", "opsgenie_api_key_file", "opsgenie_api_url", "pagerduty_url", "slack_api_url", "slack_api_url_file",
        "smtp_auth_identity", "smtp_auth_password", "smtp_auth_password_file", "smtp_auth_secret", "smtp_auth_username", "smtp_from", "smtp_hello",
        "smtp_require_tls", "smtp_smarthost", "telegram_api_url", "victorops_api_key", "victorops_api_key_file", "victorops_api_url", "webex_api_url",
        "wechat_api_corp_id", "wechat_api_secret", "wechat_api_url",
    ),
)  # fmt: skip

CONFIGURATION = Object(
    {
        "global": GLOBAL,
        "route": Route(),
        "inhibit_rules": ListOf(RULE),
        "receivers": ListOf(Object({"name": TEXT}, has_integrations=True)),
        "mute_time_intervals": INTERVALS,
        "time_intervals": INTERVALS,
    },
    silent=("templates",),
)

# Whether an integration sends resolved alerts if its entry doesn't say. The program knows the first line itself. The third line's kinds came after
# Alertmanager 0.25.
SENDS_RESOLVED = {
    "webhook": True, "pagerduty": True, "opsgenie": True, "victorops": True, "pushover": True, "email": False, "slack": False,
    "discord": True, "sns": True, "telegram": True, "webex": True, "wechat": False,
    "msteams": True, "msteamsv2": True, "jira": True, "incidentio": True, "rocketchat": False,
}  # fmt: skip
KNOWN_TO_THE_PROGRAM = ("webhook", "pagerduty", "opsgenie", "victorops", "pushover", "email", "slack")


def shape_in(shape: Object, key: str) -> Shape | None:
    """Returns the shape of a member of an object, or nothing if the key doesn't count."""
    if shape.has_integrations and key.endswith("_configs"):
        return ListOf(Integration(key[: -len("_configs")]))
    return shape.keys.get(key)


def with_default(entry: dict[str, Any], kind: str) -> dict[str, Any]:
    """Returns an entry of a kind with its `send_resolved`, which is the kind's default if the program doesn't know it."""
    if kind in SENDS_RESOLVED and kind not in KNOWN_TO_THE_PROGRAM:
        entry.setdefault("send_resolved", SENDS_RESOLVED[kind])
    return entry
