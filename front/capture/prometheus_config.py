"""What the configuration of a Prometheus says about the alerts that it sends."""

from __future__ import annotations

from dataclasses import dataclass, field

from ..config.tree import BadYaml, Mapping, Node, Scalar, Sequence, tree_of
from ..moments import MINUTE, length_of
from .faults import fault
from .relabel import Step, step_of


@dataclass(frozen=True)
class PrometheusConfig:
    """External labels, relabelling, and intervals. `alertmanagers` is how many entries of that name there are.

    `query_offset` is how much earlier than its evaluation a sample is dated.
    """

    external_labels: dict[str, str] = field(default_factory=dict)
    steps: list[Step] = field(default_factory=list)
    scrape_interval: int = MINUTE
    evaluation_interval: int = MINUTE
    query_offset: int = 0
    alertmanagers: int = 1


def prometheus_config(text: str, location: str) -> PrometheusConfig:
    """Reads the text of `prometheus.yml`."""
    try:
        tree = tree_of(text)
    except BadYaml as error:
        raise fault(f"{location}: {error}") from None
    general, alerting = _member(tree, "global"), _member(tree, "alerting")
    entries = _items(_member(alerting, "alertmanagers"))
    steps = _steps(_member(alerting, "alert_relabel_configs"), location)
    if len(entries) == 1:
        steps += _steps(_member(entries[0], "alert_relabel_configs"), location)
    return PrometheusConfig(
        _texts(_member(general, "external_labels")),
        steps,
        _length(_member(general, "scrape_interval"), MINUTE),
        _length(_member(general, "evaluation_interval"), MINUTE),
        _length(_member(general, "rule_query_offset"), 0),
        len(entries),
    )


def _steps(node: Node | None, location: str) -> list[Step]:
    return [_step(each, f"{location}: alert_relabel_configs[{i}]") for i, each in enumerate(_items(node))]


def _step(node: Node, location: str) -> Step:
    sources = [each.text for each in _items(_member(node, "source_labels")) if isinstance(each, Scalar)]
    return step_of(_texts(node), sources, location)


def _member(node: Node | None, key: str) -> Node | None:
    if not isinstance(node, Mapping):
        return None
    return next((value for name, value in node.pairs if name.text == key), None)


def _items(node: Node | None) -> list[Node]:
    return node.items if isinstance(node, Sequence) else []


def _texts(node: Node | None) -> dict[str, str]:
    """Returns the members that are texts. Prometheus reads them as they are written, numbers too."""
    if not isinstance(node, Mapping):
        return {}
    return {key.text: value.text for key, value in node.pairs if isinstance(value, Scalar) and not value.is_null()}


def _length(node: Node | None, default: int) -> int:
    length = length_of(node.text) if isinstance(node, Scalar) else None
    return length or default
