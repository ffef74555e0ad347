"""Cuts a configuration, as JSON, down to the keys that say who is notified and when."""

from __future__ import annotations

from typing import Any

from .schema import CONFIGURATION, ROUTE, Integration, ListOf, Object, Route, Shape, shape_in, with_default


def cut(value: Any, shape: Shape = CONFIGURATION) -> Any:
    """Returns a value without the keys that its shape doesn't have. Parts of another shape stay for the program to refuse."""
    if isinstance(shape, Route):
        shape = ROUTE
    if isinstance(shape, Object) and isinstance(value, dict):
        members = ((key, member, shape_in(shape, key)) for key, member in value.items())
        return {key: cut(member, inner) for key, member, inner in members if inner is not None}
    if isinstance(shape, Integration) and isinstance(value, dict):
        return with_default({key: value[key] for key in ("send_resolved",) if value.get(key) is not None}, shape.kind)
    if isinstance(shape, ListOf) and isinstance(value, list):
        return [cut(each, shape.item) for each in value]
    return value
