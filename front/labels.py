"""Labels as a user writes them: an object as JSON, matchers such as `alertname="X",cluster="eu"`, or the name of an alert alone."""

from __future__ import annotations

import json

from .program import Fault
from .story.matching import matchers_in
from .story.model import Pairs

FORMS = 'labels are an object of texts ({"alertname":"X"}), pairs (alertname=X,cluster=eu), or the name of an alert'


def labels_in(text: str, option: str) -> Pairs:
    """Returns the labels of a text, sorted by name. Raises a fault that names the option."""
    stripped = text.strip()
    if stripped.startswith('{"') or stripped == "{}":
        try:
            value = json.loads(stripped)
        except ValueError:
            value = None
        if isinstance(value, dict) and all(isinstance(each, str) for each in value.values()):
            return tuple(sorted(value.items()))
    elif "=" not in stripped and stripped:
        return (("alertname", stripped),)
    else:
        matchers = matchers_in(stripped)
        if matchers and all(is_equal and not is_regex for _, _, is_equal, is_regex in matchers):
            return tuple(sorted((name, value) for name, value, _, _ in matchers))
    raise Fault(f"amreplay: {option}: {FORMS}", 2)


def contains(labels: Pairs, part: Pairs) -> bool:
    """Returns whether labels have all of some. An absent label has the empty value."""
    by_name = dict(labels)
    return all(by_name.get(name, "") == value for name, value in part)
