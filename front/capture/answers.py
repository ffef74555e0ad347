"""Reads answers of the APIs as JSON, with their shapes checked: an answer of another shape is one clear line."""

from __future__ import annotations

import json
from typing import Any, Iterable

from ..moments import nanoseconds
from .faults import fault, one_line

SHOWN_BYTES = 60


class Answer:
    """A value within an answer, which knows where it stands, so that a wrong shape is reported there."""

    def __init__(self, value: Any, location: str) -> None:
        self.value = value
        self.location = location

    @staticmethod
    def of(body: bytes, location: str) -> Answer:
        """Reads the body of an answer."""
        try:
            return Answer(json.loads(body), location)
        except RecursionError:
            raise fault(f"{location}: too many levels") from None
        except ValueError:
            start = one_line(body[:SHOWN_BYTES].decode("utf-8", "replace"))
            begins = f"; it begins with {start}" if start else ""
            raise fault(f"{location}: the answer isn't JSON, or it is cut off{begins}") from None

    @staticmethod
    def of_prometheus(body: bytes, location: str) -> Answer:
        """Reads the body of an answer of Prometheus, and returns its data."""
        answer = Answer.of(body, location)
        if answer.member("status").text() != "success":
            said = answer.value.get("error")
            raise fault(f"{location}: {said if isinstance(said, str) else 'no success'}")
        return answer.member("data")

    def wrong(self, wanted: str) -> Exception:
        """Returns the fault that the value has another shape."""
        return fault(f"{self.location}: not {wanted}, as in the API")

    def member(self, key: str) -> Answer:
        """Returns a member that has to be there."""
        value = self.object().get(key)
        if value is None:
            raise fault(f"{self.location}: no {key}, as in the API")
        return Answer(value, f"{self.location}.{key}")

    def optional(self, key: str) -> Answer | None:
        """Returns a member, or nothing if it isn't there."""
        value = self.object().get(key)
        return None if value is None else Answer(value, f"{self.location}.{key}")

    def object(self) -> dict[str, Any]:
        """Returns the value as an object."""
        if not isinstance(self.value, dict):
            raise self.wrong("an object")
        return self.value

    def items(self) -> Iterable[Answer]:
        """Returns the items of a list."""
        if not isinstance(self.value, list):
            raise self.wrong("a list")
        return [Answer(value, f"{self.location}[{i}]") for i, value in enumerate(self.value)]

    def text(self) -> str:
        """Returns the value as a text that can be written as UTF-8."""
        if not isinstance(self.value, str):
            raise self.wrong("a text")
        try:
            self.value.encode()
        except UnicodeEncodeError:
            raise self.wrong("a text of Unicode") from None
        return self.value

    def boolean(self) -> bool:
        """Returns the value as a boolean."""
        if not isinstance(self.value, bool):
            raise self.wrong("a boolean")
        return self.value

    def number(self) -> float:
        """Returns the value as a number, also one that is written as a text."""
        try:
            number = float(self.value)
        except (TypeError, ValueError, OverflowError):
            raise self.wrong("a number") from None
        if not -1e12 < number < 1e12:
            raise self.wrong("a number of that size")
        return number

    def texts(self) -> dict[str, str]:
        """Returns the value as an object of texts."""
        return {
            Answer(key, self.location).text(): Answer(text, f"{self.location}.{key}").text()
            for key, text in self.object().items()
        }

    def moment(self) -> int:
        """Returns the value as a moment."""
        try:
            return nanoseconds(self.text())
        except ValueError:
            raise self.wrong("a moment") from None
