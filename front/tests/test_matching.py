"""Tests that what may match says yes wherever the program matches, and that plain patterns are read as the program reads them."""

from __future__ import annotations

import json
import random
from typing import Any

from front.program import Session, session
from front.story.matching import PLAIN, RANGES, matchers_in, may_match

from .support import WithRoom

OPS: dict[str, Any] = {"route": {"receiver": "ops"}, "receivers": [{"name": "ops", "webhook_configs": [{}]}]}
PIECES = [
    "a",
    "b",
    "A",
    "eu-1",
    ".",
    "*",
    "+",
    "?",
    "|",
    "(",
    ")",
    "[ab]",
    "[0-9]",
    "\\.",
    "\\d",
    "{2}",
    "(?i)",
    "^",
    "$",
    " ",
    "é",
    "-",
    "[^a]",
    "\\",
    "/",
]
VALUES = ["", "a", "b", "ab", "aa", "A", "eu-1", "eu-12", "7", ".", " ", "é", "a\nb", "(", "a b", "-", "/"]


class Patterns(WithRoom):
    def test_never_no_where_the_program_says_yes(self) -> None:
        dice = random.Random(7)
        patterns = ["".join(dice.choice(PIECES) for _ in range(dice.randrange(1, 6))) for _ in range(1_500)]
        accepted = self.accepted(patterns)
        is_plain = [bool(PLAIN.fullmatch(RANGES.sub("a", pattern))) for pattern in accepted]
        self.assertGreater(sum(is_plain), 300)
        for value, taken in zip(VALUES, self.taken(accepted)):
            for number, (pattern, plain) in enumerate(zip(accepted, is_plain), 1):
                for is_equal in (True, False):
                    does, may = (number in taken) == is_equal, may_match(("v", pattern, is_equal, True), value)
                    self.assertTrue(may if does else not may or not plain, (pattern, is_equal, value))

    def accepted(self, patterns: list[str]) -> list[str]:
        """Returns the patterns that the program can read."""
        lines = ({"at": "2024-05-01T10:00:00Z", "reload": _config([pattern])} for pattern in patterns)
        with session(self.source(OPS, [])) as opened:
            answers = opened.ask_all(f"trial {json.dumps(line)}" for line in lines)
        return [pattern for pattern, answer in zip(patterns, answers) if not answer.lines]

    def taken(self, patterns: list[str]) -> list[set[int]]:
        """Returns for each value the numbers of the patterns' routes that take it."""
        alerts = [{"labels": {"alertname": "X", "v": value}, "startsAt": "2024-05-01T10:00:00Z"} for value in VALUES]
        source = self.source(_config(patterns), [{"at": "2024-05-01T10:00:00Z", "alerts": alerts}])
        with session(source) as opened:
            opened.ask("step")
            return [self.routes_of(opened, value) for value in VALUES]

    def routes_of(self, opened: Session, value: str) -> set[int]:
        labels = json.dumps({"alertname": "X", "v": value})
        return {json.loads(line)["route"] for line in opened.ask(f"explain {labels}").lines}


class Texts(WithRoom):
    def test_matchers_as_texts(self) -> None:
        for text, wanted in (
            ('a="b"', (("a", "b", True, False),)),
            (' {a=b, "c d"!~"x\\"y" ,} ', (("a", "b", True, False), ("c d", 'x"y', False, True))),
            ("a=~b.*,c!=", (("a", "b.*", True, True), ("c", "", False, False))),
            ("", ()),
            ("a", None),
            ("a b=c", None),
            ("a=b c", None),
            ('a="b', None),
        ):
            self.assertEqual(matchers_in(text), wanted, text)


def _config(patterns: list[str]) -> dict[str, Any]:
    routes = [{"match_re": {"v": pattern}, "continue": True} for pattern in patterns]
    return {**OPS, "route": {"receiver": "ops", "routes": routes}}
