"""Tests the words and their help, how labels are written, and lengths of time."""

from __future__ import annotations

import re
import unittest

from front.labels import labels_in
from front.moments import HOUR, MINUTE, SECOND, clock_text, length_of, length_text, nanoseconds
from front.program import Fault
from front.refusals import EVENTS
from front.words import FORMS, WORDS

from .support import TOP, run_word


class Refusals(unittest.TestCase):
    def test_their_figures_are_those_of_the_rules(self) -> None:
        rows = dict(re.findall(r"^\| (\d+) \| `\w+` \| (.*) \|$", (TOP / "docs/RULES.md").read_text("utf-8"), re.M))
        for number, text in EVENTS.items():
            self.assertEqual(re.findall(r"\d[\d,]*", text), re.findall(r"\d[\d,]*", rows[str(number)]), number)


class Words(unittest.TestCase):
    def test_each_has_help(self) -> None:
        for word in (*WORDS, *FORMS):
            with self.subTest(word):
                status, printed, errors = run_word(word, "--help")
                self.assertEqual((status, errors), (0, ""))
                self.assertTrue(printed.startswith(f"usage: amreplay {word} "), printed)

    def test_wrong_words(self) -> None:
        wrong: list[list[str]] = [
            [],
            ["wyh"],
            ["why"],
            ["why", "a", "b", "c"],
            ["diff", "a", "b"],
            ["why", "a", "b", "--late", "soon"],
            ["why", "a", "b", "--nope"],
            ["run", "a.yml"],
            ["check", "a.yml", "--text"],
        ]
        for words in wrong:
            with self.subTest(words):
                status, printed, errors = run_word(*words)
                self.assertEqual((status, printed), (2, ""))
                self.assertIn("usage: amreplay ", errors)


class Labels(unittest.TestCase):
    def test_forms(self) -> None:
        wanted = (("a", "b c"), ("d", "e"))
        for text in ('{"d":"e","a":"b c"}', 'a="b c",d=e', '{a="b c", d="e"}'):
            self.assertEqual(labels_in(text, "--alert"), wanted)
        self.assertEqual(labels_in("HighCPU", "--alert"), (("alertname", "HighCPU"),))

    def test_others(self) -> None:
        for text in ("", "a=~b", "a!=b", '{"a":1}', '{"a"', "a=b c"):
            with self.subTest(text), self.assertRaises(Fault):
                labels_in(text, "--alert")


class Times(unittest.TestCase):
    def test_clock_without_trailing_dot_or_zeros(self) -> None:
        for text, clock in (("10:00:00.000Z", "10:00:00"), ("10:00:00.500Z", "10:00:00.5"), ("10:00:00Z", "10:00:00")):
            self.assertEqual(clock_text(nanoseconds(f"2024-05-01T{text}")), clock)

    def test_lengths(self) -> None:
        for length, text in (
            (0, "0 s"),
            (SECOND // 2, "0.5 s"),
            (41 * MINUTE + 50 * SECOND, "41 m 50 s"),
            (HOUR, "1 h"),
            (25 * HOUR, "1 d 1 h"),
        ):
            self.assertEqual(length_text(length), text)
        for text, length in (("1h30m", 90 * MINUTE), ("0", 0), ("001s", SECOND)):
            self.assertEqual(length_of(text), length)
        for text in ("", "90", "1m1h", "1 s"):
            self.assertIsNone(length_of(text))
