"""The words of `amreplay page`: what is compared, tried and cut, faults, and what is written."""
from __future__ import annotations

import json
import os
import pty
import shutil
import subprocess
import sys
import unittest
from typing import Any

from front.page.compare import compare
from front.page.document import embedded, page
from front.moments import nanoseconds

from .reader import Reader
from .support import ENVIRONMENT, EXAMPLES, PAGE, PROGRAM, TOP, WithRoom, data_of, hostile_files, page_of

RELOAD = EXAMPLES / "a-reload"
NEVER = EXAMPLES / "a-page-that-never-came"


def note(at: str, name: str = "A", route: int = 0) -> dict[str, object]:
    alert = {"labels": {"alertname": name}, "annotations": {}, "startsAt": at}
    return {
        "at": at,
        "firing": [alert],
        "groupLabels": {},
        "integration": "webhook",
        "place": 0,
        "receiver": "ops",
        "resolved": [],
        "route": route,
    }


class Compared(unittest.TestCase):
    def test_the_same(self) -> None:
        found = compare([note("1"), note("2")], [note("1", route=3), note("2")])
        self.assertEqual((found.first_alone, found.second_alone, found.moved), ([], [], []))

    def test_one_alone_and_one_moved(self) -> None:
        found = compare([note("1"), note("2"), note("2", "B")], [note("2"), note("5"), note("1", "C")])
        self.assertEqual((found.first_alone, found.second_alone, found.moved), ([2], [2], [(0, 1)]))

    def test_a_reload_against_the_changed_configuration(self) -> None:
        status, text, _ = page_of(RELOAD / "config.json", RELOAD / "script.jsonl", "--against", RELOAD / "changed.json")
        self.assertEqual(status, 0)
        data = data_of(text)
        for run, kept in enumerate(("stdout", "under-the-changed-configuration/stdout")):
            reader = Reader(data, run)
            printed = [line for cursor in range(1, reader.last + 1) for line in reader.printed(cursor)]
            self.assertEqual(printed, (RELOAD / kept).read_text().splitlines())
        alone, other, moved = data["compared"][0]
        self.assertEqual((alone, other, moved), ([0, 1], [], [[2, 0]]))


class Tried(WithRoom):
    def test_a_tick_between(self) -> None:
        event = '{"at":"2024-05-01T10:00:30Z","tick":true}'
        status, text, _ = page_of(NEVER / "config.json", NEVER / "script.jsonl", "--try", event)
        self.assertEqual(status, 0)
        data = data_of(text)
        _, cursor, moves, reason, skipped, notes = data["trial"]
        self.assertEqual((cursor, moves, reason, skipped, len(notes)), (2, 2, 0, [], 1))
        self.assertEqual(data["compared"], [[[], [], []]])
        self.assertEqual((data["runs"][1]["tried"], len(data["runs"][1]["events"])), (3, 5))

    def test_a_silence_that_would_have_kept_a_page_away(self) -> None:
        matchers = [{"name": "alertname", "value": "ClusterDown"}]
        silence = {"matchers": matchers, "startsAt": "2024-05-01T09:30:00Z", "endsAt": "2024-05-01T18:00:00Z"}
        event = {"at": "2024-05-01T09:30:00Z", "silence": silence, "newId": "00000000-0000-4000-8000-000000000001"}
        data = data_of(page_of(NEVER / "config.json", NEVER / "script.jsonl", "--try", json.dumps(event))[1])
        self.assertEqual(data["trial"][1:], [1, 0, 0, [], []])
        self.assertEqual(data["compared"], [[[0], [], []]])

    def test_a_refused_event(self) -> None:
        event = '{"at":"2024-05-01T10:00:30Z","expire":"00000000-0000-4000-8000-000000000009"}'
        data = data_of(page_of(NEVER / "config.json", NEVER / "script.jsonl", "--try", event)[1])
        self.assertEqual(data["trial"][3], 18)

    def test_no_event(self) -> None:
        for event in ("{}", "nonsense", '{"at":"2024-05-01T10:00:00Z","alerts":7}', '{"at":"never","tick":true}'):
            status, text, faults = page_of(NEVER / "config.json", NEVER / "script.jsonl", "--try", event)
            self.assertEqual((status, text), (2, ""))
            self.assertIn("--try takes a line of a script", faults)


class Faults(WithRoom):
    def check(self, config: str, script: str, file: str) -> None:
        """Compares with the program's own status and refusal. The page's line names the file besides."""
        (self.room / "config.json").write_text(config)
        (self.room / "script.jsonl").write_text(script)
        words = [str(self.room / "config.json"), str(self.room / "script.jsonl")]
        own = subprocess.run([PROGRAM, "run", *words], capture_output=True, check=False)
        output = self.room / "page.html"
        output.write_text("as it was")
        status, text, faults = page_of(*words, "--output", output)
        self.assertEqual((status, text), (own.returncode, ""))
        refusal = own.stderr.decode().split()[3]
        self.assertTrue(
            faults.startswith("amreplay: ") and str(self.room / file) in faults and refusal in faults, faults
        )
        self.assertEqual(output.read_text(), "as it was")
        self.assertNotEqual(own.returncode, 0)

    def test_faulty_files(self) -> None:
        config = (NEVER / "config.json").read_text()
        faulty = '{"route":{"receiver":"a","group_wait":"x"},"receivers":[{"name":"a"}]}'
        self.check(faulty, "", "config.json")
        self.check(config, "nonsense\n", "script.jsonl")
        self.check(config, '{"at":"2024-05-01T10:00:00Z"}\n', "script.jsonl")

    def test_a_configuration_that_cannot_be_read(self) -> None:
        (self.room / "config.json").write_text("{")
        status, text, faults = page_of(self.room / "config.json", NEVER / "script.jsonl")
        self.assertEqual((status, text), (1, ""))
        self.assertIn(str(self.room / "config.json"), faults)

    def test_files_that_are_not_there(self) -> None:
        there, gone = NEVER / "config.json", self.room / "none"
        several: list[list[Any]] = [[gone, there], [there, gone], [there, NEVER / "script.jsonl", "--against", gone]]
        for words in several:
            self.assertEqual(page_of(*words), (1, "", f"amreplay: cannot read {gone}: No such file or directory\n"))

    def test_words(self) -> None:
        no_words: list[list[str]] = [[], ["one"], ["one", "two", "three"], ["one", "two", "--explain", '{"a":1}']]
        for words in no_words:
            status, text, _ = page_of(*words)
            self.assertEqual((status, text), (2, ""))
        for words in (["--from", "9"], ["--to", "0"], ["--from", "yesterday"], ["--from", "3", "--to", "1"]):
            status, text, faults = page_of(NEVER / "config.json", NEVER / "script.jsonl", *words)
            self.assertEqual((status, text), (2, ""), words)
            self.assertTrue(faults.startswith("amreplay: "))

    def test_output_that_cannot_be_written(self) -> None:
        status, _, faults = page_of(
            NEVER / "config.json", NEVER / "script.jsonl", "--output", self.room / "none" / "page.html"
        )
        self.assertEqual(status, 1)
        self.assertIn("cannot write", faults)


class Written(WithRoom):
    def test_output_is_what_is_printed(self) -> None:
        output = self.room / "page.html"
        words = (NEVER / "config.json", NEVER / "script.jsonl")
        _, text, _ = page_of(*words)
        self.assertEqual(page_of(*words, "--output", output), (0, "", ""))
        self.assertEqual(output.read_text(), text)
        self.assertEqual([each.name for each in self.room.iterdir()], ["page.html"])

    def test_files_from_pipes(self) -> None:
        words = (NEVER / "config.json", NEVER / "script.jsonl")
        command = 'exec "$0" -B -m front page <(cat "$1") <(cat "$2")'
        command_line = ["bash", "-c", command, sys.executable, *map(str, words)]
        done = subprocess.run(command_line, capture_output=True, check=True, env=ENVIRONMENT)
        self.assertEqual(
            data_of(done.stdout.decode())["runs"][0]["events"], data_of(page_of(*words)[1])["runs"][0]["events"]
        )

    def test_a_bar_on_a_terminal(self) -> None:
        reader, terminal = pty.openpty()
        command = [*PAGE, str(NEVER / "config.json"), str(NEVER / "script.jsonl")]
        done = subprocess.run(command, stdout=subprocess.DEVNULL, stderr=terminal, check=True, env=ENVIRONMENT)
        drawn = os.read(reader, 1 << 16)
        os.close(reader)
        os.close(terminal)
        self.assertEqual(done.returncode, 0)
        self.assertIn(b"] 4 of 4", drawn)
        self.assertTrue(drawn.endswith(b"\x1b[K"), "the bar is wiped away")

    def test_an_empty_script(self) -> None:
        (self.room / "script.jsonl").write_text("\n \n")
        status, text, _ = page_of(NEVER / "config.json", self.room / "script.jsonl")
        self.assertEqual((status, data_of(text)["total"]), (0, 0))

    def test_hostile_texts_are_inert(self) -> None:
        _, text, _ = page_of(*hostile_files(self.room))
        self.assertEqual(text.count("<script"), 2)
        self.assertEqual(text.count("</script"), 2)
        self.assertNotIn("<img", text)
        self.assertNotIn("\u2028", text)

    def test_nothing_from_elsewhere(self) -> None:
        text = page("x", {})
        for word in ("src=", "href=", "@import", "url(http", "fetch(", "innerHTML", "eval("):
            self.assertNotIn(word, text)
        self.assertIn("default-src 'none'", text)

    def test_embedded_is_the_same_value(self) -> None:
        value = ["</script>", "<!--", "&amp;", "\u2028\u2029", "\\", '"', "\u0000"]
        self.assertEqual(json.loads(embedded(value)), value)
        self.assertNotIn("<", embedded(value))

    @unittest.skipUnless(shutil.which("node"), "there is no node on the PATH")
    def test_the_script_is_javascript(self) -> None:
        script = page("x", {}).rsplit("<script>", 1)[1].split("</script>")[0]
        (self.room / "page.js").write_text(script)
        subprocess.run(["node", "--check", str(self.room / "page.js")], check=True)


class Moments(unittest.TestCase):
    def test_moments(self) -> None:
        self.assertEqual(nanoseconds("1970-01-01T00:00:01.5Z"), 1_500_000_000)
        self.assertEqual(nanoseconds("2024-05-01T12:00:00+02:00"), nanoseconds("2024-05-01t10:00:00z"))
        with self.assertRaises(ValueError):
            nanoseconds("yesterday")


class Examples(WithRoom):
    def test_the_kept_pages_are_made_again(self) -> None:
        names = ("a-page-that-never-came", "a-reload")
        for name in names:
            (self.room / name).mkdir()
        subprocess.run([str(TOP / "front" / "page" / "make-examples"), PROGRAM, str(self.room)], check=True)
        for name in names:
            made = (self.room / name / "incident.html").read_bytes()
            self.assertTrue(
                made == (EXAMPLES / name / "incident.html").read_bytes(), f"{name}: run front/page/make-examples"
            )
            self.assertLess(len(made), 200_000)
