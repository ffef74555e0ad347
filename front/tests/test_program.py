"""Tests how the front runs the program: its faults with the files that they are about, and answers of sessions."""

from __future__ import annotations

import functools
import os
import signal
import subprocess
import sys
from typing import Any

from front.program import Fault, Program, answers_of, session

from .support import INCIDENT, TOP, WithRoom, run_word

CONFIG: dict[str, Any] = {"route": {"receiver": "ops"}, "receivers": [{"name": "ops", "webhook_configs": [{}]}]}
TICK = {"at": "2024-05-01T10:00:00Z", "tick": True}


class Faults(WithRoom):
    def test_a_missing_file_is_named(self) -> None:
        for words in (
            ("why", "nope.json", "s"),
            ("diff", str(INCIDENT / "config.json"), "nope.json", str(INCIDENT / "script.jsonl")),
        ):
            status, printed, errors = run_word(*words)
            self.assertEqual((status, printed), (1, ""))
            self.assertIn("No such file or directory", errors)
            self.assertIn("nope.json" if words[0] == "diff" else "cannot read s", errors)

    def test_a_file_that_the_program_cannot_read_is_named(self) -> None:
        config, gone = self.write_json("config.json", CONFIG), str(self.room / "gone")
        with self.assertRaises(Fault) as raised:
            Program.found().run(Program.found().source(config, gone))
        self.assertEqual(raised.exception.line, f"amreplay: cannot read script ({gone}: No such file or directory)")

    def test_the_refused_file_of_two_is_named(self) -> None:
        good, bad = self.write_json("good.json", CONFIG), self.write_json(
            "bad.json", {**CONFIG, "route": {"receiver": "oops"}}
        )
        script = self.write_lines("script.jsonl", [TICK])
        status, printed, errors = run_word("diff", good, bad, script)
        self.assertEqual((status, printed), (1, ""))
        self.assertIn(
            f'{bad}:1: error: route.receiver: there is no receiver "oops" (6 UnknownReceiver); did you mean ops?',
            errors,
        )

    def test_the_program_s_own_fault_has_the_file_and_the_refusal(self) -> None:
        config, script = self.write_json("config.json", CONFIG), self.write("script.jsonl", "\n{}\n")
        with self.assertRaises(Fault) as raised:
            Program.found().run(Program.found().source(config, script))
        self.assertEqual(raised.exception.line, f"amreplay: script: 13 BadLine at line 2 ({script})")
        refusal = raised.exception.refusal
        assert refusal is not None
        self.assertEqual((refusal.file, refusal.number, refusal.line), ("script", 13, 2))

    def test_words_say_what_is_wrong_in_a_script(self) -> None:
        config = self.write_json("config.json", CONFIG)
        reload = {"at": "2024-05-01T09:00:00Z", "reload": CONFIG}
        wrong = {"reload": {}, "att": "2024-05-01T10:00:00Z"}
        script = self.write_lines("script.jsonl", [reload, wrong])
        said = f"amreplay: {script}:2: error: at: at is required, and isn't there (13 BadLine); write a moment"
        for words in (("why",), ("page", "--ignore-reloads"), ("diff", "--ignore-reloads", config), ("run", "--text")):
            with self.subTest(words[0]):
                status, printed, errors = run_word(*words, config, script)
                self.assertEqual((status, printed), (1, ""))
                self.assertIn(said, errors)

    def test_check_counts(self) -> None:
        counts = Program.found().check(self.write_json("config.json", CONFIG))
        self.assertEqual((counts.receivers, counts.routes, counts.rules), (1, 1, 0))

    def test_a_program_that_is_not_there(self) -> None:
        with self.assertRaises(Fault) as raised:
            answers_of(Program("/no/program").source("a", "b"), ["cursor"])
        self.assertEqual(raised.exception.line, "amreplay: cannot run /no/program: No such file or directory")


class Sessions(WithRoom):
    def test_answers_come_one_by_one_and_together(self) -> None:
        source = self.source(CONFIG, [TICK])
        with session(source) as opened:
            self.assertEqual(opened.ask("cursor").last["events"], 1)
            answers = opened.ask_all(["step"] + ["explain {}"] * 5_000 + ["nothing"])
        self.assertEqual(len(answers), 5_002)
        self.assertEqual([answer.refused for answer in answers[:2]] + [answers[-1].refused], [None, None, 13])

    def test_a_session_that_ends_raises_its_fault(self) -> None:
        source = Program.found().source(self.write("config.json", "{}"), self.write("script.jsonl", ""))
        with self.assertRaises(Fault) as raised, session(source) as opened:
            opened.ask("cursor")
        self.assertIn("5 BadConfig at route", raised.exception.line)


class Processes(WithRoom):
    def test_an_interrupt_prints_nothing(self) -> None:
        fifo = str(self.room / "pipe")
        os.mkfifo(fifo)
        words = [sys.executable, "-m", "front", "why", str(INCIDENT / "config.json"), fifo]
        # A shell's process in the background ignores interrupts, and so would this one.
        heeds = functools.partial(signal.signal, signal.SIGINT, signal.SIG_DFL)
        process = subprocess.Popen(words, cwd=TOP, stdout=subprocess.PIPE, stderr=subprocess.PIPE, preexec_fn=heeds)
        with open(fifo, "wb"):
            # The word has opened the pipe, and waits for its text.
            process.send_signal(signal.SIGINT)
            printed, errors = process.communicate(timeout=60)
        self.assertEqual((process.returncode, printed, errors), (130, b"", b""))

    def test_a_word_that_is_ended_leaves_nothing(self) -> None:
        fifo = str(self.room / "pipe")
        os.mkfifo(fifo)
        words = [sys.executable, "-B", "-m", "front", "why", str(INCIDENT / "config.json"), fifo]
        process = subprocess.Popen(words, cwd=TOP, env={**os.environ, "TMPDIR": str(self.room)})
        with open(fifo, "wb"):
            # The word has its folder by now, and waits for the script.
            self.assertEqual(len(list(self.room.iterdir())), 2)
            process.terminate()
            self.assertEqual(process.wait(60), 128 + signal.SIGTERM)
        self.assertEqual([each.name for each in self.room.iterdir()], ["pipe"])

    def test_characters_that_the_output_does_not_have(self) -> None:
        alert = {"at": "2024-05-01T10:00:00Z", "alerts": [{"labels": {"alertname": "Dé"}}]}
        config, script = self.write_json("config.json", CONFIG), self.write_lines("script.jsonl", [alert])
        words = [sys.executable, "-B", "-m", "front", "why", config, script]
        done = subprocess.run(words, cwd=TOP, env={**os.environ, "PYTHONIOENCODING": "ascii"}, capture_output=True)
        self.assertEqual((done.returncode, done.stderr), (0, b""))
        self.assertIn(b"D\\xe9", done.stdout)

    def test_json_needs_no_yaml(self) -> None:
        without = (
            "import sys; sys.modules['yaml'] = None; from front.__main__ import main; sys.exit(main(sys.argv[1:]))"
        )
        script = self.write_lines("script.jsonl", [TICK])
        odd = self.write_json("odd.json", {**CONFIG, "inhibit_rule": []})
        said = f"amreplay: {odd}: warning: inhibit_rule: unknown key inhibit_rule, which is ignored; did you mean inhibit_rules?\n"
        needed = "amreplay: reading YAML needs PyYAML; Debian's package is python3-yaml\n"
        for config, status, errors in ((odd, 0, said), (self.write("a.yml", "route: {}"), 1, needed)):
            words = [sys.executable, "-B", "-c", without, "why", config, script]
            done = subprocess.run(words, cwd=TOP, capture_output=True, text=True)
            self.assertEqual((done.returncode, done.stderr), (status, errors))

    def test_a_full_output_is_no_traceback(self) -> None:
        for words in (["why"], ["run", "--text"], ["page"]):
            files = [str(INCIDENT / "config.json"), str(INCIDENT / "script.jsonl")]
            with open("/dev/full", "wb") as full:
                words = [sys.executable, "-B", "-m", "front", *words, *files]
                done = subprocess.run(words, cwd=TOP, stdout=full, stderr=subprocess.PIPE)
            said = b"amreplay: cannot write: No space left on device\n"
            self.assertEqual((done.returncode, done.stderr), (1, said))

    def test_a_closed_pipe_is_no_traceback(self) -> None:
        words = f"{sys.executable} -m front why {INCIDENT}/config.json {INCIDENT}/script.jsonl | head -1"
        done = subprocess.run(words, shell=True, cwd=TOP, capture_output=True, check=True)
        self.assertEqual((done.stdout.count(b"\n"), done.stderr), (1, b""))
