"""How the front runs the proved program: `check`, `run` and sessions, with its faults as clear lines."""

from __future__ import annotations

import fcntl
import json
import os
import re
import subprocess
import tempfile
import threading
from contextlib import contextmanager
from dataclasses import dataclass
from pathlib import Path
from typing import IO, Any, Iterable, Iterator, NoReturn

TOP = Path(__file__).resolve().parent.parent
LAST_LINE = b'\n{"command":'
SHORT_START = b'\n{"c'
PIPE_BYTES = 1 << 20
WRITTEN_AT_ONCE = 32_000
REFUSAL = re.compile(r"amreplay: (config|script): (\d+) (\w+)(?: at (?:line (\d+)|(.*)))?", re.DOTALL)


class Fault(Exception):
    """A fault to report: its line on standard error, and the status. One that the program reported is its own line,
    and the file in brackets."""

    def __init__(self, line: str, status: int = 1, refusal: Refusal | None = None) -> None:
        super().__init__(line, status)
        self.line = line
        self.status = status
        self.refusal = refusal


@dataclass(frozen=True)
class Refusal:
    """Why the program refused a file: `config` or `script`, number, name, and the path or the line if it has one."""

    file: str
    number: int
    name: str
    path: str = ""
    line: int = 0


@dataclass(frozen=True)
class Source:
    """What is replayed: the program, and the two files that it is given. The names are those to report."""

    program: str
    config: str
    script: str
    config_name: str = ""
    script_name: str = ""

    def name_of(self, file: str) -> str:
        """Returns the name of `config` or `script` as a text that can be written, whatever bytes it has."""
        name = (self.config_name or self.config) if file == "config" else (self.script_name or self.script)
        return os.fsencode(name).decode("utf-8", "replace")


@dataclass(frozen=True)
class Counts:
    """What `check` counts in a configuration."""

    receivers: int
    routes: int
    rules: int


@dataclass(frozen=True)
class Answer:
    """The answer to one command: the text before its last line, and the last line."""

    text: bytes
    last_line: bytes

    @property
    def lines(self) -> list[bytes]:
        return self.text.split(b"\n")[:-1]

    @property
    def last(self) -> dict[str, Any]:
        return _object(self.last_line)

    @property
    def refused(self) -> int | None:
        """The number that refused the command, or None."""
        number = self.last.get("refused")
        return None if number is None else int(number)


@dataclass(frozen=True)
class Program:
    """The program at a path: that of AMREPLAY_PROGRAM, or else the launcher, which builds it first."""

    path: str

    @staticmethod
    def found() -> Program:
        return Program(os.environ.get("AMREPLAY_PROGRAM") or str(TOP / "amreplay"))

    def source(self, config: str, script: str, config_name: str = "", script_name: str = "") -> Source:
        return Source(self.path, config, script, config_name, script_name)

    def check(self, config: str, name: str = "") -> Counts:
        """Returns what is in a configuration. Raises the program's fault if it is refused."""
        printed = _printed(Source(self.path, config, "", name), ["check", config])
        return Counts(**_object(printed))

    def run(self, source: Source) -> list[dict[str, Any]]:
        """Returns the lines that a run prints. Raises the program's fault if a file is refused."""
        return list(self.lines(source))

    def lines(self, source: Source) -> Iterator[dict[str, Any]]:
        """Yields the lines of a run as the program prints them. Raises the program's fault, after the lines before it."""
        with tempfile.TemporaryFile() as errors:
            words = [source.program, "run", source.config, source.script]
            try:
                process = subprocess.Popen(words, stdout=subprocess.PIPE, stderr=errors)
            except OSError as error:
                raise _cannot_run(source, error) from error
            assert process.stdout is not None
            try:
                yield from map(_object, process.stdout)
                status = process.wait()
                if status != 0:
                    raise _fault(source, errors, status)
            finally:
                process.stdout.close()
                process.kill()
                process.wait()

    def become(self, form: str, *files: str | bytes) -> NoReturn:
        """Makes this process the program, which reads files from their paths or from memory: so none is left behind, and signals, the status and
        standard input are its own."""
        paths = [_in_memory(each) if isinstance(each, bytes) else each for each in files]
        try:
            os.execv(self.path, [self.path, form, *paths])
        except OSError as error:
            raise _cannot_run(self.source("", ""), error) from error


class Session:
    """A session that answers commands one by one, or a few at once."""

    def __init__(self, source: Source, process: subprocess.Popen[bytes], errors: IO[bytes]) -> None:
        self._source = source
        self._process = process
        self._errors = errors
        self._commands, self._answers = _pipes(process)

    def ask(self, command: str) -> Answer:
        """Returns the answer to one command."""
        return self.ask_all([command])[0]

    def ask_all(self, commands: Iterable[str]) -> list[Answer]:
        """Returns the answers to some commands. As many are written at once as the pipe holds for sure."""
        answers: list[Answer] = []
        waiting: list[bytes] = []
        size = 0
        for command in commands:
            line = command.encode() + b"\n"
            if waiting and size + len(line) > WRITTEN_AT_ONCE:
                answers += self._exchange(waiting)
                waiting, size = [], 0
            waiting.append(line)
            size += len(line)
        return answers + self._exchange(waiting) if waiting else answers

    def _exchange(self, lines: list[bytes]) -> list[Answer]:
        try:
            self._commands.write(b"".join(lines))
            self._commands.flush()
        except BrokenPipeError:
            pass
        return [self._answer() for _ in lines]

    def _answer(self) -> Answer:
        lines: list[bytes] = []
        for line in self._answers:
            if line.startswith(LAST_LINE[1:]):
                return Answer(b"".join(lines), line)
            lines.append(line)
        raise _fault(self._source, self._errors, self._process.wait())


@contextmanager
def session(source: Source) -> Iterator[Session]:
    """Opens a session, and ends it. Raises the program's fault where it is found, at the first command at the latest."""
    with tempfile.TemporaryFile() as errors:
        process = _start(source, errors)
        commands, answers = _pipes(process)
        try:
            yield Session(source, process, errors)
        finally:
            for pipe in (commands, answers):
                try:
                    pipe.close()
                except OSError:
                    pass
            process.kill()
            process.wait()


def converse(source: Source, commands: Iterable[str]) -> Iterator[Answer]:
    """Yields the answer to each command, in order. A thread writes the commands meanwhile, which suits many short
    answers. Raises the program's fault if it fails."""
    with tempfile.TemporaryFile() as errors:
        process = _start(source, errors)
        pipe, answers = _pipes(process)
        feeder = threading.Thread(target=_feed, args=(pipe, commands), daemon=True)
        feeder.start()
        try:
            yield from _read_answers(answers)
            status = process.wait()
            if status != 0:
                raise _fault(source, errors, status)
        finally:
            answers.close()
            process.kill()
            process.wait()
            feeder.join()


def converse_in_turn(source: Source, commands: Iterable[str]) -> Iterator[Answer]:
    """Does the same, but writes a command only once it has read the answer before: then an answer ends where there is
    no more to read, and long answers aren't searched for their ends. The program works on an answer while the caller
    uses the one before."""
    with tempfile.TemporaryFile() as errors:
        process = _start(source, errors)
        pipe, answers = _pipes(process)
        try:
            yield from _answers_in_turn(pipe.fileno(), answers.fileno(), commands)
            pipe.close()
            status = process.wait()
            if status != 0:
                raise _fault(source, errors, status)
        finally:
            pipe.close()
            answers.close()
            process.kill()
            process.wait()


def answers_of(source: Source, commands: list[str]) -> list[Answer]:
    """Returns the answers to a few commands."""
    answers = list(converse(source, commands))
    if len(answers) != len(commands):
        raise Fault("amreplay: the session answered otherwise than one last line for each command")
    return answers


def _in_memory(data: bytes) -> str:
    """Returns the path of a file in memory, which lasts as long as this process, whatever it becomes."""
    handle = os.memfd_create("amreplay", 0)
    with open(handle, "wb", closefd=False) as file:
        file.write(data)
    return f"/proc/self/fd/{handle}"


def _object(line: bytes) -> dict[str, Any]:
    value = json.loads(line)
    if not isinstance(value, dict):
        raise Fault("amreplay: the program printed a line that is no object")
    return value


def _printed(source: Source, words: list[str]) -> bytes:
    with tempfile.TemporaryFile() as errors:
        try:
            done = subprocess.run([source.program, *words], stdout=subprocess.PIPE, stderr=errors, check=False)
        except OSError as error:
            raise _cannot_run(source, error) from error
        if done.returncode != 0:
            raise _fault(source, errors, done.returncode)
        return done.stdout


def _start(source: Source, errors: IO[bytes]) -> subprocess.Popen[bytes]:
    words = [source.program, "session", source.config, source.script]
    pipe = subprocess.PIPE
    try:
        process = subprocess.Popen(words, stdin=pipe, stdout=pipe, stderr=errors, bufsize=PIPE_BYTES)
    except OSError as error:
        raise _cannot_run(source, error) from error
    _widen(_pipes(process)[1])
    return process


def _pipes(process: subprocess.Popen[bytes]) -> tuple[IO[bytes], IO[bytes]]:
    assert process.stdin is not None and process.stdout is not None
    return process.stdin, process.stdout


def _cannot_run(source: Source, error: OSError) -> Fault:
    return Fault(f"amreplay: cannot run {source.program}: {error.strerror}")


def _widen(pipe: IO[bytes]) -> None:
    """Asks the system for a larger pipe, which saves time where lists are long."""
    try:
        fcntl.fcntl(pipe.fileno(), getattr(fcntl, "F_SETPIPE_SZ"), PIPE_BYTES)
    except (AttributeError, OSError):
        pass


def _feed(pipe: IO[bytes], commands: Iterable[str]) -> None:
    """Writes the commands. The status of a program that ended early says so."""
    try:
        for command in commands:
            pipe.write(command.encode() + b"\n")
        pipe.close()
    except (BrokenPipeError, ValueError, OSError):
        pass


def _read_answers(pipe: Any) -> Iterator[Answer]:
    """Yields the answers as they come. What is held begins with the line feed before the next answer's first line."""
    held = bytearray(b"\n")
    room = memoryview(bytearray(PIPE_BYTES))
    searched = 0
    while count := pipe.readinto1(room):
        held += room[:count]
        start = _last_line(held, searched)
        while start >= 0 and (end := held.find(b"\n", start + 1)) >= 0:
            with memoryview(held) as view:
                text = bytes(view[1 : start + 1])
            yield Answer(text, bytes(held[start + 1 : end]))
            del held[:end]
            start = _last_line(held, 0)
        searched = start if start >= 0 else max(0, len(held) - len(LAST_LINE))


def _last_line(held: bytearray, start: int) -> int:
    """Returns where the line feed before a last line is, or -1. Its first bytes are found sooner than all of them. Of a
    last line that is held in part, all that is held has to fit."""
    while (start := held.find(SHORT_START, start)) >= 0:
        if LAST_LINE.startswith(held[start : start + len(LAST_LINE)]):
            break
        start += 1
    return start


def _answers_in_turn(commands_in: int, answers_out: int, commands: Iterable[str]) -> Iterator[Answer]:
    """Yields each answer after the next command has been written. It ends early where the program does."""
    answer: Answer | None = None
    for command in commands:
        _write(commands_in, command)
        if answer is not None:
            yield answer
        answer = _whole_answer(answers_out)
        if answer is None:
            return
    if answer is not None:
        yield answer


def _write(pipe: int, command: str) -> None:
    """Writes a command. The status of a program that ended early says so."""
    try:
        os.write(pipe, command.encode() + b"\n")
    except BrokenPipeError:
        pass


def _whole_answer(pipe: int) -> Answer | None:
    """Reads until a last line ends what was read. Returns None if the program has ended."""
    pieces: list[bytes] = []
    while piece := os.read(pipe, PIPE_BYTES):
        pieces.append(piece)
        if not piece.endswith(b"\n"):
            continue
        start = piece.rfind(b"\n", 0, -1) + 1
        if start == 0:
            piece = b"".join(pieces)
            pieces = [piece]
            start = piece.rfind(b"\n", 0, -1) + 1
        if piece.startswith(LAST_LINE[1:], start):
            return Answer(b"".join([*pieces[:-1], memoryview(piece)[:start]]), piece[start:])
    return None


def _fault(source: Source, errors: IO[bytes], status: int) -> Fault:
    """Returns the fault of a program that ended with a status: its own last line, and the file that it is about."""
    errors.seek(0)
    text = errors.read().decode("utf-8", "replace").rstrip("\n")
    line = text.rsplit("\n", 1)[-1]
    if status < 0:
        return Fault(line or f"amreplay: the program was ended by signal {-status}")
    if not line:
        return Fault(f"amreplay: the program ended with status {status}", status or 1)
    for file in ("config", "script"):
        if line == f"amreplay: cannot read {file}":
            return Fault(f"{line} ({_why_unreadable(source, file)})", status)
    found = REFUSAL.fullmatch(line)
    if not found:
        return Fault(line, status)
    refusal = Refusal(found[1], int(found[2]), found[3], found[5] or "", int(found[4] or 0))
    return Fault(f"{line} ({source.name_of(found[1])})", status, refusal)


def _why_unreadable(source: Source, file: str) -> str:
    name = source.name_of(file)
    try:
        with open(source.config if file == "config" else source.script, "rb") as opened:
            opened.read(1)
    except OSError as error:
        return f"{name}: {error.strerror}"
    return name
