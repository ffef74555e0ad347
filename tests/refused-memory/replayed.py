"""A session of the program to which growths of memory are refused, one process for many refusals."""

import json
import mmap
import os
import struct
import subprocess
import time

# The numbers of `refuse.c`: growths, first, all, waits.
WISHES = struct.Struct("=qqqq")
GROWTHS, FIRST, ALL, WAITS = range(4)
PATIENCE = 60


class Wishes:
    """The file by which the check and the program share what is refused."""

    def __init__(self, path):
        self.path = path
        with open(path, "wb") as file:
            file.write(bytes(WISHES.size))
        with open(path, "r+b") as file:
            self.shared = mmap.mmap(file.fileno(), WISHES.size)

    def number(self, which):
        return struct.unpack_from("=q", self.shared, 8 * which)[0]

    def set(self, which, number):
        struct.pack_into("=q", self.shared, 8 * which, number)

    def refuse(self, at, and_all_after=False):
        """Has the growth of this number refused, counted from the start of the program."""
        self.set(ALL, int(and_all_after))
        self.set(FIRST, at)

    def close(self):
        self.shared.close()
        os.unlink(self.path)


class Replayed:
    """A session over two files, whose answers are lists of lines."""

    def __init__(self, program, preload, folder, room):
        self.wishes = Wishes(f"{room}/wishes-{os.getpid()}-{id(self)}")
        env = {**os.environ, "LD_PRELOAD": preload, "REFUSE_BY": self.wishes.path}
        words = [program, "session", f"{folder}/config.json", f"{folder}/script.jsonl"]
        self.process = subprocess.Popen(words, stdin=subprocess.PIPE, stdout=subprocess.PIPE, stderr=subprocess.PIPE, env=env)

    def __enter__(self):
        return self

    def __exit__(self, *_):
        self.process.kill()
        self.process.communicate()
        self.wishes.close()

    def wait(self):
        """Waits until the program waits for its next line."""
        end = time.monotonic() + PATIENCE
        while not self.wishes.number(WAITS):
            if time.monotonic() > end or self.process.poll() is not None:
                raise RuntimeError("the session ended, or doesn't read its next command")

    def ask(self, command, refused=0, and_all_after=False):
        """Returns the answer to a command, while the growth of this number is refused, counted from now, and whether one was."""
        self.wait()
        before = self.wishes.number(GROWTHS)
        self.wishes.refuse(before + refused if refused else 0, and_all_after)
        self.wishes.set(WAITS, 0)
        self.process.stdin.write(command + b"\n")
        self.process.stdin.flush()
        answer = []
        while not answer or b'"command"' not in answer[-1] or "command" not in json.loads(answer[-1]):
            line = self.process.stdout.readline()
            if not line:
                raise RuntimeError(f"the session ended at {command!r}: {self.process.stderr.read()!r}")
            answer.append(line)
        self.wait()
        was_refused = bool(refused) and self.wishes.number(GROWTHS) >= before + refused
        self.wishes.refuse(0)
        return answer, was_refused


def last(answer):
    return json.loads(answer[-1])


def is_unheld(answer):
    """Returns whether an answer is the refusal of a command that found no memory."""
    return last(answer).get("refused") == 0
