"""Refuses each growth of memory of a whole session and of a whole run, each in a process of its own."""

import json
import os
import subprocess
import sys
from concurrent.futures import ThreadPoolExecutor

from replayed import GROWTHS, Wishes, is_unheld, last

OUT_OF_MEMORY = b"amreplay: out of memory\n"


def answers(printed):
    """Returns the lines that were printed, split after the last line of each command."""
    found, answer = [], []
    for line in printed.splitlines(keepends=True):
        answer.append(line)
        if "command" in json.loads(line):
            found.append(answer)
            answer = []
    return found


class WholeSession:
    """The sweep over one folder, with a configuration, a script and commands."""

    def __init__(self, program, preload, folder, room):
        self.program, self.preload, self.folder, self.room = program, preload, folder, room
        self.name = os.path.basename(folder)
        with open(f"{folder}/commands.txt", "rb") as file:
            self.lines = file.read().splitlines(keepends=True)
        self.without = {}
        self.faults = 0

    def fault(self, text):
        self.faults += 1
        print(f"refused memory: {self.name}: {text}", file=sys.stderr)

    def run(self, word, lines, at=0, and_all_after=False):
        """Runs the program with the growth of that number refused. Returns its status, what it printed on both outputs, and how many growths
        there were."""
        wishes = Wishes(f"{self.room}/wishes-{word}-{at}-{int(and_all_after)}-{id(lines)}-{os.urandom(4).hex()}")
        wishes.refuse(at, and_all_after)
        env = {**os.environ, "LD_PRELOAD": self.preload, "REFUSE_BY": wishes.path}
        words = [self.program, word, f"{self.folder}/config.json", f"{self.folder}/script.jsonl"]
        ran = subprocess.run(words, input=b"".join(lines), capture_output=True, env=env, timeout=60)
        growths = wishes.number(GROWTHS)
        wishes.close()
        return ran.returncode, ran.stdout, ran.stderr, growths

    def answers_without(self, number):
        """Returns the answers to all commands except that one."""
        if number not in self.without:
            lines = self.lines[:number] + self.lines[number + 1 :]
            self.without[number] = answers(self.run("session", lines)[1])
        return self.without[number]

    def one_refused(self, at, whole):
        """Tries a session with the growth of this number refused, and returns whether a command was refused."""
        status, printed, complaint, _ = self.run("session", self.lines, at)
        if status == 1 and complaint == OUT_OF_MEMORY and not printed:
            return False
        if status or complaint:
            self.fault(f"growth {at} refused: the session ended with {status} and {complaint!r}")
            return False
        told = answers(printed)
        unheld = [number for number, answer in enumerate(told) if is_unheld(answer)]
        if not unheld:
            if told != whole:
                self.fault(f"growth {at} refused: no command was refused, but the answers differ")
            return False
        number = unheld[0]
        wanted = self.answers_without(number)
        if len(unheld) > 1 or len(told[number]) > 1 or told[:number] + told[number + 1 :] != wanted:
            self.fault(f"growth {at} refused: command {number + 1} changed something, or another command was refused too")
        return True

    def all_refused(self, at):
        """Tries a session with all growths from this number on refused, and returns how many steps back were done."""
        status, printed, complaint, _ = self.run("session", self.lines, at, True)
        if status == 1 and complaint == OUT_OF_MEMORY and not printed:
            return 0
        if status or complaint:
            self.fault(f"growths from {at} on refused: the session ended with {status} and {complaint!r}")
            return 0
        cursor, done = 0, 0
        for line, answer in zip(self.lines, answers(printed)):
            told = last(answer)
            goes_back = line == b"back\n" or line.startswith(b"seek ") and int(line.split()[1]) <= cursor
            if (goes_back or line == b"cursor\n") and told.get("refused") == 0 and told["command"] != "?":
                self.fault(f"growths from {at} on refused: {line!r} was refused too")
            done += goes_back and "refused" not in told
            if told["cursor"] != cursor and "refused" in told:
                self.fault(f"growths from {at} on refused: {line!r} was refused, but moved the cursor")
            cursor = told["cursor"]
        return done

    def run_refused(self, at, whole):
        """Tries a run with the growth of this number refused."""
        status, printed, complaint, _ = self.run("run", [], at)
        is_whole = status == 0 and printed == whole and not complaint
        is_beginning = status == 1 and complaint == OUT_OF_MEMORY and whole.startswith(printed) and (not printed or printed.endswith(b"\n"))
        if not is_whole and not is_beginning:
            self.fault(f"growth {at} of a run refused: the run ended with {status} and {complaint!r}, and printed {printed!r}")

    def far_away(self):
        """Returns another path of the folder, so long that holding the words of the program takes more memory."""
        above = "/".join([self.room, "a" * 250, "b" * 250, "c" * 250])
        os.makedirs(above)
        os.symlink(self.folder, f"{above}/files")
        return f"{above}/files"

    def sweep(self):
        """Tries the session and the run of its files, and returns whether all went well."""
        status, printed, _, growths = self.run("session", self.lines)
        whole = answers(printed)
        if status or len(whole) != len(self.lines) or any(is_unheld(answer) for answer in whole):
            self.fault("the session fails with all its memory")
            return False
        self.folder = self.far_away()
        _, run_text, _, in_runs = self.run("run", [])
        with ThreadPoolExecutor(os.cpu_count()) as pool:
            refused = sum(pool.map(lambda at: self.one_refused(at, whole), range(1, growths + 1)))
            backs = sum(pool.map(self.all_refused, range(1, growths + 1)))
            list(pool.map(lambda at: self.run_refused(at, run_text), range(1, in_runs + 1)))
        print(
            f"refused memory: {self.name}: {growths} growths of a session and {in_runs} of a run refused in turn, "
            f"{refused} commands refused, {backs} steps back without memory, {self.faults} answers differ"
        )
        return bool(not self.faults and refused and backs)
