"""Refuses each growth of memory of each call of a session, at each position of its cursor."""

import json
import sys

from replayed import Replayed, is_unheld, last

LISTINGS = [b"cursor", b"alerts", b"silences", b"groups", b"log", b"transcript"]
RELOAD = {"route": {"receiver": "x", "group_by": ["..."]}, "receivers": [{"name": "x", "webhook_configs": [{}]}]}


def events_of(folder):
    with open(f"{folder}/script.jsonl", "rb") as file:
        lines = [line.strip() for line in file if line.strip()]
    return [line for line in lines if b'"at"' in line]


def label_sets_of(events):
    """Returns the label sets of the alerts that the events post, each once."""
    found = []
    for event in events:
        for alert in json.loads(event).get("alerts", []):
            labels = json.dumps(alert["labels"], separators=(",", ":")).encode()
            if labels not in found:
                found.append(labels)
    return found


class EachCall:
    """The sweep over one incident."""

    def __init__(self, program, preload, folder, room):
        self.made = program, preload, folder, room
        self.name = folder.rsplit("/", 1)[-1]
        self.events = events_of(folder)
        self.refusals, self.unheld, self.without_memory, self.faults = 0, 0, 0, 0

    def fault(self, text):
        self.faults += 1
        print(f"refused memory: {self.name}: {text}", file=sys.stderr)

    def fresh(self, cursor):
        """Returns a session that was never asked anything but to go to the cursor."""
        session = Replayed(*self.made)
        session.ask(f"seek {cursor}".encode())
        return session

    def calls(self, cursor):
        """Returns every call that may be made at a position of the cursor."""
        moments = [json.loads(event)["at"].encode() for event in self.events]
        last_at = moments[-1]
        reload = json.dumps({"at": last_at.decode(), "reload": RELOAD}).encode()
        calls = [b"step", b"back", *LISTINGS]
        calls += [f"seek {n}".encode() for n in range(len(self.events) + 1)]
        calls += [b"seek-time " + at for at in moments]
        calls += [b"trial " + event for event in [*self.events, reload]]
        calls += [b"explain " + labels for labels in label_sets_of(self.events)]
        return calls

    def seen(self, session):
        """Returns all that the session lists, with ample memory."""
        return [session.ask(listing)[0] for listing in LISTINGS]

    def go_to(self, session, cursor):
        session.ask(f"seek {cursor}".encode())

    def refused_once(self, session, cursor, call, at, whole, before):
        """Makes a call with one growth refused, and returns whether that growth was made at all. After a refusal all is as before, and the call
        made again gives the whole answer."""
        answer, was_refused = session.ask(call, at)
        if not was_refused:
            return False
        self.refusals += 1
        if is_unheld(answer):
            self.unheld += 1
            if len(answer) > 1 or last(answer)["cursor"] != cursor:
                self.fault(f"{call!r} at {cursor}, growth {at} refused: it was refused with {answer!r}")
            if self.seen(session) != before:
                self.fault(f"{call!r} at {cursor}, growth {at} refused: something changed")
            answer = session.ask(call)[0]
        if answer != whole:
            self.fault(f"{call!r} at {cursor}, growth {at} refused: it answers {answer!r} in place of {whole!r}")
        return True

    def one_call(self, cursor, call):
        """Refuses each growth of a call in turn: in a session that was never asked anything else, until no growth is left."""
        with self.fresh(cursor) as session:
            before = self.seen(session)
            whole = session.ask(call)[0]
        at = 1
        with self.fresh(cursor) as session:
            while self.refused_once(session, cursor, call, at, whole, before):
                self.go_to(session, cursor)
                at += 1

    def one_call_cold(self, cursor, call):
        """As `one_call`, but with a new session for each growth, so that nothing was cached or made before."""
        with self.fresh(cursor) as session:
            before = self.seen(session)
            whole = session.ask(call)[0]
        at, made = 1, True
        while made:
            with self.fresh(cursor) as session:
                made = self.refused_once(session, cursor, call, at, whole, before)
            at += 1

    def without_any_memory(self, cursor):
        """Makes the calls that need no memory with each growth refused."""
        count = len(self.events)
        moments = [json.loads(event)["at"].encode() for event in self.events]
        with self.fresh(cursor) as session:
            # A line longer than any of these has been held before.
            session.ask(b'explain {"a":"' + b"a" * 200 + b'"}')
            wanted = [(f"seek {n}".encode(), None) for n in range(cursor + 1)]
            wanted += [(f"seek {count + 1}".encode(), 24)]
            wanted += [(b"step", 22)] if cursor == count else []
            wanted += [(b"back", None if cursor else 23), (b"cursor", None)]
            for call, number in wanted:
                self.unrefused(session, cursor, call, number)
            for at in moments:
                self.go_to(session, cursor)
                with self.fresh(cursor) as other:
                    target = last(other.ask(b"seek-time " + at)[0])["cursor"]
                if target <= cursor:
                    self.unrefused(session, cursor, b"seek-time " + at, None)

    def unrefused(self, session, cursor, call, number):
        """Makes one call with each growth refused, which may be refused with that number, but not for its memory."""
        self.go_to(session, cursor)
        with self.fresh(cursor) as other:
            whole = other.ask(call)[0]
        answer, _ = session.ask(call, 1, and_all_after=True)
        self.without_memory += 1
        if answer != whole or last(answer).get("refused") != number:
            self.fault(f"{call!r} at {cursor} without memory: it answers {answer!r} in place of {whole!r}")


def tasks_of(sweep):
    """Returns what is to be done of a sweep, in pieces that can be done side by side."""
    tasks = [(sweep.without_any_memory, (cursor,)) for cursor in range(len(sweep.events) + 1)]
    for cursor in range(len(sweep.events) + 1):
        tasks += [(sweep.one_call, (cursor, call)) for call in sweep.calls(cursor)]
        moves = [b"step", f"seek {len(sweep.events)}".encode(), *[b"trial " + event for event in sweep.events]]
        tasks += [(sweep.one_call_cold, (cursor, call)) for call in moves]
    return tasks
