"""Does tasks over the events of a part in several processes, each with a session of its own."""
from __future__ import annotations

import multiprocessing
import os
import signal
from contextlib import contextmanager
from dataclasses import dataclass
from typing import Any, Callable, Iterator

from ..program import Fault
from ..progress import Progress

PIECES = 4
FEW_TASKS = 2
POLL_SECONDS = 0.1
Task = Callable[[], Any]
_done: Any = None
_tasks: list[Task] = []
_report: Callable[[int], None] | None = None


@dataclass(frozen=True)
class Part:
    """The events from `first` to `last`, both included, counted from 1."""

    first: int
    last: int

    def __len__(self) -> int:
        return self.last - self.first + 1

    def cut(self, count: int) -> list[Part]:
        """Returns at most `count` parts, which are this one in order. An empty part is one part."""
        count = max(1, min(count, len(self)))
        edges = [self.first + len(self) * i // count for i in range(count + 1)]
        return [Part(start, end - 1) for start, end in zip(edges, edges[1:])]


def count_done() -> None:
    """Counts one event as done. A task calls it after each event."""
    if _done is not None:
        with _done.get_lock():
            _done.value += 1
        if _report is not None:
            _report(_done.value)


def over(tasks: list[Task], part: Part, name: str, progress: Progress) -> list[Any]:
    """Returns what each task gives. If they are more than a few, they are done at once, in processes that share the memory of this one."""
    global _done, _report
    _done = multiprocessing.Value("q", 0)
    if len(tasks) <= FEW_TASKS:
        _report = lambda count: progress.draw(name, count, len(part))  # noqa: E731
        return [task() for task in tasks]
    _report = None
    count = max(1, min(len(tasks), os.cpu_count() or 1))
    with multiprocessing.Pool(count, _share, (_done, tasks)) as pool:
        waiting = pool.map_async(_run, range(len(tasks)), chunksize=1)
        while not waiting.ready():
            waiting.wait(POLL_SECONDS)
            progress.draw(name, _done.value, len(part))
        return waiting.get()


@contextmanager
def beside(task: Task) -> Iterator[Task]:
    """Does a task in a process of its own meanwhile, and gives a way to wait for what it returns."""
    context = multiprocessing.get_context("fork")
    receiver, sender = context.Pipe(duplex=False)
    process = context.Process(target=_send, args=(sender, task))
    process.start()
    sender.close()

    def result() -> Any:
        try:
            value = receiver.recv()
        except EOFError:
            raise Fault("amreplay: a process of the page ended early") from None
        if isinstance(value, Fault):
            raise value
        return value

    try:
        yield result
    finally:
        receiver.close()
        process.terminate()
        process.join()


def _send(sender: Any, task: Task) -> None:
    _ends_with_its_parent()
    try:
        sender.send(task())
    except Fault as fault:
        sender.send(fault)


def _ends_with_its_parent() -> None:
    """Lets an interruption end the process that began this one, and that one end this."""
    signal.signal(signal.SIGINT, signal.SIG_IGN)
    signal.signal(signal.SIGTERM, signal.SIG_DFL)


def _share(done: Any, tasks: list[Task]) -> None:
    """Begins a process."""
    global _done, _tasks
    _ends_with_its_parent()
    _done, _tasks = done, tasks


def _run(number: int) -> Any:
    return _tasks[number]()
