"""Work divided over processes of this package, which end with the one that started them, however that ends."""
from __future__ import annotations

import multiprocessing
import os
import signal
from collections import deque
from collections.abc import Callable, Iterable, Iterator
from multiprocessing.connection import Connection, wait
from multiprocessing.process import BaseProcess
from types import TracebackType
from typing import Any, Generic, TypeVar

from ..session.program import interrupt_held

T = TypeVar("T")
R = TypeVar("R")
_SECONDS_TO_END = 5


class Processes(Generic[T, R]):
    """A context manager with processes that do tasks by `work`, which gives results one after another. They are forked when the block
    begins, so that `work` may stand on what was made before; tasks and results are pickled. With one job all is done in this process.

    Where the block ends early the processes are ended at once. They pass over an interrupt, which the terminal sends to them too."""

    def __init__(self, work: Callable[[T], Iterable[R]], jobs: int) -> None:
        self._work = work
        self._jobs = jobs
        self._processes: list[BaseProcess] = []
        self._ends: list[Connection] = []

    def __enter__(self) -> Processes[T, R]:
        if self._jobs > 1:
            context = multiprocessing.get_context("fork")
            with interrupt_held():
                for _ in range(self._jobs):
                    own, other = context.Pipe()
                    process = context.Process(target=_serve, args=(self._work, other, own, list(self._ends)), daemon=True)
                    process.start()
                    other.close()
                    self._processes.append(process)
                    self._ends.append(own)
        return self

    def __exit__(self, kind: type[BaseException] | None, error: BaseException | None, trace: TracebackType | None) -> None:
        for process in self._processes:
            process.terminate()
        for process in self._processes:
            process.join(_SECONDS_TO_END)
        for end in self._ends:
            end.close()

    def results(self, tasks: Iterable[T]) -> Iterator[R]:
        """The results of all tasks, as they come. What a task raises is raised here."""
        if not self._processes:
            for task in tasks:
                yield from self._work(task)
            return
        left = deque(tasks)
        busy: set[Connection] = set()
        for end in self._ends:
            if left:
                end.send(left.popleft())
                busy.add(end)
        while busy:
            for ready in wait(list(busy)):
                assert isinstance(ready, Connection)
                result: R | _Done = _received(ready)
                if isinstance(result, _Done):
                    if result.error is not None:
                        raise result.error
                    if left:
                        ready.send(left.popleft())
                    else:
                        busy.discard(ready)
                else:
                    yield result


class _Done:
    """Says that a task is done, and what it raised."""

    def __init__(self, error: BaseException | None = None) -> None:
        self.error = error


def _received(end: Connection) -> Any:
    try:
        return end.recv()
    except (EOFError, ConnectionError):
        raise RuntimeError("a process that simulates faults ended early") from None


def _serve(work: Callable[[T], Iterable[R]], end: Connection, own: Connection, others: list[Connection]) -> None:
    """Does tasks until there are no more, or the process that started this one is gone."""
    signal.signal(signal.SIGINT, signal.SIG_IGN)
    signal.signal(signal.SIGTERM, signal.SIG_DFL)
    # the ends of the starter, inherited: while they are open here, this end never learns that the starter is gone
    for other in (own, *others):
        other.close()
    starter = os.getppid()
    try:
        while True:
            task = end.recv()
            error: BaseException | None = None
            try:
                for result in work(task):
                    if os.getppid() != starter:
                        return
                    end.send(result)
            except Exception as raised:
                error = raised
            end.send(_Done(error))
    except (EOFError, ConnectionError):
        return
