"""Interrupts of long work, which leaves what is known."""
from __future__ import annotations

import signal
import threading
from collections.abc import Iterator
from contextlib import contextmanager
from types import FrameType
from typing import NoReturn

_STOPS = (signal.SIGINT, signal.SIGTERM)


@contextmanager
def stoppable() -> Iterator[None]:
    """Has the first of SIGINT and SIGTERM raise KeyboardInterrupt, with its number, in the block, and passes over those that follow, so that
    what is known is written whole. A signal that this process ignores stays ignored. Elsewhere than in the main thread nothing is changed."""
    if threading.current_thread() is not threading.main_thread():
        yield
        return
    before = {number: signal.getsignal(number) for number in _STOPS}
    taken = [number for number in _STOPS if before[number] is not signal.SIG_IGN]

    def stop(number: int, frame: FrameType | None) -> NoReturn:
        for one in taken:
            signal.signal(one, signal.SIG_IGN)
        raise KeyboardInterrupt(number)

    for number in taken:
        signal.signal(number, stop)
    try:
        yield
    finally:
        for number in taken:
            signal.signal(number, before[number])
