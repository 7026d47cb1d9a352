"""Waiting for what other processes do. The limits are for a machine with much other work; what waits for an event ends with it."""
from __future__ import annotations

import subprocess
import time
from collections.abc import Callable
from pathlib import Path

PATIENCE = 600.0


def wait_until(is_so: Callable[[], object], what: str) -> None:
    """Waits for an event; AssertionError where it does not come."""
    until = time.monotonic() + PATIENCE
    while not is_so():
        assert time.monotonic() < until, f"it does not come to this: {what}"
        time.sleep(0.02)


def wait_while_running(process: subprocess.Popen[str], is_so: Callable[[], object], what: str) -> None:
    """As `wait_until`, as long as the process goes on; AssertionError with what it said where it ends before."""
    def has_come() -> bool:
        found = bool(is_so())
        assert found or process.poll() is None, f"it ended before this: {what}: {process.stderr and process.stderr.read()}"
        return found

    wait_until(has_come, what)


def children_of(process: int) -> list[int]:
    """The processes that this one has started and not yet heard the end of."""
    return [int(path.name) for path in Path("/proc").iterdir() if path.name.isdigit() and _parent_of(path) == process]


def _parent_of(path: Path) -> int | None:
    try:
        return int((path / "stat").read_text().rpartition(")")[2].split()[1])
    except OSError:
        return None


def is_there(process: int | str) -> bool:
    """Whether the process goes on, or its end is still to be heard."""
    return Path(f"/proc/{process}").exists()


def ticks_of(process: int) -> int:
    """The processor time that a process has had, in hundredths of a second, which other work on the machine does not change."""
    state = Path(f"/proc/{process}/stat").read_text().rpartition(")")[2].split()
    return int(state[11]) + int(state[12])
