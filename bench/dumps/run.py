#!/usr/bin/env python3
"""Times dumps of 64 wires over 1,000,001 instants, whose changes are many or few.

    bench/dumps/run.py

Each wire is an input that changes once in so many instants, asked in a window of 62,500 instants; the windows of the 64 wires
lie over the whole time, so that they add up to what a batch may have. Each session is run with its `vcd` line and without it, and
the time and the memory of both are told, best of three; the difference is what the dump takes."""
from __future__ import annotations

import itertools
import os
import subprocess
import sys
import tempfile
import time
from collections.abc import Iterable, Iterator

TOP = os.path.dirname(os.path.dirname(os.path.dirname(os.path.abspath(__file__))))
PROGRAM = subprocess.run([os.path.join(TOP, "tools", "program"), "backsim"], check=True, stdout=subprocess.PIPE, text=True).stdout.strip()
WIRES, LENGTH, STEP, HORIZON = 64, 62500, 14880, 1000000


def write(folder: str, name: str, lines: Iterable[str]) -> None:
    with open(os.path.join(folder, name), "w") as file:
        file.writelines(line + "\n" for line in lines)


def settings(period: int) -> Iterator[str]:
    """A line for each change of each wire in its window."""
    for wire in range(WIRES):
        start = STEP * wire
        for turn, instant in enumerate(range(start, min(start + LENGTH, HORIZON + 1), period)):
            yield f"set w{wire} {instant} {turn % 2}"


def session(folder: str, script: str) -> tuple[float, float]:
    """The seconds and the greatest memory, in MB, of the best of three runs."""
    found: list[tuple[float, float]] = []
    for _ in range(3):
        begun = time.monotonic()
        with open(os.path.join(folder, script)) as source, open(os.path.join(folder, "replies"), "w") as target:
            child = subprocess.Popen([PROGRAM, "n", "t", "s", "j"], cwd=folder, stdin=source, stdout=target)
            _, status, usage = os.wait4(child.pid, 0)
        if status:
            sys.exit(f"the session ended with {status}")
        found.append((time.monotonic() - begun, usage.ru_maxrss / 1000))
    return min(found)


def main() -> None:
    print("changes  dump MB  seconds without, with  MB without, with")
    for period in (1, 4, 16, 64, 256, 1024):
        with tempfile.TemporaryDirectory() as folder:
            write(folder, "n", [f"INPUT(w{wire})" for wire in range(WIRES)] + ["OUTPUT(w0)"])
            write(folder, "t", ["default 1"])
            write(folder, "s", itertools.chain([f"horizon {HORIZON}"], settings(period)))
            asked = [f"wave w{wire} {STEP * wire} {min(STEP * wire + LENGTH, HORIZON + 1)} 1" for wire in range(WIRES)]
            write(folder, "without", asked)
            write(folder, "with", asked + ["vcd w"])
            without, dumped = session(folder, "without"), session(folder, "with")
            with open(os.path.join(folder, "w")) as dump:
                changes = sum(line[0] in "01xz" for line in dump)
            size = os.path.getsize(os.path.join(folder, "w")) / 1e6
            print(f"{changes:7}  {size:7.2f}  {without[0]:8.3f} {dumped[0]:8.3f}     {without[1]:7.0f} {dumped[1]:7.0f}")


if __name__ == "__main__":
    main()
