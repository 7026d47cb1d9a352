#!/usr/bin/env python3
"""Times `from-vcd` on a long dump of a simulation of 400 signals, as a whole and in windows.

    bench/long_dumps/run.py [MEGABYTES]

The dump, of 20 MB where nothing is said, is drawn anew: a clock with a period of 10 ns, and in each half of it 120 changes at twenty times, an
eighth of them of a byte. The netlist has the clock, an input and a flip-flop. Of each case the shortest of two runs is told: the seconds that
the process had of a processor, in all and for a megabyte of the dump, what 100 MB would take by that, and the greatest memory. What is behind
a window is not read, so of the window near the beginning the seconds are those of any dump."""
from __future__ import annotations

import os
import random
import subprocess
import sys
import tempfile

TOP = os.path.dirname(os.path.dirname(os.path.dirname(os.path.abspath(__file__))))
SIGNALS, TIMES, CHANGES, HALF = 400, 20, 6, 5000
HEAD = "$timescale 1ps $end\n$scope module test $end\n$var wire 1 ! clk $end\n$var wire 1 \" a $end\n$var wire 1 # q $end\n"


def code(place: int) -> str:
    text = ""
    while True:
        text = chr(33 + place % 94) + text
        if place < 94:
            return text
        place = place // 94 - 1


def write(path: str, megabytes: int) -> int:
    """Writes the dump; gives its last time in ticks."""
    draw = random.Random(1)
    with open(path, "w") as file:
        file.write(HEAD)
        for place in range(3, SIGNALS):
            file.write(f"$var wire {1 if place % 8 else 8} {code(place)} s{place}{'' if place % 8 else ' [7:0]'} $end\n")
        file.write("$upscope $end\n$enddefinitions $end\n#0\n0!\n0\"\nx#\n")
        tick, size, value = 0, 0, 0
        while size < megabytes * 1_000_000:
            tick += HALF
            rises = tick // HALF % 2
            parts = [f"#{tick}\n{rises}!\n"]
            if rises:
                parts.append(f"{value}#\n")
            else:
                value = draw.getrandbits(1)
                parts.append(f"{value}\"\n")
            for step in range(TIMES):
                parts.append(f"#{tick + 10 + 37 * step}\n")
                for place in (draw.randrange(3, SIGNALS) for _ in range(CHANGES)):
                    parts.append(f"{draw.getrandbits(1)}{code(place)}\n" if place % 8 else f"b{draw.getrandbits(8):b} {code(place)}\n")
            text = "".join(parts)
            size += len(text)
            file.write(text)
        file.write(f"#{tick + HALF}\n")
    return tick + HALF


def run(words: list[str]) -> tuple[float, float]:
    """The seconds of a processor and the megabytes of memory of one run."""
    environment = os.environ | {"PYTHONPATH": os.path.join(TOP, "python")}
    child = subprocess.Popen([sys.executable, "-m", "backsim", "from-vcd", *words], env=environment, stderr=subprocess.DEVNULL)
    _, status, usage = os.wait4(child.pid, 0)
    if status:
        raise SystemExit(f"from-vcd ended with the status {status}")
    return usage.ru_utime + usage.ru_stime, usage.ru_maxrss / 1024


def main() -> None:
    megabytes = int(sys.argv[1]) if len(sys.argv) > 1 else 20
    with tempfile.TemporaryDirectory() as folder:
        files = {name: os.path.join(folder, name) for name in ("vcd", "bench", "timing", "window", "stim")}
        last = write(files["vcd"], megabytes)
        with open(files["bench"], "w") as file:
            file.write("INPUT(clk)\nINPUT(a)\nq = DFF(a)\n")
        with open(files["timing"], "w") as file:
            file.write("version 2\nclock clk 500 1000\nclocked q clk\n")
        window = ["--unit", "10ps", "--timing", files["timing"], "--window", files["window"]]
        cases = {"whole": ["--unit", f"{-(-last // 1_000_000_000)}ns" if last > 5_000_000_000 else "5ns"],
                 "a window of 2 us at the end": [*window, "--from", str(last // 10 - 200_000)],
                 "a window of 2 us near the beginning": [*window, "--from", "200000", "--to", "400000"]}
        for name, words in cases.items():
            seconds, memory = min(run([files["bench"], files["vcd"], "test", *words, "-o", files["stim"]]) for _ in range(2))
            rate = "" if "beginning" in name else f", {seconds / megabytes:.3f} s for a megabyte, {100 * seconds / megabytes:.1f} s for 100"
            print(f"{name}: {seconds:.1f} s of a processor for {megabytes} MB{rate}; {memory:.0f} MB of memory", flush=True)


if __name__ == "__main__":
    main()
