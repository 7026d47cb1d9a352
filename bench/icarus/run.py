#!/usr/bin/env python3
"""The same circuits, stimuli and questions for this program and for Icarus Verilog, which simulates the whole circuit forward. Prints
a table of wall times; every reply must be the same, byte for byte, or the script ends.

    bench/icarus/run.py [WIDTH..]

The circuits are those of generate.py, 100 layers of each WIDTH (20 and 200 where none is given; of 2,000 Icarus Verilog does not
compile the longer one in half an hour), with stimuli of 1,000 and of 100,000 instants, and examples/from_verilog. What is asked of
each:

- one: a single question in a session of its own; the mean of the first few of the sixteen. Icarus Verilog runs up to it.
- sixteen: sixteen questions near the end of the stimulus in one session.
- next: one question more in a session that goes on. A forward simulator that has passed the time must run again.
- outputs: each gate of the last layer at one time of the shorter stimulus.
- everything: every signal at every time, of a stimulus of 200 instants; Icarus Verilog dumps all.

Of Icarus Verilog two models are run: with transport delays, as this program's are, and with gate primitives, which are faster and
answer the same here, where all delays are 1; a time in brackets is one whose replies differ. The compilation is that of the first
model. A ratio is the time of the faster run whose replies are the same, without compilation, to this program's whole session, the
reading of its files included; above 1 this program is ahead."""
from __future__ import annotations

import os
import subprocess
import sys
import tempfile

from circuit import TOP, Circuit, timed
from generate import main as generate

EXAMPLE = os.path.join(TOP, "examples/from_verilog")


def workload(work: str, width: int, horizon: int) -> None:
    generate(work, width, horizon, 7)
    circuit = Circuit(work, os.path.join(work, "workload"), f"{100 * width:,} gates", horizon)
    if horizon == 200:
        circuit.everything(os.path.join(work, "everything.script"))
        return
    models, script, running = circuit.questions("sixteen", os.path.join(work, "sixteen.script"))
    circuit.one_by_one(models, script, running["transport"][0])
    if horizon == 1_000:
        circuit.questions("outputs", os.path.join(work, "outputs.script"))


def example(work: str) -> None:
    stem = os.path.join(EXAMPLE, "from_verilog")
    circuit = Circuit(work, stem, "from_verilog", 14_200)
    circuit.questions("its script", f"{stem}.script")
    signals = [line.split(" = ")[0] for line in open(f"{stem}.bench", encoding="ascii") if " = " in line]
    script = os.path.join(work, "everything.script")
    with open(script, "w", encoding="ascii") as file:
        file.writelines(f"wave {signal} 0 14200 150000\n" for signal in signals)
    circuit.everything(script)
    source = os.path.join(work, "source")
    compiling = timed(["iverilog", "-g2005", "-o", source, f"{EXAMPLE}/processor_test.v", f"{EXAMPLE}/processor.v"])[1]
    running = timed(["vvp", "-n", source], cwd=work, stderr=subprocess.DEVNULL)[1]
    print(f"\nThe Verilog source of from_verilog with its test bench, which dumps all: compilation {compiling:.2f} s, run {running:.2f} s.")


def main(widths: list[int]) -> None:
    print("Wall times in seconds; the shortest of three, of what takes more than a minute one.\n")
    print("| circuit | horizon | asked | compilation | transport | primitives | BACKSIM | ratio |")
    print("|---|---|---|---|---|---|---|---|", flush=True)
    for width in widths:
        for horizon in (200, 1_000, 100_000):
            with tempfile.TemporaryDirectory() as work:
                workload(work, width, horizon)
    with tempfile.TemporaryDirectory() as work:
        example(work)


if __name__ == "__main__":
    if not all(word.isdigit() for word in sys.argv[1:]):
        sys.exit(__doc__)
    main([int(word) for word in sys.argv[1:]] or [20, 200])
