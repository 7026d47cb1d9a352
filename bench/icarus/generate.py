#!/usr/bin/env python3
"""Writes a workload: 100 layers of gates of two pins over 16 inputs, which are set at every tenth instant, and questions about the last
layer. With a width of 2,000 and a horizon of 100,000 it is the one of bench/demand.

    generate.py FOLDER WIDTH HORIZON SEED

FOLDER gets workload.bench, .timing and .stim, and these scripts:
- sixteen.script: sixteen questions near the horizon, every fourth a wave of 20 instants, the others a value;
- outputs.script: each signal of the last layer, at one time near the horizon;
- everything.script: each signal from 0 to the horizon, from the first layer to the last."""
from __future__ import annotations

import os
import sys
from collections.abc import Iterable, Iterator

KINDS = ("AND", "NAND", "OR", "NOR", "XOR", "XNOR")
LAYERS = 100


def draws(seed: int) -> Iterator[int]:
    while True:
        seed = (1103515245 * seed + 12345) % 2147483648
        yield seed // 65536


def main(folder: str, width: int, horizon: int, seed: int) -> None:
    draw = draws(seed)
    os.makedirs(folder, exist_ok=True)

    def lines(name: str, made: Iterable[str]) -> None:
        with open(os.path.join(folder, name), "w", encoding="ascii") as file:
            file.writelines(f"{line}\n" for line in made)

    def netlist() -> Iterator[str]:
        for place in range(16):
            yield f"INPUT(i{place})"
        for layer in range(LAYERS):
            below = (f"g{layer - 1}_", width) if layer else ("i", 16)
            for place in range(width):
                first, second = (f"{below[0]}{(place + step) % below[1]}" for step in (0, 1))
                yield f"g{layer}_{place} = {KINDS[next(draw) % 6]}({first}, {second})"
        for place in range(width):
            yield f"OUTPUT(g{LAYERS - 1}_{place})"

    def stimulus() -> Iterator[str]:
        yield f"horizon {horizon}"
        for time in range(0, horizon + 1, 10):
            for place in range(16):
                yield f"set i{place} {time} {next(draw) % 2}"

    def sixteen() -> Iterator[str]:
        for line in range(16):
            signal = f"g{LAYERS - 1}_{next(draw) % width}"
            time = horizon * 9 // 10 + next(draw) % (horizon // 10 - horizon // 1000)
            yield f"wave {signal} {time} {time + 20} 20000" if line % 4 == 0 and time + 20 <= horizon else f"at {signal} {time} 20000"

    lines("workload.bench", netlist())
    lines("workload.timing", ["default 1"])
    lines("workload.stim", stimulus())
    lines("sixteen.script", sixteen())
    lines("outputs.script", (f"at g{LAYERS - 1}_{place} {horizon * 19 // 20} 15000" for place in range(width)))
    lines("everything.script", (f"wave g{layer}_{place} 0 {horizon + 1} 15000" for layer in range(LAYERS) for place in range(width)))


if __name__ == "__main__":
    if len(sys.argv) != 5:
        sys.exit(__doc__)
    main(sys.argv[1], *map(int, sys.argv[2:]))
