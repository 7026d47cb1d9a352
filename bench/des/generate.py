#!/usr/bin/env python3
"""Writes a pipeline that encrypts by DES, a new plaintext with a new key at each clock period, and questions about its ciphertext.

    bench/des/generate.py FOLDER PERIODS

The tables are those of FIPS 46-3, which standard.py has. Inputs are `plain1` to `plain64` and those 56 bits of `key1` to `key64` that
count; outputs are `cipher1` to `cipher64`. Behind each of the sixteen rounds are flip-flops: `l1_1` and so on for the left half, `r1_1`
for the right one, and but for the last round `k1_1` for the key, shifted. Permutations and shifts are no gates. An S-box has gates of at
most four pins: its four rows and sixteen columns are decoded by AND; a bit of its result is 1 where a row is chosen and one of the eight
columns whose entries in that row have the bit. The row is the first pin of that AND, so where it is 0 this program looks at nothing
else. There are 13,376 gates and 1,864 flip-flops.

Every delay is 1. A path between flip-flops takes at most 9 with theirs, and a clock period is 10. FOLDER gets:

- des.bench, des.timing and des.stim. The inputs change where a period begins, and flip-flops take their pins at its last instant.
- des.vectors: for each period whose ciphertext shows before the horizon, a line of the last instant at which it shows, the key and the
  plaintext, in hexadecimal digits. The first are those of a known example, and the others are drawn, always the same.
- last.script: the 64 outputs at the last of these instants, in one batch;
- some.script: the same at ten of these instants, the first and the last among them, a batch for each."""
from __future__ import annotations

import argparse
import itertools
import os
import random
from collections.abc import Iterable, Iterator, Sequence
from typing import NoReturn

from standard import BOXES, EXPANSION, FINAL, FIRST_CHOICE, INITIAL, PERMUTATION, SECOND_CHOICE, SHIFTS

PERIOD = 10  # instants
ROUNDS = len(SHIFTS)
BUDGET = 15_625  # the most that each of 64 questions of one batch may have; it suffices: no gate or flip-flop is needed twice
MOST = 10_000  # periods, whose settings are a third of the longest stimulus file
EXAMPLE = 0x133457799BBCDFF1, 0x0123456789ABCDEF  # a key and a plaintext, of which the ciphertext is 85E813540F0AB405
SEED = 46


class Words(argparse.ArgumentParser):
    """Bad words have one line, and status 2."""

    def error(self, message: str) -> NoReturn:
        self.exit(2, f"{self.prog}: {message}\n")


class Netlist:
    """The lines of a netlist. Bits are names of signals."""

    def __init__(self, inputs: Iterable[str]) -> None:
        self.lines = [f"INPUT({name})" for name in inputs]

    def gate(self, kind: str, pins: Iterable[str], name: str | None = None) -> str:
        """A further gate or flip-flop, and its name, which is made from its line where none is given."""
        name = name or f"n{len(self.lines) + 1}"
        self.lines.append(f"{name} = {kind}({', '.join(pins)})")
        return name

    def flops(self, name: str, pins: Iterable[str]) -> list[str]:
        return [self.gate("DFF", (pin,), f"{name}_{place}") for place, pin in enumerate(pins, 1)]

    def xor(self, left: Iterable[str], right: Iterable[str]) -> list[str]:
        return [self.gate("XOR", pins) for pins in zip(left, right)]

    def substituted(self, box: Sequence[Sequence[int]], six: Sequence[str]) -> list[str]:
        """The four bits of an S-box, given its rows. Each row has every number below sixteen once, so that eight entries have a bit."""
        both = [(self.gate("NOT", (bit,)), bit) for bit in six]
        rows = [self.gate("AND", pins) for pins in itertools.product(both[0], both[5])]
        columns = [self.gate("AND", pins) for pins in itertools.product(*both[1:5])]

        def row_has(row: str, entries: Sequence[int], bit: int) -> str:
            eight = [column for column, entry in zip(columns, entries) if entry & bit]
            return self.gate("AND", (row, self.gate("OR", (self.gate("OR", eight[:4]), self.gate("OR", eight[4:])))))

        return [self.gate("OR", [row_has(*pair, bit) for pair in zip(rows, box)]) for bit in (8, 4, 2, 1)]


def chosen(bits: Sequence[str], table: Iterable[int]) -> list[str]:
    """The bits at the places, counted from 1, of a table of the standard."""
    return [bits[place - 1] for place in table]


def netlist() -> list[str]:
    """The lines of des.bench."""
    plaintext, key = ([f"{name}{bit}" for bit in range(1, 65)] for name in ("plain", "key"))
    net = Netlist(plaintext + chosen(key, sorted(FIRST_CHOICE)))
    mixed, key = chosen(plaintext, INITIAL), chosen(key, FIRST_CHOICE)
    left, right = mixed[:32], mixed[32:]
    for number, shift in enumerate(SHIFTS, 1):
        key = key[shift:28] + key[:shift] + key[28 + shift:] + key[28:28 + shift]
        mixed = net.xor(chosen(right, EXPANSION), chosen(key, SECOND_CHOICE))
        result = [bit for place, box in enumerate(BOXES) for bit in net.substituted(box, mixed[6 * place:6 * place + 6])]
        left, right = net.flops(f"l{number}", right), net.flops(f"r{number}", net.xor(left, chosen(result, PERMUTATION)))
        if number < ROUNDS:
            key = net.flops(f"k{number}", key)
    outputs = [net.gate("BUFF", (bit,), f"cipher{place}") for place, bit in enumerate(chosen(right + left, FINAL), 1)]
    return net.lines + [f"OUTPUT({name})" for name in outputs]


def vectors(periods: int) -> list[tuple[int, int]]:
    """The key and the plaintext of each period, 64 bits each."""
    draw = random.Random(SEED)
    return [EXAMPLE, *((draw.getrandbits(64), draw.getrandbits(64)) for _ in range(periods - 1))]


def stimulus(applied: Sequence[tuple[int, int]]) -> Iterator[str]:
    """The lines of des.stim, which applies a key and a plaintext in each period."""
    yield f"horizon {PERIOD * len(applied)}"
    for period, pair in enumerate(applied):
        for name, word, table in zip(("key", "plain"), pair, (FIRST_CHOICE, INITIAL)):
            yield from (f"set {name}{bit} {PERIOD * period} {word >> 64 - bit & 1}" for bit in sorted(table))


def questions(times: Iterable[int]) -> Iterator[str]:
    """The 64 outputs at each of the times; 64 questions are a batch."""
    return (f"at cipher{bit} {time} {BUDGET}" for time in times for bit in range(1, 65))


def write(folder: str, periods: int) -> None:
    """Writes all files."""
    os.makedirs(folder, exist_ok=True)
    applied = vectors(periods)
    shown = range(PERIOD * (ROUNDS + 1) - 1, PERIOD * periods, PERIOD)  # the last instant of each period with a ciphertext
    some = [shown[place * (len(shown) - 1) // 9] for place in range(10)]
    files = {
        "des.bench": netlist(),
        "des.timing": ["default 1", f"clock {PERIOD - 1} {PERIOD}"],
        "des.stim": stimulus(applied),
        "des.vectors": (f"{time} {key:016X} {plaintext:016X}" for time, (key, plaintext) in zip(shown, applied)),
        "last.script": questions(shown[-1:]),
        "some.script": questions(some),
    }
    for name, lines in files.items():
        with open(os.path.join(folder, name), "w", encoding="ascii") as file:
            file.writelines(f"{line}\n" for line in lines)


def main() -> None:
    parser = Words(prog="generate.py", description="Writes a DES pipeline, what is encrypted, and questions.")
    parser.add_argument("folder", metavar="FOLDER", help="is made where it is not there")
    parser.add_argument("periods", metavar="PERIODS", type=int, help=f"of the clock, from 26 to {MOST}; 16 pass before a ciphertext shows")
    words = parser.parse_args()
    if not ROUNDS + 10 <= words.periods <= MOST:
        parser.error(f"the periods must be from {ROUNDS + 10} to {MOST}")
    try:
        write(words.folder, words.periods)
    except OSError as fault:
        parser.error(str(fault))


if __name__ == "__main__":
    main()
