#!/usr/bin/env python3
"""Writes circuits on which faults are found: an array multiplier, a filter, or one that is drawn from a number.

    bench/faults/circuits.py multiplier BITS FOLDER
    bench/faults/circuits.py filter TAPS BITS FOLDER
    bench/faults/circuits.py drawn GATES INPUTS OUTPUTS FLOPS FOLDER

Makes FOLDER with `netlist.bench` and `timing`, every delay being 1; with flip-flops there are a clock with an edge at 60 and each 120 after
it, and initial values.

- The multiplier has the inputs a0, a1 and so on and b0, b1 and so on, and the outputs p0, p1 and so on.
- The filter adds the products of the last TAPS samples with a coefficient each. A sample x0, x1 and so on comes with each edge, and a
  coefficient c0, c1 and so on is taken where its `load` is 1. Samples, coefficients, products and the sum are in flip-flops: a pipeline, as
  most circuits that work out numbers are.
- A drawn circuit has gates of one to four pins, most of which read what stands near. Its flip-flops follow one another without an order,
  so that most faults come through very many of them: hard to show, and harder to confirm."""
from __future__ import annotations

import random
import sys
from collections.abc import Callable, Iterable, Sequence
from pathlib import Path

SEED = 58
KINDS = ("AND", "NAND", "OR", "NOR", "NOT", "BUFF", "XOR", "XNOR")
NEAR = 300
PERIOD = 120


class Netlist:
    """The lines of a netlist."""

    def __init__(self) -> None:
        self.lines: list[str] = []
        self.count = 0

    def gate(self, kind: str, *pins: str) -> str:
        """A new gate, and its name."""
        self.count += 1
        name = f"g{self.count}"
        self.lines.append(f"{name} = {kind}({', '.join(pins)})")
        return name

    def add(self, one: str, two: str, carry: str | None) -> tuple[str, str]:
        """The sum and the carry of two bits, or three."""
        half, both = self.gate("XOR", one, two), self.gate("AND", one, two)
        if carry is None:
            return half, both
        return self.gate("XOR", half, carry), self.gate("OR", both, self.gate("AND", half, carry))


def total(made: Netlist, left: Sequence[str], right: Sequence[str] = ()) -> list[str]:
    """The bits of a sum of two numbers, the left one not shorter."""
    found: list[str] = []
    carry = None
    for place, one in enumerate(left):
        if place < len(right):
            one, carry = made.add(one, right[place], carry)
        elif carry is not None:
            one, carry = made.add(one, carry, None)
        found.append(one)
    return found + ([carry] if carry is not None else [])


def product(made: Netlist, left: list[str], right: list[str]) -> list[str]:
    """The bits of a product: a row of adders for each bit of the right number."""
    found: list[str] = []
    row: list[str] = []
    for one in right:
        lowest, *row = total(made, [made.gate("AND", other, one) for other in left], row)
        found.append(lowest)
    return found + row


def ports(kind: str, names: Iterable[str]) -> list[str]:
    return [f"{kind}({name})" for name in names]


def word(name: str, bits: int) -> list[str]:
    return [f"{name}{place}" for place in range(bits)]


def multiplier(bits: int) -> list[str]:
    """The lines of a multiplier."""
    made = Netlist()
    left, right = word("a", bits), word("b", bits)
    found = product(made, left, right)
    outputs = word("p", len(found))
    return ports("INPUT", left + right) + ports("OUTPUT", outputs) + made.lines + [f"{name} = BUFF({bit})" for name, bit in zip(outputs, found)]


def filter_of(taps: int, bits: int) -> list[str]:
    """The lines of a filter."""
    made = Netlist()
    flops: list[str] = []

    def kept(name: str, pins: list[str]) -> list[str]:
        """Flip-flops of these pins."""
        names = word(name, len(pins))
        flops.extend(f"{flop} = DFF({pin})" for flop, pin in zip(names, pins))
        return names

    sample, coefficient = word("x", bits), word("c", bits)
    loads = word("load", taps)
    inputs = sample + coefficient + loads
    terms = []
    for tap, load in enumerate(loads):
        sample = kept(f"s{tap}_", sample)
        stays = made.gate("NOT", load)
        own = [made.gate("OR", made.gate("AND", load, new), made.gate("AND", stays, f"k{tap}_{place}")) for place, new in enumerate(coefficient)]
        terms.append(kept(f"p{tap}_", product(made, sample, kept(f"k{tap}_", own))))
    while len(terms) > 1:
        terms = [total(made, *terms[place:place + 2]) for place in range(0, len(terms), 2)]
    outputs = kept("y", terms[0])
    return ports("INPUT", inputs) + ports("OUTPUT", outputs) + made.lines + flops


def drawn(gates: int, inputs: int, outputs: int, flops: int) -> list[str]:
    """The lines of a circuit that is drawn. What no gate reads is an output first."""
    draw = random.Random(SEED)
    names = [f"i{place}" for place in range(inputs)] + [f"q{place}" for place in range(flops)]
    lines, unread = [], dict.fromkeys(names)
    for place in range(gates):
        kind = draw.choice(KINDS)
        count = 1 if kind in ("NOT", "BUFF") else draw.choice((2, 2, 2, 2, 3, 4))
        pins = [draw.choice(names[-NEAR:] if draw.random() < 0.8 else names) for _ in range(count)]
        for pin in pins:
            unread.pop(pin, None)
        names.append(f"g{place}")
        unread[names[-1]] = None
        lines.append(f"{names[-1]} = {kind}({', '.join(pins)})")
    ends = [name for name in unread if name.startswith("g")]
    draw.shuffle(ends)
    looked, read = ends[:outputs], ends[outputs:]
    lines += [f"q{place} = DFF({read[place] if place < len(read) else draw.choice(names[inputs:])})" for place in range(flops)]
    # the rest of what is read nowhere goes into parities, which are outputs too
    rest = read[flops:]
    parities = [rest[place:place + 16] for place in range(0, len(rest), 16)]
    lines += [f"r{place} = XOR({', '.join(own)})" for place, own in enumerate(parities)]
    return ports("INPUT", word("i", inputs)) + ports("OUTPUT", [*looked, *word("r", len(parities))]) + lines


def write(folder: Path, lines: list[str]) -> None:
    """Makes the folder with the netlist and the timing."""
    draw = random.Random(SEED)
    folder.mkdir(parents=True, exist_ok=True)
    (folder / "netlist.bench").write_text("".join(f"{line}\n" for line in lines))
    flops = [line.split(" ")[0] for line in lines if "= DFF(" in line]
    clock = [f"clock {PERIOD // 2} {PERIOD}"] if flops else []
    (folder / "timing").write_text("".join(f"{line}\n" for line in ["default 1", *clock, *(f"init {name} {draw.choice('01')}" for name in flops)]))


MAKERS: dict[str, tuple[Callable[..., list[str]], int]] = {"multiplier": (multiplier, 1), "filter": (filter_of, 2), "drawn": (drawn, 4)}


def main(words: list[str]) -> None:
    if not words or words[0] not in MAKERS:
        sys.exit(__doc__)
    maker, count = MAKERS[words[0]]
    numbers = words[1:-1]
    if len(numbers) != count or not all(number.isdigit() for number in numbers):
        sys.exit(__doc__)
    write(Path(words[-1]), maker(*map(int, numbers)))


if __name__ == "__main__":
    main(sys.argv[1:])
