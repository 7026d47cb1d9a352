#!/usr/bin/env python3
"""Times sessions that have no counterpart elsewhere: a long stimulus, outputs that share their cones, an explanation, and batches at the
limits.

    bench/sessions/run.py [stimulus] [multiplier] [why] [stuck] [limits] [chosen]

Runs all where none is named. Each prints a table. Times are wall times of whole sessions, the reading of their files included, and
memory is the most that the process had. The replies must be those that integers give; else the script ends with status 1.

- stimulus: 960,000 settings of 64 inputs, in three orders, and no question.
- multiplier: an array multiplier of 64 by 64 bits between registers, and of its product's bits 0 to 127 the parities of those from bit K
  on, for K below 64. The 64 parities are asked at the end of a clock period, in one batch, and each in a session of its own, by one
  worker.
- why: a ring of 63 inverters, of which one is set at time 0 and free from then on, asked for an explanation a million instants later, with
  one worker. Its two values before, of which each takes nearly the greatest budget, are asked first. Then `backsim_check` is given the
  explanation, and the same with its cells again and again, up to the longest text that it takes.
- stuck: 100 layers of 10,000 XOR gates with two pins each, by one worker. A signal of the first layer reaches nearly all of the million,
  and what is asked are gates of the sixth layer, each at one instant. A session has lines of another site each with empty windows, lines
  of one site, with both values, or lines of another site each; the time of a line is that of the session less that of its first line
  alone.
- limits: 12 layers of 2,000 XOR gates with four pins each, of 64 inputs that are set at each of 10,001 instants. A batch asks 64 gates of
  the last layer, each at an instant of its own and with the 64th part of the greatest budget. One session has one batch, and one has as
  many as fill 64 shards of 65,536 cells, with four workers.
- chosen: files whose names or numbers were chosen for one bucket of a hash, and drawn ones, and no question."""
from __future__ import annotations

import os
import random
import subprocess
import sys
import tempfile
from collections.abc import Callable, Iterable
from functools import reduce
from operator import xor
from pathlib import Path
from typing import NamedTuple

TOP = Path(__file__).resolve().parents[2]
SEED = 46


class Measured(NamedTuple):
    output: bytes
    seconds: float
    megabytes: float


def program(name: str) -> str:
    return subprocess.run([TOP / "tools" / "program", name], check=True, stdout=subprocess.PIPE, text=True).stdout.strip()


# Runs a program, and tells its status, seconds and memory. A process's memory counts from that of the one that began it, so a small one
# does, and not this one.
RUNNER = """
import os, sys, time
start = time.monotonic()
_, status, usage = os.wait4(os.posix_spawn(sys.argv[1], sys.argv[1:], os.environ), 0)
print(os.waitstatus_to_exitcode(status), time.monotonic() - start, usage.ru_maxrss / 1000, file=sys.stderr)
"""


def measured(folder: Path, words: list[str], script: bytes = b"", runs: int = 3) -> Measured:
    """The output of the program with these words, and the shortest of its times."""
    (folder / "script").write_bytes(script)
    found: list[Measured] = []
    for _ in range(runs):
        with open(folder / "script", "rb") as source, open(folder / "output", "wb") as target:
            ran = subprocess.run([sys.executable, "-c", RUNNER, *words], cwd=folder, stdin=source, stdout=target, stderr=subprocess.PIPE)
        *said, status, seconds, megabytes = ran.stderr.decode().split()
        if said or status != "0":
            sys.exit(f"bench/sessions: {words[0]} ended with status {status}: {' '.join(said)}")
        found.append(Measured((folder / "output").read_bytes(), float(seconds), float(megabytes)))
    return min(found, key=lambda one: one.seconds)


def session(folder: Path, script: bytes, *options: str, runs: int = 3) -> Measured:
    return measured(folder, [program("backsim"), "n", "t", "s", "j", *options], script, runs)


def evaluations(folder: Path) -> int:
    return (folder / "j").read_bytes().count(b"\nfill ")


def write(folder: Path, name: str, lines: Iterable[str]) -> None:
    (folder / name).write_text("".join(line + "\n" for line in lines))


def is_same(found: bytes, wanted: str) -> None:
    if found != wanted.encode():
        sys.exit("bench/sessions: the replies are not those that integers give")


# The stimulus.

LINES, TURNS = 64, 15_000


def time_stimulus(folder: Path) -> None:
    draw = random.Random(SEED)
    write(folder, "n", [*(f"INPUT(i{line})" for line in range(LINES)), "y = NOT(i0)"])
    write(folder, "t", ["default 1"])
    settings = [(turn, line, draw.getrandbits(1)) for turn in range(TURNS) for line in range(LINES)]
    one_by_one = sorted(settings, key=lambda setting: setting[1])
    for name, order in (("in the order of time", settings), ("one input after another", one_by_one), ("times falling", settings[::-1])):
        write(folder, "s", [f"horizon {TURNS}", *(f"set i{line} {turn} {bit}" for turn, line, bit in order)])
        ran = session(folder, b"")
        is_same(ran.output, "")
        print(f"| {name} | {ran.seconds:.3f} | {ran.megabytes:.0f} |", flush=True)


# The multiplier.

BITS, PERIOD, PERIODS = 64, 2_000, 4


class Netlist:
    def __init__(self) -> None:
        self.lines: list[str] = []

    def gate(self, kind: str, *pins: str, name: str | None = None) -> str:
        name = name or f"n{len(self.lines)}"
        self.lines.append(f"{name} = {kind}({', '.join(pins)})")
        return name

    def added(self, one: str, other: str, carry: str | None) -> tuple[str, str]:
        """The sum of two or three bits, and what is carried."""
        half, both = self.gate("XOR", one, other), self.gate("AND", one, other)
        if carry is None:
            return half, both
        return self.gate("XOR", half, carry), self.gate("OR", both, self.gate("AND", half, carry))


def multiplier() -> Netlist:
    """Inputs a0 to a63 and b0 to b63, each with a flip-flop behind it, and outputs parity0 to parity63."""
    netlist = Netlist()
    netlist.lines += [f"INPUT({side}{bit})" for side in "ab" for bit in range(BITS)]
    netlist.lines += [f"OUTPUT(parity{bit})" for bit in range(BITS)]
    a, b = ([netlist.gate("DFF", f"{side}{bit}") for bit in range(BITS)] for side in "ab")
    product: list[str] = []
    row = [netlist.gate("AND", bit, b[0]) for bit in a]
    top: str | None = None  # the bit above the row, which the first row has not
    for factor in b[1:]:
        product.append(row[0])
        others = [*row[1:], *([top] if top else [])]
        sums: list[str] = []
        carry: str | None = None
        for place, bit in enumerate(a):
            term = netlist.gate("AND", bit, factor)
            if place < len(others):
                total, carry = netlist.added(others[place], term, carry)
            else:
                assert carry is not None
                total, carry = netlist.added(term, carry, None)
            sums.append(total)
        row, top = sums, carry
    assert top is not None
    product += [*row, top]
    parity = netlist.gate("DFF", product[-1])
    for place in reversed(range(2 * BITS - 1)):
        name = f"parity{place}" if place < BITS else None
        parity = netlist.gate("XOR", netlist.gate("DFF", product[place]), parity, name=name)
    return netlist


def time_multiplier(folder: Path) -> None:
    draw = random.Random(SEED)
    factors = [(draw.getrandbits(BITS), draw.getrandbits(BITS)) for _ in range(PERIODS)]
    write(folder, "n", multiplier().lines)
    write(folder, "t", [f"clock {PERIOD - 1} {PERIOD}", "default 1"])
    settings = (f"set {side}{bit} {PERIOD * turn} {factor >> bit & 1}" for turn, pair in enumerate(factors)
                for side, factor in zip("ab", pair) for bit in range(BITS))
    write(folder, "s", [f"horizon {PERIOD * PERIODS}", *settings])
    # The factors of the second period are in the registers from its end on, and their product from the end of the third.
    asked = PERIOD * PERIODS - 1
    product = factors[1][0] * factors[1][1]
    wanted = [f"at parity{bit} {asked} {(product >> bit).bit_count() & 1}\n" for bit in range(BITS)]
    lines = [f"at parity{bit} {asked} {10 ** 6 // BITS}\n".encode() for bit in range(BITS)]
    batch = session(folder, b"".join(lines), "--workers", "1")
    is_same(batch.output, "".join(wanted))
    print(f"| 64 outputs in one batch | {evaluations(folder):,} | {batch.seconds:.2f} |", flush=True)
    seconds, count = 0.0, 0
    for line, reply in zip(lines, wanted):
        line = line.replace(b" 15625", b" 500000")
        alone = session(folder, line, "--workers", "1", runs=1)
        is_same(alone.output, reply)
        seconds, count = seconds + alone.seconds, count + evaluations(folder)
    print(f"| each in a session of its own | {count:,} | {seconds:.2f} |")


# The explanation.

RING, ASKED, LONGEST = 63, 1_000_000, 256 * 2 ** 20


def time_why(folder: Path) -> None:
    # While `start` is 0, s0 is 1. From then on each turn of RING instants has the opposite of the turn before.
    value: Callable[[int], int] = lambda instant: 1 - (instant - 1) // RING % 2
    write(folder, "n", ["INPUT(start)", "OUTPUT(s0)", f"s0 = NAND(start, s{RING - 1})",
                        *(f"s{place} = NOT(s{place - 1})" for place in range(1, RING))])
    write(folder, "t", ["default 1"])
    write(folder, "s", [f"horizon {ASKED}", "set start 0 0", f"set start {RING} 1"])
    before = b"at s0 450000 500000\ngo\nat s0 900000 500000\ngo\n"  # no budget suffices for all
    room = ("--workers", "1", "--shards", "64", "--cells", "65536")
    without = session(folder, before, *room)
    is_same(without.output, "".join(f"at s0 {instant} {value(instant)}\n" for instant in (450_000, 900_000)))
    why = session(folder, before + f"why s0 {ASKED} 500000\n".encode(), *room)
    text = why.output.removeprefix(without.output)
    print(f"| the values before | {without.seconds:.2f} | {without.megabytes:.0f} |")
    print(f"| these and the explanation, {text.count(10):,} lines, {len(text) / 1e6:.1f} MB | {why.seconds:.2f} | {why.megabytes:.0f} |",
          flush=True)
    head, *lines, end = text.splitlines(keepends=True)
    cells = b"".join(lines)
    for name, turns in (("checked", 1), ("checked, with its cells as often as a proof may have them", LONGEST // len(cells))):
        (folder / "proof").write_bytes(head + turns * cells + end)
        checked = measured(folder, [program("backsim_check"), "n", "t", "s", "proof"])
        is_same(checked.output, f"yes s0 {ASKED} {value(ASKED)}\n")
        print(f"| {name} | {checked.seconds:.2f} | {checked.megabytes:.0f} |", flush=True)


# Layers of gates.

INPUTS = 64


def name(layer: int, place: int) -> str:
    return f"g{layer}_{place}" if layer else f"i{place}"


def write_layers(folder: Path, draw: random.Random, layers: int, width: int, pins: int) -> list[list[list[int]]]:
    """Writes a netlist of layers of XOR gates over INPUTS inputs, with delays of 1, and returns the places of each gate's pins."""
    drawn = [[draw.choices(range(width if layer else INPUTS), k=pins) for _ in range(width)] for layer in range(layers)]
    gates = (f"{name(layer + 1, place)} = XOR({', '.join(name(layer, pin) for pin in row_pins)})"
             for layer, row in enumerate(drawn) for place, row_pins in enumerate(row))
    write(folder, "n", [*(f"INPUT({name(0, place)})" for place in range(INPUTS)), *gates])
    write(folder, "t", ["default 1"])
    return drawn


# Stuck signals.

DEPTH, BREADTH, ASKED_LAYER, INSTANT = 100, 10_000, 6, 150


class StuckLine(NamedTuple):
    site: int  # in the first layer
    held: int
    asked: int  # in the layer that is asked
    instants: int


def time_stuck(folder: Path) -> None:
    draw = random.Random(SEED)
    layers = write_layers(folder, draw, DEPTH, BREADTH, 2)
    bits = draw.getrandbits(INPUTS)
    write(folder, "s", [f"horizon {INSTANT}", *(f"set {name(0, place)} 0 {bits >> place & 1}" for place in range(INPUTS))])

    def value(layer: int, place: int, line: StuckLine) -> int:
        if (layer, place) == (1, line.site):
            return line.held
        return reduce(xor, (value(layer - 1, pin, line) for pin in layers[layer - 1][place])) if layer else bits >> place & 1

    def reached(site: int) -> list[int]:
        """The places of the gates of the asked layer that read the site."""
        places = {site}
        for row in layers[1:ASKED_LAYER]:
            places = {place for place, pins in enumerate(row) if places & set(pins)}
        return sorted(places)

    def read_by(asked: int) -> int:
        """A place of the first layer that the gate reads."""
        return reduce(lambda place, row: row[place][0], layers[1:ASKED_LAYER][::-1], asked)

    def session_of(lines: list[StuckLine]) -> Measured:
        heads = [f"stuck {name(1, line.site)} {line.held} {name(ASKED_LAYER, line.asked)} {INSTANT} {INSTANT + line.instants}"
                 for line in lines]
        runs = (f"{INSTANT} {value(ASKED_LAYER, line.asked, line)}\n" if line.instants else "" for line in lines)
        ran = session(folder, "".join(head + "\n" for head in heads).encode(), "--workers", "1")
        is_same(ran.output, "".join(f"{head}\n{run}end\n" for head, run in zip(heads, runs)))
        return ran

    places = draw.sample(range(BREADTH), 1_000)
    others = reached(places[0])
    for title, lines in (
            ("empty windows, each line of another site", [StuckLine(place, 1, 0, 0) for place in places]),
            ("one site", [StuckLine(places[0], turn % 2, others[turn // 2 % len(others)], 1) for turn in range(1_000)]),
            ("each line of another site", [StuckLine(read_by(place), 1, place, 1) for place in places[:100]])):
        first, whole = session_of(lines[:1]), session_of(lines)
        each = 1000 * (whole.seconds - first.seconds) / (len(lines) - 1)
        print(f"| {title} | {len(lines):,} | {each:.2f} | {first.seconds:.2f} | {whole.megabytes:.0f} |", flush=True)


# The limits.

LAYERS, WIDTH, LAST, ASKS = 12, 2_000, 10_000, 64


def time_limits(folder: Path) -> None:
    draw = random.Random(SEED)
    layers = write_layers(folder, draw, LAYERS, WIDTH, 4)
    bits = [draw.getrandbits(INPUTS) for _ in range(LAST + 1)]
    write(folder, "s", [f"horizon {LAST}", *(f"set {name(0, place)} {instant} {bits[instant] >> place & 1}"
                                              for instant in range(LAST + 1) for place in range(INPUTS))])

    def value(asked: int, place: int) -> int:
        row = [bits[asked - LAYERS] >> input_ & 1 for input_ in range(INPUTS)]
        for pins in layers:
            row = [reduce(xor, (row[pin] for pin in several)) for several in pins]
        return row[place]

    def batch(turn: int) -> tuple[bytes, str]:
        asks = [(100 + 20 * (ASKS * turn + k), 31 * k % WIDTH) for k in range(ASKS)]
        script = "".join(f"at {name(LAYERS, place)} {asked} {10 ** 6 // ASKS}\n" for asked, place in asks)
        return script.encode(), "".join(f"at {name(LAYERS, place)} {asked} {value(asked, place)}\n" for asked, place in asks)

    for batches, options in ((1, ()), (7, ("--shards", "64", "--cells", "65536"))):
        scripts, wanted = zip(*(batch(turn) for turn in range(batches)))
        ran = session(folder, b"go\n".join(scripts), *options, runs=1 if batches > 1 else 3)
        is_same(ran.output, "".join(wanted))
        print(f"| {batches} | {evaluations(folder):,} | {ran.seconds:.1f} | {ran.megabytes:.0f} |", flush=True)


# Names and pairs that are chosen.

WORD = 2 ** 64 - 1
MIXER = 11_400_714_819_323_198_485  # of the hash of names in `bench_reader`
UNMIXER = pow(MIXER, -1, 2 ** 64)
LETTERS = b"0123456789ABCDEFGHIJKLMNOPQRSTUVWXYZ_abcdefghijklmnopqrstuvwxyz"
# of each ten times the first byte and the second are 602
ENDINGS = ("0z", "1p", "2f", "3\\", "4R", "5H", "6>", "74")
FEWER, MORE = 20_000, 70_000


def stems(draw: random.Random, count: int) -> list[str]:
    """Stems of 16 letters whose hash is below 2 to the 40, so that names have the bucket that their last two bytes say."""
    found: list[str] = []
    while len(found) < count:
        first = bytes(draw.choices(LETTERS, k=8))
        mixed = int.from_bytes(first, "little") * MIXER & WORD
        for _ in range(1_000):
            wanted = 0
            for shift in range(0, 40, 8):
                byte = draw.choice(LETTERS) ^ mixed >> shift & 255
                wanted += ((byte - (wanted * UNMIXER >> shift)) * MIXER & 255) << shift
            last = (mixed ^ wanted * UNMIXER & WORD).to_bytes(8, "little")
            if all(byte in LETTERS for byte in last):
                found.append((first + last).decode())
    return found[:count]


def kit_hash(*numbers: int) -> int:
    """The hash of numbers of 32 bits by which a hash map of the kit begins to look for a key."""
    state = 0x243F_6A88_85A3_08D3
    for number in numbers:
        product = (state ^ (number | number << 32)) * (0x9E37_79B9_7F4A_7C15 ^ 8)
        state = product & WORD ^ product >> 64
    return (state ^ state >> 32) & 2 ** 32 - 1


def time_chosen(folder: Path) -> None:
    draw = random.Random(SEED)
    plain: dict[str, list[str]] = {"n": ["INPUT(i0)"], "t": [], "s": ["horizon 999999"]}

    def usual(name: str) -> None:
        write(folder, name, plain[name])

    def compare(row: str, name: str, drawn: list[str], chosen: list[str], before: list[str] | None = None) -> None:
        times = []
        for lines in (drawn, chosen):
            write(folder, name, [*(before or []), *lines])
            times.append(session(folder, b"").seconds)
        print(f"| {row} | {len(chosen):,} | {times[0]:.3f} | {times[1]:.3f} | {times[1] / times[0]:.1f} |", flush=True)
        usual(name)

    for name in "nts":
        usual(name)
    chosen = [stem + ending for stem in stems(draw, FEWER // len(ENDINGS)) for ending in ENDINGS]
    drawn = ["".join(map(chr, draw.choices(LETTERS, k=18))) for _ in chosen]
    compare("names of a netlist", "n", [f"INPUT({name})" for name in drawn], [f"INPUT({name})" for name in chosen])
    write(folder, "n", [f"{name} = NOT({name})" for name in drawn + chosen])
    compare("names of delays", "t", [f"delay {name} 2" for name in drawn], [f"delay {name} 2" for name in chosen])

    numbers = sorted(range(1_000_000), key=lambda number: kit_hash(number) & 8_191)[:MORE]  # a table for so many has 8,192 groups
    gates = [f"n{number} = NOT(n0)" for number in range(1_000_000)]
    others = draw.sample(range(1_000_000), MORE)
    write(folder, "n", gates)
    compare("numbers of delays", "t", [f"delay n{number} 2" for number in others], [f"delay n{number} 2" for number in numbers])
    compare("numbers of outputs", "n", [f"OUTPUT(n{number})" for number in others], [f"OUTPUT(n{number})" for number in numbers], gates)

    pairs = sorted(((0, time) for time in range(1_000_000)), key=lambda pair: kit_hash(*pair) & 8_191)[:MORE]
    draw.shuffle(pairs)
    compare("times of a stimulus", "s", [f"set i0 {time} 0" for time in draw.sample(range(1_000_000), MORE)],
            [f"set i{place} {time} 0" for place, time in pairs], plain["s"])


TABLES = {
    "stimulus": (time_stimulus, "| 960,000 settings | seconds | MB |"),
    "multiplier": (time_multiplier, "| asked of the multiplier | evaluations | seconds |"),
    "why": (time_why, "| ring of 63 inverters | seconds | MB |"),
    "stuck": (time_stuck, "| stuck lines, a million gates | lines | ms a line | with the first alone, seconds | MB |"),
    "limits": (time_limits, "| batches at the limits | evaluations | seconds | MB |"),
    "chosen": (time_chosen, "| chosen | lines | seconds, drawn | seconds, chosen | ratio |"),
}


def main(names: list[str]) -> None:
    for name in names:
        run, head = TABLES[name]
        print(head)
        print("|" + "---|" * (head.count("|") - 1), flush=True)
        with tempfile.TemporaryDirectory() as folder:
            run(Path(folder))


if __name__ == "__main__":
    if not set(sys.argv[1:]) <= set(TABLES):
        sys.exit(__doc__)
    main(sys.argv[1:] or list(TABLES))
