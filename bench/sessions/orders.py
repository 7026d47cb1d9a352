#!/usr/bin/env python3
"""Times the orders of questions that could be slow for a memo, and one question over a million signals. Each prints a table.

    bench/sessions/orders.py [orders] [chains] [million]

- orders: 65,536 cells are evaluated by one worker, and 64 shards have room for all. A question asks a window of 64 cells, or one
  instant. In the usual order 1,024 signals with successive numbers have 64 cells each, and are asked one after another, forward in
  time. A step is an entry of the journal. Its time is that of the session less that of an empty script, by the number of entries, and
  its ratio is to the usual order of the same questions; one above 2 ends the script with status 1. "Without questions": the same
  ratio, where the time of as many such questions of an input, which take no step, is taken off too. "Twice": all windows are asked once
  more, so that a third of the steps are look-ups. "Evicting": the shard that has all has room for a quarter, and there the usual order
  is that of signals of one residue, since in no other one shard has all.
- chains: the same of claims: 65,536 points of which many are claimed at once. A chain of 1,024 gates is asked at 64 times, one with
  successive numbers, as usual, and one whose gates all lie in one shard; and a gate that reads itself is asked 65,536 instants back.
- million: a session with one question, and the same without it, over a netlist of a million signals.

All sessions of a table take turns, and the shortest of seven times counts. The replies must be those that integers give; else the
script ends with status 1. `chrt -f 10 bench/sessions/orders.py` lets the sessions run before all else on the machine."""
from __future__ import annotations

import random
import sys
import tempfile
from collections.abc import Iterable
from pathlib import Path
from typing import NamedTuple

from run import SEED, Measured, is_same, session, write

TURNS = 7
CELLS, EACH, SHARDS = 65_536, 64, 64
LONG = 10  # instants of a cell
GREATEST = 2  # ratio


class Asked(NamedTuple):
    """A script, and what it has to be answered."""

    script: bytes
    replies: str


def asked(pairs: Iterable[tuple[str, str]]) -> Asked:
    lines, replies = zip(*pairs)
    return Asked("".join(lines).encode(), "".join(replies))


# Each gate is its input, an instant later. So the cell at a place has these instants, and the place's parity as its value.


def start(place: int) -> int:
    return 1 + LONG * place


def window(name: str, first: int) -> tuple[str, str]:
    span = f"{name} {start(first)} {start(first + EACH)}"
    runs = "".join(f"{start(place)} {place % 2}\n" for place in range(first, first + EACH))
    return f"wave {span} {EACH}\n", f"wave {span}\n{runs}end\n"


def instant(name: str, place: int) -> tuple[str, str]:
    return f"at {name} {start(place)} 1\n", f"at {name} {start(place)} {place % 2}\n"


def input_instant(place: int) -> tuple[str, str]:
    time = start(place) - 1
    return f"at i {time} 1\n", f"at i {time} {place % 2}\n"


def input_window(first: int) -> tuple[str, str]:
    line, reply = window("i", first)
    # The window begins an instant after the input was set.
    changes = "".join(f"{LONG * place} {place % 2}\n" for place in range(first + 1, first + EACH + 1))
    return line, f"{reply.splitlines()[0]}\n{start(first)} {first % 2}\n{changes}end\n"


def shuffled(places: range) -> list[int]:
    return random.Random(SEED).sample(places, len(places))


def window_orders() -> dict[str, Asked]:
    signals, starts = range(CELLS // EACH), range(0, CELLS, EACH)
    return {
        "1,024 signals": asked(window(f"s{signal}", 0) for signal in signals),
        "signals of one residue": asked(window(f"s{SHARDS * signal}", 0) for signal in signals),
        "one signal forward": asked(window("s0", first) for first in starts),
        "one signal backward": asked(window("s0", first) for first in reversed(starts)),
        "one signal at random": asked(window("s0", first) for first in shuffled(starts)),
        "an input": asked(input_window(first) for first in starts),
    }


def instant_orders() -> dict[str, Asked]:
    places = range(CELLS)
    grid = [divmod(place, EACH) for place in places]
    return {
        "1,024 signals": asked(instant(f"s{signal}", place) for signal, place in grid),
        "signals of one residue": asked(instant(f"s{SHARDS * signal}", place) for signal, place in grid),
        "one signal forward": asked(instant("s0", place) for place in places),
        "one signal backward": asked(instant("s0", place) for place in reversed(places)),
        "one signal at random": asked(instant("s0", place) for place in shuffled(places)),
        "each of another signal": asked(instant(f"s{signal}", 0) for signal in places),
        "an input": asked(input_instant(place) for place in places),
    }


class Least(NamedTuple):
    """The shortest time of a script, and the entries of its journal."""

    seconds: float
    entries: int


def entries_of(journal: bytes) -> int:
    return sum(journal.count(f"\n{word} ".encode()) for word in ("claim", "fill", "told", "evict"))


def least_times(folder: Path, scripts: dict[str, Asked], cells: int) -> dict[str, Least]:
    room = ("--workers", "1", "--shards", str(SHARDS), "--cells", str(cells))
    least: dict[str, Least] = {}
    for _ in range(TURNS):
        for order, (script, replies) in scripts.items():
            (folder / "j").unlink(missing_ok=True)
            ran = session(folder, script, *room, runs=1)
            is_same(ran.output, replies)
            seconds = min(ran.seconds, least[order].seconds) if order in least else ran.seconds
            least[order] = Least(seconds, entries_of((folder / "j").read_bytes()))
    return least


def compare(folder: Path, form: str, scripts: dict[str, Asked], cells: int = CELLS) -> bool:
    """Prints the rows of scripts of which the first has the usual order, and says whether their ratios are small enough."""
    least = least_times(folder, {"empty": Asked(b"", ""), **scripts}, cells)
    usual = next(iter(scripts))
    questions = "an input" if "an input" in scripts else "empty"
    right = True

    def step(order: str, without: str) -> float:
        """Nanoseconds of a step of this order, where the time of the script `without` is not its own."""
        return 1e9 * (least[order].seconds - least[without].seconds) / least[order].entries

    for order in scripts:
        if order != "an input":
            ratio, strict = (step(order, without) / step(usual, without) for without in ("empty", questions))
            row = [form, order, f"{least[order].entries:,}", f"{step(order, 'empty'):.0f}", f"{ratio:.2f}", f"{strict:.2f}"]
            print("|", " | ".join(row), "|", flush=True)
            right = right and ratio <= GREATEST
    return right


def time_orders(folder: Path) -> bool:
    write(folder, "n", ["INPUT(i)", *(f"s{signal} = BUFF(i)" for signal in range(CELLS))])
    write(folder, "t", ["default 1"])
    write(folder, "s", [f"horizon {LONG * (CELLS + 1)}", *(f"set i {LONG * place} {place % 2}" for place in range(CELLS + 1))])
    windows = window_orders()
    twice = {order: Asked(2 * script, 2 * replies) for order, (script, replies) in windows.items()}
    of_one_shard = {order: both for order, both in twice.items() if order != "1,024 signals"}
    return all([
        compare(folder, "windows", windows),
        compare(folder, "windows, twice", twice),
        compare(folder, "windows, twice, evicting", of_one_shard, CELLS // 4),
        compare(folder, "instants", instant_orders()),
    ])


CHAIN = CELLS // EACH


def time_chains(folder: Path) -> bool:
    def chain(name: str) -> list[str]:
        return [f"{name}{gate} = BUFF({f'{name}{gate - 1}' if gate else 'i'})" for gate in range(CHAIN)]

    one_shard = [f"{gate}\n" + "\n".join(f"f{place}_{other} = BUFF(i)" for other in range(1, SHARDS))
                 for place, gate in enumerate(chain("r"))]
    write(folder, "n", ["INPUT(i)", "y = NOT(y)", *one_shard, *chain("c")])
    write(folder, "t", ["default 1"])
    write(folder, "s", [f"horizon {CELLS}", *(f"set i {LONG * place} {place % 2}" for place in range(CELLS // LONG))])

    def asks(name: str) -> Asked:
        times = range(CHAIN + LONG, CHAIN + LONG * (EACH + 1), LONG)
        last = f"{name}{CHAIN - 1}"
        return asked((f"at {last} {time} {CHAIN}\n", f"at {last} {time} {(time - CHAIN) // LONG % 2}\n") for time in times)

    return compare(folder, "chains", {
        "successive numbers": asks("c"),
        "signals of one residue": asks("r"),
        "a gate that reads itself": Asked(f"at y {CELLS} {CELLS}\n".encode(), f"at y {CELLS} x\n"),
    })


MILLION = 1_000_000


def time_million(folder: Path) -> bool:
    gates = (f"g{gate} = NAND({f'g{gate - 1}' if gate else 'i'}, {f'g{gate - 2}' if gate > 1 else 'i'})" for gate in range(MILLION - 1))
    write(folder, "n", ["INPUT(i)", *gates])
    write(folder, "t", ["default 1"])
    write(folder, "s", ["horizon 100", "set i 0 0"])
    last = f"g{MILLION - 2}"
    for shards in (8, 64):
        least: dict[str, Measured] = {}
        for _ in range(TURNS):
            for name, script in (("no question", b""), ("one question", f"at {last} 20\n".encode())):
                ran = session(folder, script, "--shards", str(shards), runs=1)
                # All gates are x at time 0, and so at 20, until the input's value comes.
                is_same(ran.output, f"at {last} 20 x\n" if script else "")
                before = least.get(name, ran)
                least[name] = ran._replace(seconds=min(ran.seconds, before.seconds), megabytes=min(ran.megabytes, before.megabytes))
        for name, ran in least.items():
            print(f"| {shards} | {name} | {1e3 * ran.seconds:.0f} | {ran.megabytes:.1f} |", flush=True)
    return True


TABLES = {
    "orders": (time_orders, "| questions | order | steps | ns a step | ratio | without questions |"),
    "chains": (time_chains, "| claims | order | steps | ns a step | ratio | without questions |"),
    "million": (time_million, "| shards | a million signals | ms | MB |"),
}


def main(names: list[str]) -> None:
    right = True
    for name in names:
        run, head = TABLES[name]
        print(head)
        print("|" + "---|" * (head.count("|") - 1), flush=True)
        with tempfile.TemporaryDirectory() as folder:
            right = run(Path(folder)) and right
    sys.exit(not right)


if __name__ == "__main__":
    if not set(sys.argv[1:]) <= set(TABLES):
        sys.exit(__doc__)
    main(sys.argv[1:] or list(TABLES))
