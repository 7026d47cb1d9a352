#!/usr/bin/env python3
"""A stand-in for the program in tests of what becomes of bad replies, and of what needs no speed. It shares no code with the package:
it reads the three files in the plainest way, simulates every instant, and answers `wave`, `at`, `first`, `stuck` and `stats` lines.

The environment variable STAND_IN makes it bad: `leave N` leaves the N-th reply out, `cut N` ends in the middle of it, `empty` ends
before any reply, `refuse N` writes a refusal in its place and ends with status 2, `budget N` answers it by its budget."""
import os
import re
import sys


def words_in(path):
    for line in open(path, encoding="latin-1"):
        words = line.split("#")[0].split()
        if words:
            yield words


def netlist_of(path):
    inputs, gates = [], {}
    for words in words_in(path):
        line = "".join(words)
        port = re.fullmatch(r"(INPUT|OUTPUT)\((.*)\)", line)
        if port and "=" not in line:
            if port[1] == "INPUT":
                inputs.append(port[2])
            continue
        name, kind, pins = re.fullmatch(r"([^=]*)=(\w+)\((.*)\)", line).groups()
        gates[name] = (kind.upper(), pins.split(","))
    return inputs, gates


def timing_of(path, gates):
    plain, kinds, own, pins, clocks, clocked, init = 1, {}, {}, {}, {}, {}, {}
    for words in words_in(path):
        if words[0] == "default":
            if len(words) == 2:
                plain = int(words[1])
            else:
                kinds[words[1].upper()] = int(words[2])
        elif words[0] == "delay":
            own[words[1]] = int(words[2])
        elif words[0] == "pin":
            pins[words[1], int(words[2])] = int(words[3])
        elif words[0] == "clock":
            clocks["".join(words[1:-2])] = (int(words[-2]), int(words[-1]))
        elif words[0] == "clocked":
            clocked[words[1]] = words[2]
        elif words[0] == "init":
            init[words[1]] = words[2]

    def delay(name, place):
        return pins.get((name, place), own.get(name, kinds.get(gates[name][0], plain)))

    return delay, lambda flop: clocks.get(clocked.get(flop, "")), lambda flop: init.get(flop, "x")


def gate_value(kind, seen):
    seen = ["x" if value == "z" else value for value in seen]
    if kind in ("AND", "NAND"):
        value = "0" if "0" in seen else "x" if "x" in seen else "1"
    elif kind in ("OR", "NOR"):
        value = "1" if "1" in seen else "x" if "x" in seen else "0"
    elif kind in ("XOR", "XNOR"):
        value = "x" if "x" in seen else str(seen.count("1") % 2)
    else:
        value = seen[0]
    if kind in ("NAND", "NOR", "XNOR", "NOT"):
        value = {"0": "1", "1": "0", "x": "x"}[value]
    return value


class Circuit:
    def __init__(self, netlist, timing, stimulus):
        self.inputs, self.gates = netlist_of(netlist)
        self.delay, self.clock, self.init = timing_of(timing, self.gates)
        self.horizon, self.sets = 0, {}
        for words in words_in(stimulus):
            if words[0] == "horizon":
                self.horizon = int(words[1])
            else:
                self.sets.setdefault(words[1], {})[int(words[2])] = words[3].lower()
        self.names = [*self.inputs, *self.gates]
        self.known = {}

    def rows(self, site=None, value=None):
        """The value of each signal at each time, with a signal stuck."""
        if (site, value) not in self.known:
            rows = []
            for time in range(self.horizon + 1):
                row = {name: self.sets.get(name, {}).get(time, rows[-1][name] if rows else "x") for name in self.inputs}
                for name, (kind, pins) in self.gates.items():
                    row[name] = self.flop(rows, name, pins[0], time) if kind == "DFF" else self.gate(rows, name, kind, pins, time)
                if site is not None:
                    row[site] = value
                rows.append(row)
            self.known[site, value] = rows
        return self.known[site, value]

    def gate(self, rows, name, kind, pins, time):
        seen = []
        for place, pin in enumerate(pins):
            past = time - self.delay(name, place)
            seen.append(rows[past][pin] if past >= 0 else "x")
        return gate_value(kind, seen)

    def flop(self, rows, name, pin, time):
        clock, shown = self.clock(name), time - self.delay(name, 0)
        if clock is None or shown < clock[0]:
            return self.init(name)
        return gate_value("BUFF", [rows[shown - (shown - clock[0]) % clock[1]][pin]])


def answer(circuit, words):
    """The lines of a reply, or none for `go`."""
    if words[0] == "go":
        return None
    if words[0] == "stats":
        return ["stats batches 0 fills 0 evictions 0 cells 0"]
    stuck = words[0] == "stuck"
    site = words[1:3] if stuck else []
    rest = words[3:] if stuck else words[1:]
    if stuck and site[0] not in circuit.names or rest[0] not in circuit.names:
        return [f"unknown {site[0] if stuck and site[0] not in circuit.names else rest[0]}"]
    rows = circuit.rows(*site)
    if words[0] == "at":
        return [f"at {rest[0]} {rest[1]} {rows[int(rest[1])][rest[0]]}"]
    if words[0] == "first":
        name, value, start, stop = rest[:4]
        found = [time for time in range(int(start), int(stop)) if rows[time][name] == value]
        return [f"first {name} {value} {start} {stop} {found[0] if found else 'none'}"]
    name, start, stop = rest[0], int(rest[1]), int(rest[2])
    if stop > circuit.horizon + 1:
        return [f"past {name} {start} {stop}"]
    lines, before = [" ".join([words[0], *site, name, str(start), str(stop)])], None
    for time in range(start, stop):
        if rows[time][name] != before:
            before = rows[time][name]
            lines.append(f"{time} {before}")
    return [*lines, "end"]


def main():
    words = [word for word in sys.argv[1:] if word != "--"]
    while words[0].startswith("--"):
        del words[:2]
    circuit = Circuit(*words[:3])
    how, _, number = os.environ.get("STAND_IN", "").partition(" ")
    count = 0
    if how == "empty":
        return 0
    for line in sys.stdin:
        asked = line.split("#")[0].split()
        reply = answer(circuit, asked) if asked else None
        if reply is None:
            continue
        count += asked[0] != "stats"
        text = "".join(f"{one}\n" for one in reply)
        if how and asked[0] != "stats" and count == int(number):
            if how == "leave":
                continue
            if how == "cut":
                print(text[:len(text) // 2], end="", flush=True)
                return 0
            if how == "refuse":
                print("refused script too long", flush=True)
                return 2
            if how == "budget":
                name = asked[3] if asked[0] == "stuck" else asked[1]
                text = f"budget {name} {asked[-1]}\n"
        print(text, end="", flush=True)
    return 0


if __name__ == "__main__":
    sys.exit(main())
