#!/usr/bin/env python3
"""Writes an SDF file for a netlist of the cells of cells.lib, as a tool that extracts delays from a layout would.

    delays.py chip_mapped.v > chip.sdf

The delay of a cell grows with what its output drives. Rises and falls differ, XOR2 and MUX2 have delays by conditions and edges, and a
wire to a pin takes time too. Every delay is a multiple of 10 ps."""
from __future__ import annotations

import re
import sys

# in units of 10 ps: the least delay of each cell, and by input port what it takes longer
LEAST = {"INV": 2, "BUF": 4, "NAND2": 3, "NAND3": 4, "NOR2": 4, "AOI21": 5, "OAI22": 6, "XOR2": 6, "MUX2": 7, "FA": 9,
         "DFF": 12, "DFFE": 13, "DFFR": 13, "DFFS": 13}
LATER = {"A": 0, "B": 1, "C": 2, "A1": 0, "A2": 1, "B1": 2, "B2": 3, "S": 2, "CI": 1, "CK": 0, "RN": 2, "SN": 3}
INSTANCE = re.compile(r"^  (\w+) (\\\S+ |\w+) \((.*?)\);", re.S | re.M)
PORT = re.compile(r"\.(\w+)\((.*?)\)(?=[,\s]*(?:\.|$))", re.S)
ESCAPE = re.compile(r"([^A-Za-z0-9_])")


def cells_of(text: str) -> list[tuple[str, str, dict[str, str]]]:
    """The type, the name and the nets at the ports of each cell."""
    return [(kind, name.strip().removeprefix("\\"), {port: net.strip() for port, net in PORT.findall(ports)})
            for kind, name, ports in INSTANCE.findall(text) if kind in LEAST]


def outputs_of(kind: str) -> tuple[str, ...]:
    return ("Q", "QN") if kind.startswith("DFF") else ("S", "CO") if kind == "FA" else ("Y",)


def escaped(name: str) -> str:
    """The name of an instance as SDF writes it, which is one name although it has dots and brackets in it."""
    return ESCAPE.sub(r"\\\1", name)


def number(units: int) -> str:
    """A delay of so many units as min:typ:max in ns."""
    return f"({max(1, units - 2) / 100:.2f}:{max(1, units - 1) / 100:.2f}:{units / 100:.2f})"


def arcs_of(kind: str, ports: dict[str, str], load: dict[str, int]) -> list[str]:
    """The lines for a cell."""
    inputs = [port for port in ports if port not in outputs_of(kind)]
    lines = []
    for output in (port for port in outputs_of(kind) if ports.get(port)):
        for port in inputs:
            rise = LEAST[kind] + LATER.get(port, 0) + min(load.get(ports[output], 0), 9)
            fall = rise - 1
            if kind.startswith("DFF"):
                if port == "CK":
                    lines.append(f"(IOPATH (posedge CK) {output} {number(rise)} {number(fall)})")
                elif port in ("RN", "SN"):
                    is_rise = (port == "SN") != (output == "QN")
                    lines.append(f"(IOPATH (negedge {port}) {output} {number(rise) if is_rise else '()'} {'()' if is_rise else number(rise)})")
            elif kind == "XOR2":
                lines.append(f"(IOPATH (posedge {port}) {output} {number(rise)} {number(fall)})")
                lines.append(f"(IOPATH (negedge {port}) {output} {number(rise + 1)} {number(fall)})")
            elif kind == "MUX2" and port == "S":
                lines.append(f"(COND A==1'b0&&B==1'b1 (IOPATH S {output} {number(rise)} {number(fall)}))")
                lines.append(f"(COND A==1'b1&&B==1'b0 (IOPATH S {output} {number(fall)} {number(rise + 2)}))")
            else:
                lines.append(f"(IOPATH {port} {output} {number(rise)} {number(fall)})")
    return lines


def main() -> None:
    cells = cells_of(open(sys.argv[1]).read())
    load: dict[str, int] = {}
    for kind, _, ports in cells:
        for port, net in ports.items():
            if port not in outputs_of(kind):
                load[net] = load.get(net, 0) + 1
    print('(DELAYFILE\n (SDFVERSION "3.0") (DESIGN "chip") (DIVIDER /) (TIMESCALE 1ns)')
    print(' (CELL (CELLTYPE "chip") (INSTANCE)\n  (DELAY (ABSOLUTE')
    for place, (kind, name, ports) in enumerate(cells):
        for port in ports:
            if port not in outputs_of(kind) and (place + len(port)) % 3 == 0:
                print(f"   (INTERCONNECT wire {escaped(name)}/{port} {number(1 + place % 4)})")
    print("  ))\n )")
    for kind, name, ports in cells:
        print(f' (CELL (CELLTYPE "{kind}") (INSTANCE {escaped(name)})\n  (DELAY (ABSOLUTE')
        print("\n".join(f"   {line}" for line in arcs_of(kind, ports, load)))
        print("  ))" + ("\n  (TIMINGCHECK (SETUP D (posedge CK) (0.05)))" if kind.startswith("DFF") else "") + "\n )")
    print(")")


if __name__ == "__main__":
    main()
