"""The mapped netlist of examples/flow as Verilog whose cells have the delays of the SDF file as transport delays, for Icarus Verilog.

It stands beside the package: it reads the two files by expressions of its own, which know no more than the forms that Yosys and the
script of the example write. The rules are those of docs/use/FORMATS.md: of rise and fall, of edges and of conditions the greatest number
counts. A flip-flop samples half a unit after the edge, when all that changes at the edge itself has changed."""
from __future__ import annotations

import re
from collections import defaultdict

_CELL = re.compile(r'\(CELL \(CELLTYPE "(\w+)"\) \(INSTANCE ?(\S*)\)(.*?)\n \)', re.S)
_PATH = re.compile(r"\(IOPATH (?:\(\w+ (\w+)\)|(\w+)) (\w+) (.*)")
_WIRE = re.compile(r"\(INTERCONNECT \S+ (\S+)/(\w+) (.*)")
_MOST = re.compile(r":([0-9.]+)\)")

COMBINATIONAL = {
    "INV": ("A", {"Y": "~A"}), "BUF": ("A", {"Y": "A"}), "NAND2": ("A B", {"Y": "~(A & B)"}), "NAND3": ("A B C", {"Y": "~(A & B & C)"}),
    "NOR2": ("A B", {"Y": "~(A | B)"}), "AOI21": ("A1 A2 B", {"Y": "~(A1 & A2 | B)"}), "OAI22": ("A1 A2 B1 B2", {"Y": "~((A1 | A2) & (B1 | B2))"}),
    "XOR2": ("A B", {"Y": "A ^ B"}), "MUX2": ("A B S", {"Y": "S ? B : A"}), "FA": ("A B CI", {"S": "A ^ B ^ CI", "CO": "A & B | CI & (A | B)"}),
}
# what a flip-flop takes, the port that sets or clears it at 0, and to what
FLOPS = {"DFF": ("D", None, None), "DFFE": ("E ? D : state", None, None), "DFFR": ("D & RN", "RN", 0), "DFFS": ("D | ~SN", "SN", 1)}


def most(text: str) -> int:
    """The greatest of the greatest numbers of a line, in units of 10 ps."""
    return max(round(float(found) * 100) for found in _MOST.findall(text))


def delays_of(sdf: str) -> tuple[dict[str, dict[str, int]], dict[str, dict[str, int]]]:
    """By instance: the delay of each `A_Y`, and of the wire to each port."""
    arcs: dict[str, dict[str, int]] = defaultdict(dict)
    wires: dict[str, dict[str, int]] = defaultdict(dict)
    for _, instance, body in _CELL.findall(sdf):
        for with_edge, plain, target, numbers in _PATH.findall(body):
            own, key = arcs[instance.replace("\\", "")], f"{with_edge or plain}_{target}"
            own[key] = max(own.get(key, 0), most(numbers))
        for path, port, numbers in _WIRE.findall(body):
            wires[path.replace("\\", "")][port] = most(numbers)
    return arcs, wires


def late(name: str, source: str, delay: str) -> str:
    return f"reg {name}; initial {name} <= #({delay}) {source}; always @({source}) {name} <= #({delay}) {source};"


def models() -> str:
    """A module for each cell. Its parameters are A_Y for an arc and W_A for a wire."""
    lines = ["`timescale 10ps / 1ps"]
    for cell, (ports, outputs) in COMBINATIONAL.items():
        names = ports.split()
        parameters = [f"W_{port} = 0" for port in names] + [f"{port}_{output} = 1" for output in outputs for port in names]
        lines.append(f"module {cell}({', '.join(f'input {port}' for port in names)}, {', '.join(f'output {output}' for output in outputs)});"
                     f" parameter {', '.join(parameters)};")
        for output, function in outputs.items():
            lines += [late(f"{port}_at_{output}", port, f"W_{port} + {port}_{output}") for port in names]
            lines.append(f"assign {output} = {re.sub('[A-Z]+[0-9]?', lambda found: f'{found[0]}_at_{output}', function)};")
        lines.append("endmodule")
    for cell, (function, control, value) in FLOPS.items():
        names = ["CK", *sorted({found for found in re.findall("[A-Z]+", function)})]
        parameters = [f"W_{port} = 0" for port in names] + [f"CK_{output} = 1" for output in ("Q", "QN")]
        parameters += [f"{control}_{output} = 1" for output in ("Q", "QN")] if control else []
        lines.append(f"module {cell}({', '.join(f'input {port}' for port in names)}, output reg Q, output reg QN); parameter {', '.join(parameters)};")
        lines += [late("CK_at", "CK", "W_CK + 0.5")] + [late(f"{port}_at", port, f"W_{port}") for port in names[1:]]
        lines.append("reg state;")
        taken = re.sub("[A-Z]+", lambda found: f"{found[0]}_at", function)
        lines.append(f"always @(posedge CK_at) begin state = {taken}; Q <= #(CK_Q - 0.5) state; QN <= #(CK_QN - 0.5) ~state; end")
        if control:
            lines.append(f"always @(negedge {control}_at) begin state = 1'b{value}; Q <= #({control}_Q) 1'b{value}; "
                         f"QN <= #({control}_QN) 1'b{1 - value}; end")
        lines.append("endmodule")
    return "\n".join(lines) + "\n"


def with_delays(verilog: str, sdf: str) -> str:
    """The netlist with the delays as parameters of its cells, and the models of these."""
    arcs, wires = delays_of(sdf)
    cells = "|".join([*COMBINATIONAL, *FLOPS])

    def instance(found: re.Match[str]) -> str:
        name = found[2].strip().removeprefix("\\")
        stated = [f".{key}({delay})" for key, delay in arcs.pop(name).items()] + [f".W_{port}({delay})" for port, delay in wires.get(name, {}).items()]
        return f"  {found[1]} #({', '.join(stated)}) {found[2]} ("

    made = re.sub(rf"^  ({cells}) (\\\S+ |\w+) \(", instance, verilog, flags=re.M)
    assert not arcs, f"the SDF file has cells that the netlist has not: {list(arcs)[:3]}"
    return models() + "`timescale 1ns / 1ps\n" + made
