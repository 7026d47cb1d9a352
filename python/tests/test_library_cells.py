"""Cells of a library that Yosys reads, by what they do, and their delays; what can't be had is named with its instance."""
from __future__ import annotations

import itertools
import json
from pathlib import Path

import pytest
from backsim.circuit.kinds import Kind
from backsim.formats.netlist import Netlist, read_netlist
from backsim.formats.timing import Clock, Timing, read_timing
from backsim.main import main
from test_normalise import values
from verilog_tools import yosys

LIBRARY = """library(l) { delay_model : table_lookup; time_unit : "1ns"; capacitive_load_unit(1, pf);
 cell(AOI) { area : 1; pin(A) { direction : input; } pin(B) { direction : input; } pin(C) { direction : input; }
  pin(Y) { direction : output; function : "!((A B)+C)"; } pin(Z) { direction : output; function : "A^B^C"; } }
 cell(FLOP) { area : 1; ff(IQ, IQN) { clocked_on : "!CKN"; next_state : "(SE SI)+(!SE D)"; clear : "!RN"; preset : "S"; clear_preset_var1 : L; }
  pin(CKN) { direction : input; clock : true; } pin(D) { direction : input; } pin(SI) { direction : input; } pin(SE) { direction : input; }
  pin(RN) { direction : input; } pin(S) { direction : input; }
  pin(Q) { direction : output; function : "IQ"; } pin(QN) { direction : output; function : "IQN"; } }
 cell(LAT) { area : 1; latch(IQ, IQN) { enable : "G"; data_in : "D"; } pin(G) { direction : input; } pin(D) { direction : input; }
  pin(Q) { direction : output; function : "IQ"; } }
 cell(GATED) { area : 1; ff(IQ, IQN) { clocked_on : "CK G"; next_state : "D"; } pin(CK) { direction : input; } pin(G) { direction : input; }
  pin(D) { direction : input; } pin(Q) { direction : output; function : "IQ"; } }
 cell(TRI) { area : 1; pin(A) { direction : input; } pin(OE) { direction : input; }
  pin(Y) { direction : output; function : "A"; three_state : "!OE"; } }
 cell(TIE) { area : 1; pin(Y) { direction : output; function : "1"; } }
 cell(BUF) { area : 1; pin(A) { direction : input; } pin(Y) { direction : output; function : "A"; } }
}
"""
MODELS = """module AOI(input A, B, C, output Y, Z); assign Y = !(A & B | C), Z = A ^ B ^ C; endmodule
module FLOP(input CKN, D, SI, SE, RN, S, output Q, QN); reg q; assign Q = q, QN = !q;
 always @(negedge CKN or negedge RN or posedge S) if (!RN) q <= 0; else if (S) q <= 1; else q <= SE ? SI : D; endmodule
"""


def converted(folder: Path, verilog: str, *words: str, models: bool = False) -> int:
    """The status of from-json of a module `chip`, with the cells of the library, or of behavioural models."""
    (folder / "cells.lib").write_text(LIBRARY)
    (folder / "cells.v").write_text(MODELS)
    (folder / "chip.v").write_text(verilog)
    library = "read_verilog cells.v; setattr -mod -set keep_hierarchy 1 *; proc" if models else "read_liberty -wb cells.lib"
    yosys(folder, f"{library}; read_verilog chip.v; hierarchy -check -top chip; flatten; simplemap; write_json chip.json")
    return main(["from-json", *(str(folder / name) for name in ("chip.json", "n", "t")), *words])


def read(folder: Path) -> tuple[Netlist, Timing]:
    netlist = read_netlist(folder / "n")
    return netlist, read_timing(folder / "t", netlist)


def test_an_output_that_can_not_be_had_may_be_left_open(tmp_path, capsys) -> None:
    half = "module HALF(input A, B, output Y, Z); assign Y = !A; endmodule\n"
    verilog = "module chip(input a, b, output y); HALF u1(.A(a), .B(b), .Y(y)); endmodule"
    (tmp_path / "chip.v").write_text(half + verilog)
    yosys(tmp_path, "read_verilog chip.v; setattr -mod -set keep_hierarchy 1 HALF; proc; hierarchy -top chip; techmap; write_json chip.json")
    assert main(["from-json", *(str(tmp_path / name) for name in ("chip.json", "n", "t"))]) == 0
    assert read(tmp_path)[0].gates["y"].kind is Kind.NOT and capsys.readouterr().err == ""


def test_a_cell_of_which_nothing_depends_on_a_port_is_said(tmp_path, capsys) -> None:
    """Yosys's read_liberty leaves out what enables a tri-state output."""
    verilog = "module chip(input a, b, oe, output y, z); TRI u1(.A(a), .OE(oe), .Y(y)); AOI u2(.A(a), .B(b), .C(oe), .Y(z)); endmodule"
    assert converted(tmp_path, verilog) == 0
    assert capsys.readouterr().err == ("nothing in TRI depends on OE: where that enables a tri-state output, Yosys's read_liberty leaves it out, and the "
                                       "cell is taken as one that always drives\n")


CORE = "module core(input a, b, c, output y, z); AOI u1(.A(a), .B(b), .C(c), .Y(y), .Z(z)); endmodule\n"


@pytest.mark.parametrize("models", [False, True])
def test_outputs_have_gates_of_their_own(models: bool, tmp_path) -> None:
    assert converted(tmp_path, CORE + "module chip(input a, b, c, output y, z); core u_core(a, b, c, y, z); endmodule", models=models) == 0
    netlist, _ = read(tmp_path)
    assert [name for name in netlist.gates if "$" in name] == ["u_core.u1$1"]
    for a, b, c in itertools.product("01x", repeat=3):
        found = values(netlist, {"a": a, "b": b, "c": c})
        if "x" not in (a, b, c):
            assert found["y"] == "01"[not (a == b == "1" or c == "1")] and found["z"] == str("".join((a, b, c)).count("1") % 2)
        elif c == "1" or (a, b) == ("1", "1"):
            assert found["y"] == "0"


FLOP = "module chip(input k, d, i, e, r, s, output {ports}); FLOP u_f(.CKN(k), .D(d), .SI(i), .SE(e), .RN({reset}), .S({set}), {own}); endmodule"


@pytest.mark.parametrize("models", [False, True])
@pytest.mark.parametrize("how", ["edge", "gates"])
def test_a_flip_flop_by_what_it_does(how: str, models: bool, tmp_path) -> None:
    """Scan, both set and reset, falling edges, and both outputs."""
    text = FLOP.format(ports="q, n", own=".Q(q), .QN(n)", reset="r", set="s")
    assert converted(tmp_path, text, "--clock", "k_falls=5,10", "--async-reset", how, models=models) == 0
    netlist, timing = read(tmp_path)
    flops = netlist.flops()
    assert len(flops) == 2 and set(timing.clocked.values()) == {"k_falls"} and timing.clocks == {"k_falls": Clock(5, 10)}
    assert (netlist.gates["q"].kind is Kind.DFF) == (how == "edge")
    for d, i, e, r, s, q in itertools.product("01", repeat=6):
        found = values(netlist, dict(zip("kdiers", ("0", d, i, e, r, s))) | {flop.name: q for flop in flops})
        taken = "0" if r == "0" else "1" if s == "1" else i if e == "1" else d
        assert all(found[flop.pins[0]] == taken for flop in flops)
        shown = q if how == "edge" else "0" if r == "0" else "1" if s == "1" else q
        assert (found["q"], found["n"]) == (shown, "10"[int(shown)])


def test_sets_and_resets_that_constants_keep_from_acting_need_no_word(tmp_path) -> None:
    assert converted(tmp_path, FLOP.format(ports="n", own=".QN(n)", reset="1'b1", set="1'b0"), "--clock", "k_falls=5,10") == 0
    netlist, _ = read(tmp_path)
    assert [gate.name for gate in netlist.flops()] == ["u_f$1"] and netlist.gates["n"].kind is Kind.NOT
    assert converted(tmp_path, FLOP.format(ports="n", own=".QN(n)", reset="r", set="1'b0"), "--clock", "k_falls=5,10") == 2


@pytest.mark.parametrize("cell, cause", [
    ("LAT u_l(.G(a), .D(b), .Q(y));", "the cell u_core.u_l of type LAT can't be had: it is a latch"),
    ("GATED u_g(.CK(a), .G(b), .D(c), .Q(y));", "the cell u_core.u_g of type GATED can't be had: its clock is gated, or made within the cell"),
    ("BUF u_1(.A(a), .Y(y)); BUF u_2(.A(b), .Y(y));", "drives a net that is driven already; of a tri-state bus `tribuf -logic`, before `synth`, makes gates"),
    ("OTHER u_o(.A(a), .Y(y));", "the cell u_core.u_o of type OTHER can't be had: nothing drives one of its nets"),
    ("AOI u_a(.A(a), .B(b), .Y(y));", "the cell u_core.u_a of type AOI has 0 bits at its port C")])
def test_what_can_not_be_had_is_named_with_its_instance(cell: str, cause: str, tmp_path, capsys) -> None:
    text = (f"(* blackbox *) module OTHER(input A, output Y); endmodule module core(input a, b, c, output y); {cell} endmodule\n"
            "module chip(input a, b, c, output y); core u_core(a, b, c, y); endmodule")
    assert converted(tmp_path, text) == 2
    said = capsys.readouterr().err
    assert cause in said and said.count("\n") == 1


def test_a_tri_state_bus_is_refused_with_what_helps(tmp_path, capsys) -> None:
    text = "module chip(input a, b, c, output y); assign y = c ? a : 1'bz; assign y = c ? 1'bz : b; endmodule"
    (tmp_path / "chip.v").write_text(text)
    yosys(tmp_path, "read_verilog chip.v; proc; tribuf; simplemap; write_json chip.json")
    assert main(["from-json", *(str(tmp_path / name) for name in ("chip.json", "n", "t"))]) == 2
    assert "tribuf -logic" in capsys.readouterr().err
    yosys(tmp_path, "read_verilog chip.v; proc; tribuf -logic; synth -noabc; write_json chip.json")
    assert main(["from-json", *(str(tmp_path / name) for name in ("chip.json", "n", "t"))]) == 0
    for a, b, c in itertools.product("01", repeat=3):
        assert values(read_netlist(tmp_path / "n"), {"a": a, "b": b, "c": c})["y"] == (a if c == "1" else b)


def sdf(body: str) -> str:
    return f'(DELAYFILE (SDFVERSION "3.0") (DIVIDER /) (TIMESCALE 1ns)\n{body})'


def annotated(folder: Path, text: str, *words: str) -> Timing:
    (folder / "d.sdf").write_text(text)
    files = [str(folder / name) for name in ("n", "d.sdf")]
    assert main(["from-sdf", *files, "--json", str(folder / "chip.json"), "--timing", str(folder / "t"), *words, "-o", str(folder / "late")]) == 0
    return read_timing(folder / "late", read_netlist(files[0]))


def test_arcs_are_sums_over_the_gates_inside(tmp_path, capsys) -> None:
    """y = NOR(AND(a, b), c): from a the AND's pin takes all but the 1 of the NOR; the wire to a comes on top."""
    assert converted(tmp_path, CORE + "module chip(input a, b, c, output y, z); core u_core(a, b, c, y, z); endmodule") == 0
    netlist, _ = read(tmp_path)
    inner = next(gate for gate in netlist.gates.values() if gate.kind is Kind.AND)
    text = sdf("""(CELL (CELLTYPE "chip") (INSTANCE) (DELAY (ABSOLUTE (INTERCONNECT a u_core/u1/A (2)) (INTERCONNECT x u_core/u1/Q (1)))))
(CELL (CELLTYPE "AOI") (INSTANCE u_core/u1) (DELAY (ABSOLUTE (IOPATH A Y (4:5:6) (3:4:9)) (IOPATH B Y (1)) (COND A (IOPATH C Y (3) (4)))
 (COND B==1'b0 (IOPATH (posedge C) Y (7) (2))) (IOPATH (posedge A) Z (3)) (IOPATH (negedge A) Z (5)) (IOPATH B Z (2)) (IOPATH C Z (8)) (IOPATH A Q (1)))
 (INCREMENT (IOPATH A Y (1)))) (TIMINGCHECK (HOLD A B (1))))""")

    def pins(timing: Timing) -> dict[str, int]:
        gates = {"A": (inner, inner.pins.index("a")), "B": (inner, inner.pins.index("b")), "C": (netlist.gates["y"], netlist.gates["y"].pins.index("c"))}
        own = {f"{port}Y": timing.delay(*place) for port, place in gates.items()}
        z = netlist.gates["z"]
        return own | {f"{port}Z": timing.delay(z, z.pins.index(port.lower())) for port in "ABC"} | {"inner": timing.delay(netlist.gates["y"], netlist.gates["y"].pins.index(inner.name))}

    # A to Y: the greatest is 9 and 1 more, the wire 2, the NOR 1. B to Y is as short as one gate of the two
    assert pins(annotated(tmp_path, text)) == {"AY": 11, "BY": 1, "CY": 7, "AZ": 7, "BZ": 2, "CZ": 8, "inner": 1}
    assert capsys.readouterr().err.splitlines() == [
        "9 of 10 IOPATH and 1 of 2 INTERCONNECT and PORT are used", "left out: 1 TIMINGCHECK, the first in line 5",
        "left out: 1 IOPATH to a port that is no output, or is not connected, the first in line 4",
        "left out: 1 INTERCONNECT to what is no pin of a cell, or one that nothing depends on, the first in line 2",
        "3 IOPATH have different numbers for rise and fall: the greatest counts for both",
        "1 arcs are shorter than the gates inside their cells, which take so much longer: u_core.u1 from B to Y, by 1"]
    # of typ 5 and 4 the greatest, of min 4 and 3 the least, and 1 more
    assert pins(annotated(tmp_path, text, "--corner", "typ"))["AY"] == 5 + 1 + 2 - 1
    assert pins(annotated(tmp_path, text, "--corner", "min")) == {"AY": 5, "BY": 1, "CY": 2, "AZ": 5, "BZ": 2, "CZ": 8, "inner": 1}


@pytest.mark.parametrize("how", ["edge", "gates"])
def test_a_flip_flop_takes_its_pin_at_the_edge_and_shows_it_as_stated(how: str, tmp_path) -> None:
    """The gates before the flip-flop take time, so its clock is later, and the sum is that of the arc."""
    assert converted(tmp_path, FLOP.format(ports="q, n", own=".Q(q), .QN(n)", reset="r", set="s"), "--clock", "k_falls=50,100", "--async-reset", how) == 0
    netlist, _ = read(tmp_path)
    text = sdf("""(CELL (CELLTYPE "FLOP") (INSTANCE u_f) (DELAY (ABSOLUTE (PORT CKN (7)) (PORT D (3)) (IOPATH (negedge CKN) Q (20)) (IOPATH (negedge CKN) QN (30))
(IOPATH (negedge RN) Q () (12)) (IOPATH (posedge S) Q (13)) (IOPATH (negedge RN) QN (14)) (IOPATH (posedge S) QN () (15)))))""")
    timing = annotated(tmp_path, text, "--async-reset", how)

    def longest(name: str, sources: dict[str, int]) -> set[int]:
        """All times from the sources to a signal."""
        if name in sources:
            return {sources[name]}
        gate = netlist.gates.get(name)
        if gate is None or gate.kind is Kind.DFF:
            return set()
        return {time + timing.delay(gate, place) for place, pin in enumerate(gate.pins) for time in longest(pin, sources)}

    for flop in netlist.flops():
        clock = timing.clocks[timing.clocked[flop.name]]
        late = clock.first - 50 - 7  # after the edge at the pin, which is 7 after that of k
        assert clock.period == 100 and late > 0
        # what is at the ports at the edge comes to the pin when it is taken; at D it was 3 before that
        for port, wire in (("d", 3), ("i", 0), ("e", 0), ("r", 0), ("s", 0)):
            assert longest(flop.pins[0], {port: 0}) == {late + wire}
        for output, arc in (("q", 20), ("n", 30)):
            assert longest(output, {flop.name: late + timing.delay(flop)}) in ({arc}, set())
    if how == "gates":
        assert [longest(output, {port: 0}) for output in "qn" for port in "rs"] == [{12}, {13}, {14}, {15}]


def test_buffers_of_the_clock_take_time(tmp_path) -> None:
    text = ("module chip(input k, d, output q); wire a, b; BUF u_1(.A(k), .Y(a)); BUF u_2(.A(a), .Y(b));\n"
            "FLOP u_f(.CKN(b), .D(d), .SI(1'b0), .SE(1'b0), .RN(1'b1), .S(1'b0), .Q(q)); endmodule")
    assert converted(tmp_path, text, "--clock", "k_falls=50,100") == 0
    assert read(tmp_path)[1].clocked == {"q": "k_falls"}
    cells = "".join(f'(CELL (CELLTYPE "BUF") (INSTANCE {name}) (DELAY (ABSOLUTE (PORT A (1)) (IOPATH A Y ({delay})))))' for name, delay in (("u_1", 4), ("u_2", 6)))
    timing = annotated(tmp_path, sdf(cells + '(CELL (CELLTYPE "FLOP") (INSTANCE u_f) (DELAY (ABSOLUTE (PORT CKN (2)) (IOPATH (negedge CKN) Q (9)))))'))
    # (1 + 4) + (1 + 6) + 2, and the gates before the pin, which take the multiplexer's 3
    taken = timing.clocks[timing.clocked["q"]].first - 50 - 14
    assert taken == 3 and taken + timing.delay(read(tmp_path)[0].gates["q"]) == 9


def test_a_netlist_of_another_file_is_refused(tmp_path, capsys) -> None:
    assert converted(tmp_path, CORE + "module chip(input a, b, c, output y, z); core u_core(a, b, c, y, z); endmodule") == 0
    (tmp_path / "n").write_text("INPUT(a)\ny = NOT(a)\n")
    (tmp_path / "d.sdf").write_text(sdf('(CELL (CELLTYPE "AOI") (INSTANCE u_core/u1) (DELAY (ABSOLUTE (IOPATH A Y (4)))))'))
    assert main(["from-sdf", str(tmp_path / "n"), str(tmp_path / "d.sdf"), "--json", str(tmp_path / "chip.json")]) == 2
    assert "like that of the JSON file" in capsys.readouterr().err


GENERIC = """module chip(input clk, rst_n, set, en, input [7:0] a, b, output reg [7:0] q, output reg [3:0] r, output [7:0] y, output lt);
  always @(posedge clk or negedge rst_n) if (!rst_n) q <= 8'h3c; else if (en) q <= a + b;
  always @(negedge clk) if (set) r <= 4'd9; else r <= r ^ q[3:0];
  assign y = q[0] ? a - b : q * 3, lt = a < b || r == 4'd5;
endmodule
"""


@pytest.mark.parametrize("how", ["-noabc", ""])
def test_each_arc_of_yosys_own_cells_is_used(how: str, tmp_path, capsys) -> None:
    """An SDF file with each arc of each cell: those of gates from each pin, those of flip-flops from the clock and an asynchronous reset."""
    (tmp_path / "chip.v").write_text(GENERIC)
    yosys(tmp_path, f"read_verilog chip.v; synth -flatten {how} -top chip; write_json chip.json")
    cells = json.loads((tmp_path / "chip.json").read_text())["modules"]["chip"]["cells"]
    sdf, count = "(DELAYFILE (DIVIDER .) (TIMESCALE 10ps)\n", 0
    for name, cell in cells.items():
        (target,) = (port for port, direction in cell["port_directions"].items() if direction == "output")
        sources = [port for port in cell["connections"] if port != target and (target == "Y" or port == "C" or port == "R" and "SDFF" not in cell["type"])]
        # no arc is shorter than the gates inside
        arcs = "".join(f"(IOPATH {f'(posedge {port})' if target == 'Q' else port} {target} ({10 + place}) ({9 + place}))" for place, port in enumerate(sources))
        escaped = "".join(letter if letter.isalnum() else f"\\{letter}" for letter in name)
        sdf += f"(CELL (CELLTYPE \"{cell['type']}\") (INSTANCE {escaped}) (DELAY (ABSOLUTE {arcs})))\n"
        count += len(sources)
    (tmp_path / "chip.sdf").write_text(f"{sdf})")
    files = [str(tmp_path / name) for name in ("chip.json", "n", "t", "chip.sdf", "late")]
    clocks = ["--clock", "clk=500,1000", "--clock", "clk_falls=1000,1000", "--async-reset", "gates", "--unit", "10ps"]
    assert main(["from-json", *files[:3], *clocks]) == 0
    capsys.readouterr()
    assert main(["from-sdf", files[1], files[3], "--json", files[0], "--timing", files[2], "--async-reset", "gates", "-o", files[4]]) == 0
    said = capsys.readouterr().err.splitlines()
    assert said == [f"{count} of {count} IOPATH and 0 of 0 INTERCONNECT and PORT are used",
                    f"{count} IOPATH have different numbers for rise and fall: the greatest counts for both"] and count > 300
