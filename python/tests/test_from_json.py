"""from-json: Verilog by Yosys, with names, initial values, clocks and resets, against Icarus Verilog."""
from __future__ import annotations

import json
from pathlib import Path

import pytest
from backsim.convert.dump import read_dump
from backsim.convert.resets import lost_reset
from backsim.circuit.kinds import Kind
from backsim.formats.netlist import read_netlist
from backsim.formats.timing import Clock, read_timing
from backsim.main import main
from conftest import TOP
from verilog_tools import icarus, in_order, yosys

CHILD = """module child(input clk, input rst_n, input [3:0] d, output reg [3:0] q);
  always @(posedge clk or negedge rst_n) if (!rst_n) q <= #1 4'd5; else q <= #1 d + q;
endmodule
"""
CHIP = """`timescale 1ns / 1ns
module chip(input clk, input rst_n, input en, input [3:0] d, output [3:0] y, output z, output [1:0] v);
  reg [3:0] r = 4'd3;
  wire [3:0] w;
  child u1(clk, rst_n, r, w);
  always @(posedge clk or negedge rst_n) if (!rst_n) r <= #1 4'd0; else if (en) r <= #1 d;
  reg t;
  always @(negedge clk) t <= #1 ^w;
  assign y = w;
  assign z = t & r[0];
  assign v = 2'd2;
endmodule
""" + CHILD
BENCH = """`timescale 1ns / 1ns
module test;
  reg clk = 0, rst_n = 1, en = 0; reg [3:0] d = 9;
  wire [3:0] y; wire z; wire [1:0] v;
  chip dut(clk, rst_n, en, d, y, z, v);
  always #50 clk = !clk;
  initial begin
    $dumpfile("chip.vcd"); $dumpvars(0, dut);
    #20 rst_n = 0; #100 rst_n = 1; #80 en = 1; d = 3; #100 d = 12; #200 en = 0; #175 rst_n = 0;
    #LONG rst_n = 1; #(505 - LONG) en = 1; d = 7; #500 $finish;
  end
endmodule
"""
CLOCKS = ["--clock", "clk=50,100", "--clock", "clk_falls=100,100"]


@pytest.fixture(scope="module")
def chip(tmp_path_factory) -> Path:
    """A folder with the JSON of the chip, and dumps of three test benches: the second reset lasts over an edge, or does not; or the first
    one lasts from 0 to 20, before any edge."""
    folder = tmp_path_factory.mktemp("chip")
    (folder / "chip.v").write_text(CHIP)
    yosys(folder, "read_verilog chip.v; synth -flatten -noabc -top chip; write_json chip.json")
    begins = BENCH.replace("rst_n = 1, en", "rst_n = 0, en").replace("#20 rst_n = 0; #100 rst_n = 1;", "#20 rst_n = 1; #100")
    for name, bench, long in (("good", BENCH, 100), ("short", BENCH, 20), ("begins", begins, 100)):
        (folder / "test.v").write_text(bench.replace("LONG", str(long)))
        icarus(folder, folder / "test.v", folder / "chip.v", top="test")
        (folder / "chip.vcd").rename(folder / f"{name}.vcd")
    return folder


def convert(folder: Path, out: Path, *words: object) -> int:
    return main(["from-json", str(folder / "chip.json"), str(out / "n"), str(out / "t"), *map(str, words)])


def test_names_clocks_and_initial_values_stay(chip, tmp_path) -> None:
    assert convert(chip, tmp_path, *CLOCKS, "--async-reset", "edge") == 0
    netlist = read_netlist(tmp_path / "n")
    timing = read_timing(tmp_path / "t", netlist)
    registers = [f"{name}[{bit}]" for name in ("r", "u1.q") for bit in range(4)] + ["t"]
    assert sorted(gate.name for gate in netlist.flops()) == sorted(registers)
    assert timing.clocks == {"clk": Clock(50, 100), "clk_falls": Clock(100, 100)}
    assert {flop for flop, clock in timing.clocked.items() if clock == "clk_falls"} == {"t"}
    assert timing.initials == {"r[0]": "1", "r[1]": "1", "r[2]": "0", "r[3]": "0"}
    assert netlist.outputs == ("y[0]", "y[1]", "y[2]", "y[3]", "z", "v[0]", "v[1]")
    # further names are BUFFs of the register, and constants come from inputs
    assert (netlist.gates["y[2]"].kind, netlist.gates["y[2]"].pins) == (Kind.BUFF, ("u1.q[2]",))
    assert netlist.gates["w[2]"].pins == ("u1.q[2]",)
    assert (netlist.gates["v[0]"].pins, netlist.gates["v[1]"].pins) == (("gnd",), ("vdd",))
    assert netlist.inputs == ("clk", "rst_n", "en", "d[0]", "d[1]", "d[2]", "d[3]", "gnd", "vdd")
    assert "u1.clk" not in netlist and netlist.gates["u1.rst_n"].pins == ("rst_n",)


def test_without_aliases(chip, tmp_path) -> None:
    assert convert(chip, tmp_path, *CLOCKS, "--async-reset", "edge", "--no-aliases") == 0
    netlist = read_netlist(tmp_path / "n")
    assert "y[2]" in netlist and "w[2]" not in netlist


@pytest.mark.parametrize("words, cause", [
    (CLOCKS, "] has an asynchronous reset"), ([*CLOCKS[:2], "--async-reset", "edge"], "the times of the clock clk_falls are not known"),
    ([*CLOCKS, "--clock", "slow=1,2"], "the clocks are: clk, clk_falls"), (["--clock", "clk=50"], "is no NAME=FIRST,PERIOD"),
    (["--clock", "clk=50,0"], "is no NAME=FIRST,PERIOD"), (["--vcd", "x"], "--vcd and --scope go together"), (["--top", "chap"], "there is no module chap")])
def test_what_can_not_be_had_is_refused_by_name(words, cause: str, chip, tmp_path, capsys) -> None:
    words = [*words, "--async-reset", "edge"] if "slow=1,2" in words else words
    assert convert(chip, tmp_path, *words) == 2
    said = capsys.readouterr().err
    assert cause in said and said.count("\n") == 1
    assert not (tmp_path / "n").exists()


def test_a_reset_without_an_edge_is_refused_by_name(chip, tmp_path, capsys) -> None:
    words = ["--async-reset", "edge", "--vcd", chip / "short.vcd", "--scope", "test.dut", *CLOCKS[2:]]
    assert convert(chip, tmp_path, *words) == 2
    # the reset is active from 20 + 100 + 80 + 100 + 200 + 175 = 675 on
    assert capsys.readouterr().err.endswith("can't be had: its asynchronous reset rst_n is active from 675 to 695 with no edge of clk in "
                                            "between, so a flip-flop would forget it\n")


@pytest.mark.parametrize("how, behind", [("edge", ""), ("gates", "$1")])
def test_a_reset_before_the_first_edge_is_an_initial_value(how: str, behind: str, chip, tmp_path, capsys) -> None:
    """r is reset to 0, whatever the source says it begins with, and q to 5. Up to 600 no other reset begins."""
    words = ["--async-reset", how, "--vcd", chip / "begins.vcd", "--scope", "test.dut", *CLOCKS[2:]]
    assert convert(chip, tmp_path, *words) == 0
    expected = {f"r[{bit}]{behind}": "0" for bit in range(4)} | {f"u1.q[{bit}]{behind}": "1010"[bit] for bit in range(4)}
    assert read_timing(tmp_path / "t").initials == expected
    assert main(["compare", str(tmp_path / "n"), str(tmp_path / "t"), str(chip / "begins.vcd"), "test.dut", "--to", "600"]) == 0
    assert capsys.readouterr().out.endswith("nets and buses that differ: 0\n")


def test_of_a_set_and_a_reset_none_is_an_initial_value(tmp_path, write, capsys) -> None:
    """b is active up to 3, and the clock a rises at 5, 10 and so on."""
    dump = write("d.vcd", "$timescale 1 ns $end\n$scope module m $end\n$var wire 1 ! a $end\n$var wire 1 % b $end\n$var wire 1 & c $end\n"
                 "$upscope $end\n$enddefinitions $end\n#0\n0!\n1%\n0&\n#3\n0%\n#5\n1!\n#8\n0!\n#10\n1!\n#13\n0!\n")
    register = {"q": cell("$_DFFSR_PPP_", "Q", C=2, S=4, R=3, D=4, Q=5)}
    assert written(register, tmp_path, words=("--async-reset", "gates", "--vcd", str(dump), "--scope", "m")) == 2
    assert "its asynchronous reset b is active from 0 to 3" in capsys.readouterr().err


def test_a_clock_that_may_begin_with_an_edge_is_refused(chip, tmp_path, capsys) -> None:
    assert convert(chip, tmp_path, "--async-reset", "edge", "--vcd", chip / "good.vcd", "--scope", "test.dut") == 2
    said = capsys.readouterr().err
    assert "the clock clk begins with 0" in said and "`from-json --clock clk_falls=100,100`" in said


def test_times_of_clocks_in_seconds(chip, tmp_path, capsys) -> None:
    words = ["--clock", "clk=50ns,100000ps", "--clock", "clk_falls=0.1us,100", "--async-reset", "edge"]
    assert convert(chip, tmp_path, *words, "--unit", "1ns") == 0
    assert {name: (clock.first, clock.period) for name, clock in read_timing(tmp_path / "t").clocks.items()} == {"clk": (50, 100), "clk_falls": (100, 100)}
    capsys.readouterr()
    for unit, cause in ((["--unit", "20ns"], "--clock clk: 50ns is between two units of 20 ns"), ([], "what 50ns is in units is not known"),
                        (["--unit", "1fs"], "--clock clk 50ns is 50000000 units, and from 0 to 1000000 are wanted")):
        assert convert(chip, tmp_path, *words, *unit) == 2
        assert cause in capsys.readouterr().err


@pytest.mark.parametrize("timing, cause", [
    ("nowhere/t", "it can't be written: No such file or directory"), ("./n", "two of the files that the command is told to write are this one")])
def test_no_netlist_is_left_where_its_timing_file_can_not_be_written(timing: str, cause: str, chip, tmp_path, capsys) -> None:
    words = [str(chip / "chip.json"), str(tmp_path / "n"), f"{tmp_path}/{timing}", *CLOCKS, "--async-reset", "edge"]
    assert main(["from-json", *words]) == 2
    assert capsys.readouterr().err == f"{Path(words[2])}: {cause}\n"
    assert list(tmp_path.iterdir()) == []


def test_places_of_yosys_itself_are_no_places_of_the_source(tmp_path) -> None:
    own = "/usr/bin/../share/yosys/techmap.v:205.26-205.31"
    gates = {"g": cell("$_NOT_", A=2, Y=5) | {"attributes": {"src": f"top.v:3.1-3.9|child.v:7.2-7.8|top.v:0.0-0.0|{own}"}},
             "h": cell("$_NOT_", A=3, Y=6) | {"attributes": {"src": own}}}
    assert written(gates, tmp_path, NAMES | {"h": {"bits": [6], "attributes": {}}}) == 0
    netlist = read_netlist(tmp_path / "n")
    assert {name: gate.source for name, gate in netlist.gates.items()} == {"y": "child.v:7.2-7.8", "h": ""}


@pytest.mark.parametrize("how", ["edge", "gates"])
def test_the_netlist_has_the_values_of_the_source(how: str, chip, tmp_path, capsys) -> None:
    vcd = str(chip / "good.vcd")
    assert convert(chip, tmp_path, "--async-reset", how, "--vcd", vcd, "--scope", "test.dut", *CLOCKS[2:]) == 0
    files = [str(tmp_path / name) for name in "nts"]
    assert main(["from-vcd", files[0], vcd, "test.dut", "-o", files[2]]) == 0
    names = [f"{name}[{bit}]" for name in ("r", "u1.q", "y") for bit in range(4)] + ["t", "z"]
    # directly before each edge; by edges alone not while a reset that began after an edge waits for the next one
    waits = {"edge": (699, 749), "gates": ()}[how]
    times = [time for time in range(149, 1650, 50) if time not in waits]
    script = tmp_path / "script"
    script.write_text("".join(f"at {name} {time}\n" for time in times for name in names))
    assert main(["from-vcd", files[0], vcd, "test.dut", "--script", str(script), "-o", str(tmp_path / "expected")]) == 0
    assert main(["to-verilog", *files, str(script), "-o", str(tmp_path / "n.v")]) == 0
    assert in_order(icarus(tmp_path, tmp_path / "n.v", top="circuit")) == (tmp_path / "expected").read_text()
    if how == "gates":
        # at once, and one unit after the flip-flop
        script.write_text("wave r[2] 0 900\n")
        assert main(["to-verilog", *files, str(script), "-o", str(tmp_path / "n.v")]) == 0
        assert in_order(icarus(tmp_path, tmp_path / "n.v", top="circuit")) == "wave r[2] 0 900\n0 x\n1 0\n352 1\n676 0\nend\n"


@pytest.mark.parametrize("start, stop, lost", [(10, 40, True), (10, 50, True), (10, 51, False), (50, 51, False), (51, 150, True), (51, 151, False)])
def test_an_edge_in_a_reset(start: int, stop: int, lost: bool, write) -> None:
    path = write("d.vcd", f"$timescale 1 ns $end\n$scope module m $end\n$var wire 1 ! r $end\n$upscope $end\n$enddefinitions $end\n"
                 f"#0\n0!\n#{start}\n1!\n#{stop}\n0!\n#500\n")
    found = lost_reset(read_dump(path, "m"), "r", "1", Clock(50, 100))
    assert found == ((start, stop) if lost else ())


def module(cells: dict, names: dict, ports: dict) -> str:
    return json.dumps({"modules": {"chip": {"attributes": {"top": "1"}, "ports": ports, "cells": cells, "netnames": names}}})


def cell(kind: str, outputs: str = "Y", **ports: int | str) -> dict:
    return {"type": kind, "parameters": {}, "attributes": {}, "port_directions": {port: "output" if port in outputs else "input" for port in ports},
            "connections": {port: [bit] for port, bit in ports.items()}}


NAMES = {name: {"bits": [bit], "attributes": {}} for name, bit in (("a", 2), ("b", 3), ("c", 4), ("y", 5))}
PORTS = {"a": {"direction": "input", "bits": [2]}, "b": {"direction": "input", "bits": [3]}, "c": {"direction": "input", "bits": [4]},
         "y": {"direction": "output", "bits": [5]}}


def written(cells: dict, tmp_path: Path, names: dict = NAMES, ports: dict = PORTS, words: tuple[str, ...] = ()) -> int:
    (tmp_path / "chip.json").write_text(module(cells, names, ports))
    return convert(tmp_path, tmp_path, *words)


@pytest.mark.parametrize("kind, pins, function", [
    ("$_ANDNOT_", "AB", lambda a, b, c, d: a and not b), ("$_ORNOT_", "AB", lambda a, b, c, d: a or not b),
    ("$_MUX_", "ABS", lambda a, b, c, d: b if c else a), ("$_NMUX_", "ABS", lambda a, b, c, d: not (b if c else a)),
    ("$_AOI3_", "ABC", lambda a, b, c, d: not (a and b or c)), ("$_OAI3_", "ABC", lambda a, b, c, d: not ((a or b) and c)),
    ("$_AOI4_", "ABCD", lambda a, b, c, d: not (a and b or c and d)), ("$_OAI4_", "ABCD", lambda a, b, c, d: not ((a or b) and (c or d))),
    ("$_XNOR_", "AB", lambda a, b, c, d: a == b), ("$_BUF_", "A", lambda a, b, c, d: a)])
def test_cells_that_are_gates_of_several_kinds(kind: str, pins: str, function, tmp_path) -> None:
    from test_normalise import values

    bits = dict(zip(pins, (2, 3, 4, 6)))
    names = NAMES | {"d": {"bits": [6], "attributes": {}}}
    ports = PORTS | {"d": {"direction": "input", "bits": [6]}}
    assert written({"g": cell(kind, **bits, Y=5)}, tmp_path, names, ports) == 0
    netlist = read_netlist(tmp_path / "n")
    for index in range(16):
        setting = [bool(index >> place & 1) for place in range(4)]
        found = values(netlist, dict(zip("abcd", ("01"[value] for value in setting))))
        assert found["y"] == "01"[bool(function(*setting))]


@pytest.mark.parametrize("cells, cause", [
    ({"g": cell("$add", A=2, B=3, Y=5)}, "the cell g of type $add is no gate"), ({"u": cell("alu", A=2, Y=5)}, "the cell u of type alu is no gate"),
    ({"q": cell("$_DLATCH_P_", "Q", E=2, D=3, Q=5)}, "the register y can't be had, of type $_DLATCH_P_: it is a latch"),
    ({"q": cell("$_DFFSR_PPP_", "Q", C=2, S=3, R=4, D=3, Q=5)}, "the register y has an asynchronous reset: say by --async-reset"),
    ({"q": cell("$_ALDFF_PP_", "Q", C=2, L=3, AD=4, D=3, Q=5)}, "loads a value asynchronously"),
    ({"q": cell("$dff", "Q", CLK=2, D=3, Q=5)}, "run `simplemap`"),
    ({"q": cell("$_DFF_P_", "Q", C="1", D=3, Q=5)}, "has a constant for a clock"),
    ({"g": cell("$_NOT_", A=2, Y=5), "h": cell("$_NOT_", A=3, Y=5)}, "the cell h of type $_NOT_ drives a net that is driven already"),
    ({"g": cell("$_AND_", A=2, Y=5)}, "has 0 bits at its port B")])
def test_cells_that_can_not_be_had_are_refused_by_name(cells: dict, cause: str, tmp_path, capsys) -> None:
    assert written(cells, tmp_path) == 2
    said = capsys.readouterr().err
    assert cause in said and said.count("\n") == 1


def test_names_that_can_not_be_had_are_refused(tmp_path, capsys) -> None:
    gates = {"g": cell("$_NOT_", A=2, Y=5)}
    assert written(gates, tmp_path, NAMES | {"y(1)": {"bits": [5], "attributes": {}}}) == 2
    assert "no signal of a netlist may have the name y(1), since it may have no blank and none of (" in capsys.readouterr().err
    assert written(gates, tmp_path, NAMES | {256 * "y": {"bits": [5], "attributes": {}}}) == 2
    assert "since it has more than 255 letters: rename it" in capsys.readouterr().err
    assert written(gates, tmp_path, NAMES | {"v": {"bits": [2, 3], "attributes": {}}, "v[0]": {"bits": [3], "attributes": {}}}) == 2
    assert "two nets have the name v[0]" in capsys.readouterr().err
    pads = NAMES | {"z": {"bits": [9], "attributes": {"src": "pad.v:2.9-2.11"}}}
    assert written(gates, tmp_path, pads, PORTS | {"z": {"direction": "inout", "bits": [9]}}) == 2
    said = capsys.readouterr().err
    assert "the port z of pad.v:2.9-2.11 is inout" in said and "z_i, z_o and z_oe" in said and said.count("\n") == 1


def test_what_nothing_drives_is_said(tmp_path, capsys) -> None:
    assert written({"g": cell("$_AND_", A=2, B=9, Y=5)}, tmp_path, NAMES | {"w": {"bits": [9], "attributes": {}}}) == 0
    assert capsys.readouterr().err == "nothing drives w: an input that is never set\n"
    assert read_netlist(tmp_path / "n").inputs == ("a", "b", "c", "w")


def test_names_of_buses(tmp_path) -> None:
    names = NAMES | {"up": {"bits": [2, 3], "attributes": {}, "offset": 4, "upto": 1}, "part.down": {"bits": [3, 4], "attributes": {}, "offset": 7}}
    assert written({"g": cell("$_NOT_", A=2, Y=5)}, tmp_path, names) == 0
    netlist = read_netlist(tmp_path / "n")
    gates = netlist.gates
    # up is [4:5], with 5 the lowest bit
    assert netlist.ascending == {"up": "up[4:5]"} and (tmp_path / "n").read_text().startswith("# bus up[4:5]\n")
    assert {name: gate.pins[0] for name, gate in gates.items() if gate.kind is Kind.BUFF} == {
        "up[5]": "a", "up[4]": "b", "part.down[7]": "b", "part.down[8]": "c"}


@pytest.mark.parametrize("kind, ports, expected", [
    ("$_DFFE_PP_", {"E": 3}, lambda d, e, r, q: d if e else q), ("$_DFFE_PN_", {"E": 3}, lambda d, e, r, q: q if e else d),
    ("$_SDFF_PP0_", {"R": 4}, lambda d, e, r, q: False if r else d), ("$_SDFF_PN1_", {"R": 4}, lambda d, e, r, q: d if r else True),
    ("$_SDFFE_PP1P_", {"E": 3, "R": 4}, lambda d, e, r, q: True if r else d if e else q),
    ("$_SDFFCE_PN0P_", {"E": 3, "R": 4}, lambda d, e, r, q: (d if r else False) if e else q)])
def test_enables_and_resets_are_gates_before_the_flip_flop(kind: str, ports: dict, expected, tmp_path) -> None:
    from test_normalise import values

    names = NAMES | {"k": {"bits": [6], "attributes": {}}}
    inputs = PORTS | {"k": {"direction": "input", "bits": [6]}}
    assert written({"q": cell(kind, "Q", C=6, D=2, Q=5, **ports)}, tmp_path, names, inputs, ("--clock", "k=1,2")) == 0
    netlist = read_netlist(tmp_path / "n")
    pin = netlist.gates["y"].pins[0]
    for index in range(16):
        d, e, r, q = (bool(index >> place & 1) for place in range(4))
        found = values(netlist, {"a": "01"[d], "b": "01"[e], "c": "01"[r], "y": "01"[q], "k": "0"})
        assert found[pin] == "01"[expected(d, e, r, q)]


def test_from_verilog_is_what_make_sh_makes(tmp_path) -> None:
    """The registers of the example have their names, and its replies are those of the source."""
    example = TOP / "examples" / "from_verilog"
    icarus(tmp_path, example / "processor_test.v", example / "processor.v", top="processor_test")
    stem = str(example / "from_verilog")
    words = [f"{stem}.bench", str(tmp_path / "processor.vcd"), "processor_test.dut"]
    assert main(["from-vcd", *words, "--script", f"{stem}.script", "-o", str(tmp_path / "replies")]) == 0
    assert (tmp_path / "replies").read_text() == Path(f"{stem}.replies").read_text()
    flops = {gate.name for gate in read_netlist(f"{stem}.bench").flops()}
    assert len(flops) == 185
    assert not any(name.startswith("$") for name in flops)
    assert main(["to-verilog", *(f"{stem}.{kind}" for kind in ("bench", "timing", "stim", "script")), "-o", str(tmp_path / "n.v")]) == 0
    assert in_order(icarus(tmp_path, tmp_path / "n.v", top="circuit")) == (tmp_path / "replies").read_text()
