"""normalise: other dialects of .bench, and that both are one circuit."""
from __future__ import annotations

import itertools
import random
import subprocess

import pytest
from backsim.convert.dialect import MuxOrder, parse_dialect
from backsim.circuit.kinds import Kind
from backsim.errors import FormatError
from backsim.formats.netlist import Netlist, parse_netlist
from backsim.main import main
from stand_in import gate_value
from verilog_tools import icarus, in_order, need

DIALECT = """INPUT(a)
INPUT(b)
INPUT(s)
INPUT(c)
OUTPUT(y)
OUTPUT(q)
OUTPUT(m)
OUTPUT(l)
OUTPUT(k)
OUTPUT(o)
one = vdd
zero = CONST0()
y = mux(s, a, b)
d = INV(m)
q = DFFRSE( d, gnd, gnd, gnd, gnd )
m           = LUT 0xe8 ( a, b, c )
l = LUT 0x2 ( a, c )
k = NAND(one, VDD, s)
e = BUFFER(a)
o = OR(zero, e, CONST0)
"""
# the same, written by hand
VERILOG = """module dialect(input a, b, s, c, output y, m, l, k, o, d);
  assign y = s ? b : a;
  assign m = a & b | a & c | b & c;
  assign d = !m;
  assign l = a & !c;
  assign k = !s;
  assign o = a | 1'b0;
endmodule
"""


def made(text: str, order: MuxOrder | None = None) -> Netlist:
    return parse_dialect(text.encode("latin-1"), "n", order).netlist


def values(netlist: Netlist, inputs: dict[str, str]) -> dict[str, str]:
    """Every signal, by a plain walk; constants are inputs with names of their own."""
    found = {"vdd": "1", "gnd": "0"} | inputs

    def value(name: str) -> str:
        if name not in found:
            gate = netlist.gates[name]
            found[name] = gate_value(gate.kind.value, [value(pin) for pin in gate.pins])
        return found[name]

    return {name: value(name) for name in netlist.names}


def test_names_and_ports_stay() -> None:
    netlist = made(DIALECT)
    assert netlist.inputs == ("a", "b", "s", "c", "vdd", "gnd")
    assert netlist.outputs == ("y", "q", "m", "l", "k", "o")
    assert {"one", "zero", "y", "d", "q", "m", "l", "k", "e", "o"} <= set(netlist.gates)
    assert (netlist.gates["q"].kind, netlist.gates["q"].pins) == (Kind.DFF, ("d",))
    assert (netlist.gates["d"].kind, netlist.gates["e"].kind, netlist.gates["k"].pins) == (Kind.NOT, Kind.BUFF, ("one", "vdd", "s"))


@pytest.mark.parametrize("text", [DIALECT.encode(), b"\xef\xbb\xbf" + DIALECT.encode(), DIALECT.replace("\n", "\r\n").encode(),
                                  DIALECT.encode("utf-16"), b"# ABC\n\n" + DIALECT.encode()])
def test_marks_and_line_ends_are_passed_over(text: bytes) -> None:
    netlist = parse_dialect(text, "n").netlist
    assert [(gate.name, gate.kind, gate.pins) for gate in netlist.gates.values()] == [
        (gate.name, gate.kind, gate.pins) for gate in made(DIALECT).gates.values()]


def test_what_the_nine_kinds_have_is_left_as_it_is(capsys, tmp_path) -> None:
    path = tmp_path / "n"
    path.write_text("INPUT(a)\nINPUT(vdd)\nOUTPUT(y)\ny = NAND(a, vdd)\n")
    assert main(["normalise", str(path)]) == 0
    assert capsys.readouterr().out == path.read_text()


ORDERS = [(order, order.value.split(",")) for order in MuxOrder]


@pytest.mark.parametrize("order, words", ORDERS)
def test_a_mux_in_each_order(order: MuxOrder, words: list[str]) -> None:
    netlist = made("INPUT(p)\nINPUT(q)\nINPUT(r)\ny = MUX(p, q, r)\n", order)
    for pins in itertools.product("01x", repeat=3):
        own = dict(zip(words, pins))
        expected = {"0": own["zero"], "1": own["one"], "x": own["zero"] if own["zero"] == own["one"] else "x"}[own["select"]]
        assert values(netlist, dict(zip("pqr", pins)))["y"] == expected


@pytest.mark.parametrize("count", range(1, 6))
def test_tables_are_known_where_all_settings_agree(count: int) -> None:
    draw = random.Random(count)
    names = [f"i{place}" for place in range(count)]
    for bits in ([*range(1 << (1 << count))] if count < 3 else [draw.getrandbits(1 << count) for _ in range(12)]):
        netlist = made("".join(f"INPUT({name})\n" for name in names) + f"y = LUT 0x{bits:x} ( {', '.join(names)} )\n")
        for pins in itertools.product("01x", repeat=count):
            reached = {bits >> sum(int(bit) << place for place, bit in enumerate(setting)) & 1
                       for setting in itertools.product(*("01" if pin == "x" else pin for pin in pins))}
            assert values(netlist, dict(zip(names, pins)))["y"] == (str(reached.pop()) if len(reached) == 1 else "x"), (bits, pins)


def test_a_table_of_ten_pins_and_a_gate_of_a_hundred() -> None:
    draw = random.Random(1)
    names = [f"i{place}" for place in range(10)]
    bits = draw.getrandbits(1024)
    netlist = made("".join(f"INPUT({name})\n" for name in names) + f"y = LUT 0x{bits:x} ({', '.join(names)})\n"
                   + f"z = NAND({', '.join(names * 10)})\nw = XNOR({', '.join(names * 7)})\n")
    assert max(len(gate.pins) for gate in netlist.gates.values()) <= 64
    for index in [0, 1023, *(draw.getrandbits(10) for _ in range(50))]:
        found = values(netlist, {name: str(index >> place & 1) for place, name in enumerate(names)})
        assert found["y"] == str(bits >> index & 1)
        assert found["z"] == ("0" if index == 1023 else "1")
        assert found["w"] == str((index.bit_count() * 7 + 1) % 2)


@pytest.mark.parametrize("line, cause", [
    ("q = DFFRSE(a, a, gnd, gnd, gnd)", "the flip-flop q has a reset, set or enable that is not gnd"), ("y = MUX(a, b)", "a MUX has three pins"),
    ("y = LUT 0x123 (a, b)", "more than the 4 bits"), ("y = LUT (a, b)", "LUT 0xTABLE"), ("y = LATCH(a, b)", "y is a latch (LATCH), which no netlist has"),
    ("y = MAJ(a, b)", "a MAJ has 3, 5 or 7 pins, and this one 2"), ("y = SDFF(a, b)", "an SDFF has the pin data, or data, scan input and scan enable"),
    ("y = ONE(a)", "the kind ONE is none of"), ("y = AND(a, ONE)", "no line defines: ONE"), ("y = FOO(a)", "the kind FOO is none of"),
    ("y = NOT(a, b)", "NOT has 2 pins"), ("y = AND()", "AND has 0 pins"), ("y = AND(a", "the line is none of"), ("y = nowhere", "no line defines: nowhere"),
    ("y = AND(a, n)", "no line defines: n"), ("a = NOT(b)", "an earlier line defines this signal: a"), ("y AND(a)", "the line is none of"),
    ("y = LUT 0xzz (a)", "LUT 0xTABLE"), ("y\xff = NOT(a)", "the line is none of"), ("y = AND(a, \xff)", "the line is none of")])
def test_what_has_no_meaning_is_refused_with_its_line(line: str, cause: str) -> None:
    with pytest.raises(FormatError) as error:
        made(f"INPUT(a)\nINPUT(b)\nOUTPUT(a)\n{line}\n")
    assert str(error.value).startswith("n:4: ") and cause in str(error.value)


def test_a_name_that_the_file_defines_is_no_constant() -> None:
    netlist = made("INPUT(a)\nvdd = NOT(a)\ny = AND(vdd, CONST1)\nz = gnd\nOUTPUT(vdd$1)\nvdd$1 = NOT(a)\n")
    assert netlist.gates["y"].pins == ("vdd", "vdd$2")
    assert netlist.inputs == ("a", "vdd$2", "gnd")


def test_majorities_and_constants_as_kinds() -> None:
    netlist = made("INPUT(a)\nINPUT(b)\nINPUT(c)\ny = MAJ(a, b, c)\nk = ONE()\nl = zero\nm = MAJ(a, b, c, k, l)\n")
    for a, b, c in itertools.product("01x", repeat=3):
        known = [value for value in (a, b, c) if value != "x"]
        expected = next((value for value in "01" if known.count(value) > 1), "x")
        found = values(netlist, {"a": a, "b": b, "c": c})
        # of five pins with a 1 and a 0 the other three decide
        assert (found["y"], found["k"], found["l"], found["m"]) == (expected, "1", "0", expected)


def test_a_scan_flip_flop_takes_one_of_two(capsys, tmp_path) -> None:
    path = tmp_path / "n"
    path.write_text("INPUT(d)\nINPUT(s)\nINPUT(e)\nq = SDFF(d, s, e)\nr = SDFF(q, q, e)\np = SDFF(d)\n")
    assert main(["normalise", str(path)]) == 0
    said = capsys.readouterr()
    assert said.err == f"{path}:4: an SDFF is taken as SDFF(data, scan input, scan enable)\n"
    netlist = parse_netlist(said.out.encode(), "n")
    assert [gate.name for gate in netlist.flops()] == ["q", "r", "p"] and netlist.gates["p"].pins == ("d",)
    pin = netlist.gates["q"].pins[0]
    for d, s, e in itertools.product("01", repeat=3):
        assert values(netlist, {"d": d, "s": s, "e": e, "q": "x"})[pin] == (s if e == "1" else d)


def test_a_mux_is_said_once(capsys, tmp_path) -> None:
    path = tmp_path / "n"
    path.write_text("INPUT(a)\ny = MUX(a, a, a)\nz = MUX(y, a, a)\n")
    assert main(["normalise", str(path)]) == 0
    assert capsys.readouterr().err.count("\n") == 1
    assert main(["normalise", str(path), "--mux", "select,one,zero"]) == 0
    assert capsys.readouterr().err == ""


PERIOD = 20
SETTINGS = list(itertools.product("01x", repeat=4))


@pytest.fixture
def session(tmp_path):
    """The netlist made of the dialect, a timing with an edge in each period, a stimulus with all settings, and questions."""
    (tmp_path / "dialect.bench").write_text(DIALECT)
    assert main(["normalise", str(tmp_path / "dialect.bench"), "-o", str(tmp_path / "n"), "--mux", "select,zero,one"]) == 0
    (tmp_path / "t").write_text(f"clock {PERIOD - 5} {PERIOD}\n")
    (tmp_path / "p").write_text("".join(f"{''.join(setting)}\n" for setting in SETTINGS))
    assert main(["from-patterns", str(tmp_path / "n"), str(tmp_path / "p"), "--period", str(PERIOD), "-o", str(tmp_path / "s")]) == 0
    (tmp_path / "script").write_text("".join(f"at {name} {PERIOD * number + PERIOD - 1}\n" for number in range(len(SETTINGS)) for name in "ymlkoq"))
    return tmp_path


@pytest.fixture
def expected(session) -> str:
    """The replies by the hand-written Verilog: q shows d."""
    looks = "".join(f"{{a, b, s, c}} = 4'b{''.join(setting)}; #1 show({PERIOD * number + PERIOD - 1}); "
                    for number, setting in enumerate(SETTINGS))
    shows = "".join(f'$display("at {name} %0d %b", t, {"d" if name == "q" else name}); ' for name in "ymlkoq")
    (session / "hand.v").write_text(f"{VERILOG}module hand; reg a, b, s, c; wire y, m, l, k, o, d; dialect dut(a, b, s, c, y, m, l, k, o, d);\n"
                                    f"task show(input integer t); begin {shows} end endtask initial begin {looks} end endmodule\n")
    return icarus(session, session / "hand.v", top="hand")


def test_both_are_one_circuit_by_icarus(session, expected) -> None:
    words = [str(session / name) for name in ("n", "t", "s", "script")]
    assert main(["to-verilog", *words, "-o", str(session / "netlist.v")]) == 0
    assert in_order(icarus(session, session / "netlist.v", top="circuit")) == expected


def test_both_are_one_circuit_by_the_program(session, expected, program) -> None:
    with open(session / "script", "rb") as script:
        run = subprocess.run([program, "n", "t", "s", "j"], cwd=session, stdin=script, capture_output=True, text=True, check=True)
    assert run.stdout == expected


def test_the_luts_of_abc(tmp_path) -> None:
    """A netlist that ABC writes with LUTs and DFFRSE is the BLIF that it was made of."""
    need("yosys-abc", "yosys")
    (tmp_path / "n.blif").write_text(".model n\n.inputs a b c\n.outputs y q\n.latch y q 2\n.names a b c y\n11- 1\n0-1 1\n.end\n")
    subprocess.run(["yosys-abc", "-q", "read_blif n.blif; write_bench n.bench"], cwd=tmp_path, check=True, capture_output=True)
    text = (tmp_path / "n.bench").read_text()
    assert "LUT" in text and "DFFRSE" in text
    netlist = made(text)
    assert netlist.gates["q"].kind is Kind.DFF
    for a, b, c in itertools.product("01", repeat=3):
        assert values(netlist, {"a": a, "b": b, "c": c, "q": "x"})["y"] == (b if a == "1" else c)
