"""What the forms of SDF come to, by the rules of IEEE 1497, with values worked out by hand."""
from __future__ import annotations

import pytest
from backsim.formats.netlist import read_netlist
from backsim.formats.timing import read_timing
from backsim.main import main
from test_library_cells import annotated, converted, sdf

# an AND gate, whose pins the ports a and b name
GATE = "INPUT(a)\nINPUT(b)\nOUTPUT(u.g[3])\nu.g[3] = AND(a, b)\n"


def told(write, capsys, text: str) -> tuple[int, int, list[str]]:
    """The delays of the two pins, 1 where none is stated, and what is said but for that."""
    path, made = write("d.sdf", text), write("late", "")
    status = main(["from-sdf", str(write("n", GATE)), str(path), "-o", str(made)])
    said = capsys.readouterr().err.splitlines()
    assert status == 0, said
    netlist = read_netlist(path.parent / "n")
    gate = netlist.gates["u.g[3]"]
    timing = read_timing(made, netlist)
    return timing.delay(gate, 0), timing.delay(gate, 1), said


def cell(body: str) -> str:
    return f'(CELL (CELLTYPE "AND2") (INSTANCE u/g\\[3\\]) {body})'


@pytest.mark.parametrize("body, first, second", [
    # below ABSOLUTE a later one replaces, and () leaves what was stated of that edge
    ("(ABSOLUTE (IOPATH a y (5)) (IOPATH b y (6)) (IOPATH a y (3)))", 3, 6),
    ("(ABSOLUTE (IOPATH a y (5) (4)) (IOPATH b y (6)) (IOPATH a y () (9)) (IOPATH a y (2) ()))", 9, 6),
    # below INCREMENT one is added, to rises and falls by themselves
    ("(ABSOLUTE (IOPATH a y (5) (4)) (IOPATH b y (6))) (INCREMENT (IOPATH a y (1) (3)) (IOPATH b y (-2)))", 7, 4),
    ("(INCREMENT (IOPATH a y (5))) (ABSOLUTE (IOPATH a y (3)) (IOPATH b y (2)))", 3, 2),
    # one without a condition or an edge is for all; one with it for that alone, and then the greatest counts
    ("(ABSOLUTE (COND b==1'b1 (IOPATH a y (7))) (CONDELSE (IOPATH a y (8))) (IOPATH a y (3)) (IOPATH b y (2)))", 3, 2),
    ("(ABSOLUTE (IOPATH a y (3)) (IOPATH b y (2)) (COND b == 1'b1 (IOPATH a y (7))) (COND b==1'b1 (IOPATH a y (6))))", 6, 2),
    ("(ABSOLUTE (COND (b && a) (IOPATH a y (7))) (COND (a && b) (IOPATH a y (4))) (IOPATH b y (2)))", 7, 2),
    ("(ABSOLUTE (IOPATH a y (9)) (IOPATH (posedge a) y (2)) (IOPATH (NEGEDGE a) y (3)) (IOPATH b y (2)))", 3, 2),
    ("(ABSOLUTE (IOPATH a y (4)) (IOPATH b y (2))) (INCREMENT (IOPATH (posedge a) y (3)))", 7, 2),
    # DEVICE is for all paths to its port, or to all ports
    ("(ABSOLUTE (DEVICE y (4)) (IOPATH a y (2)) (IOPATH b y () (5)))", 2, 5),
    ("(ABSOLUTE (IOPATH a y (2)) (IOPATH b y (5)) (DEVICE (4)))", 4, 4),
    # numbers: a triple that lacks one, a limit of pulses behind the delay, one for z behind both
    ("(ABSOLUTE (IOPATH a y (1::2)) (IOPATH b y (3:4:)))", 2, 4),
    ("(ABSOLUTE (IOPATH a y ((3) (1) (9))) (IOPATH b y (3) (4) (9)))", 3, 4),
    ("(absolute (iopath a y (6)) (cond a (iopath b y (.25e1))))", 6, 3)])
def test_what_entries_come_to(body: str, first: int, second: int, write, capsys) -> None:
    own = told(write, capsys, sdf(cell(f"(DELAY {body})")))
    assert own[:2] == (first, second) and not [line for line in own[2] if "INCREMENT" not in line]
    # the same in two sections of the cell
    sections = f"(DELAY {body})".replace(") (INCREMENT", ")) (DELAY (INCREMENT").replace(") (ABSOLUTE", ")) (DELAY (ABSOLUTE")
    assert told(write, capsys, sdf(cell(sections)))[:2] == (first, second)


@pytest.mark.parametrize("body, said", [
    ("(INCREMENT (IOPATH a y (5)))", "1 INCREMENT of a delay that is not stated before it"), ("(ABSOLUTE (IOPATH a y (::)))", "1 IOPATH without a number"),
    ("(ABSOLUTE (IOPATH a y (RETAIN (1) (2)) (1)))", "1 RETAIN"), ("(ABSOLUTE (NETDELAY n (2)))", "1 NETDELAY"), ("(PATHPULSE a y (1) (2))", "1 PATHPULSE"),
    ("(ABSOLUTE (PORT a (2)))", "1 PORT, which needs the ports of cells (--json)"), ("(ABSOLUTE (IOPATH c y (2)))", "1 IOPATH whose ports are no pins of one gate")])
def test_what_is_left_out_is_counted(body: str, said: str, write, capsys) -> None:
    own = told(write, capsys, sdf(cell("(DELAY (ABSOLUTE (IOPATH b y (4))))") + "\n" + cell(f"(DELAY {body})")))
    assert own == (1, 4, [f"left out: {said}, the first in line 3"])


@pytest.mark.parametrize("text, cause", [
    (cell("(INSTANCE u/v)"), "expected one `(INSTANCE NAME)` in a cell"), ('(CELL (CELLTYPE "A") (INSTANCE u v))', "expected one `(INSTANCE NAME)` in a cell"),
    (cell("(DELAY (ABSOLUTE (COND b (PORT a (1)))))"), "expected `(COND .. (IOPATH ..))`"), (cell("(DELAY (ABSOLUTE (IOPATH a y (1:2))))"), "`1:2` is no delay"),
    (cell("(DELAY (ABSOLUTE (IOPATH (posedge a b) y (1))))"), "expected `(IOPATH PORT PORT (DELAY) ..)`")])
def test_what_is_none_of_its_forms_is_refused(text: str, cause: str, write, capsys) -> None:
    path = write("d.sdf", sdf(text))
    assert main(["from-sdf", str(write("n", GATE)), str(path)]) == 2
    assert capsys.readouterr().err == f"{path}:2: {cause}\n"


@pytest.mark.parametrize("scale, unit", [("1 ns", "1 ns"), ("1.0ps", "1 ps"), ("100 ps", "100 ps"), ("10.00us", "10 us")])
def test_the_time_scale(scale: str, unit: str, write, capsys) -> None:
    own = sdf(cell("(DELAY (ABSOLUTE (IOPATH a y (2)) (IOPATH b y (3))))")).replace("1ns", scale)
    assert told(write, capsys, own) == (2, 3, []) and f"# unit {unit}\n" in (write("again", "").parent / "late").read_text()


BUFFERS = """module part(input a, output y); BUF \\b[3] (.A(a), .Y(y)); endmodule
module chip(input a, b, output y, z); part u1(a, y); part \\u.2/x (b, z); endmodule"""


def test_every_instance_of_a_type(tmp_path, capsys) -> None:
    """`(INSTANCE *)`, and what is stated after it, or before it, for one of the instances. `(INSTANCE)` is the design itself."""
    assert converted(tmp_path, BUFFERS) == 0
    capsys.readouterr()
    every = '(CELL (CELLTYPE "BUF") (INSTANCE *) (DELAY (ABSOLUTE (IOPATH A Y (5) (6)) (PORT A (1)))))\n'
    first = '(CELL (CELLTYPE "BUF") (INSTANCE u1/b\\[3\\]) (DELAY (ABSOLUTE (IOPATH A Y (3)))))\n'
    other = '(CELL (CELLTYPE "BUF") (INSTANCE u\\.2\\/x/b\\[3\\]) (DELAY (INCREMENT (IOPATH A Y (2)))))\n'
    wire = '(CELL (CELLTYPE "chip") (INSTANCE) (DELAY (ABSOLUTE (INTERCONNECT a u1/b\\[3\\]/A (4)) (IOPATH a y (9)))))\n'
    lost = '(CELL (CELLTYPE "INV") (INSTANCE *) (DELAY (ABSOLUTE (IOPATH A Y (5)))))\n'

    def delays(text: str) -> tuple[int, int]:
        timing = annotated(tmp_path, sdf(text))
        netlist = read_netlist(tmp_path / "n")
        return timing.delay(netlist.gates["y"], 0), timing.delay(netlist.gates["z"], 0)

    assert delays(every) == (7, 7)
    assert capsys.readouterr().err.splitlines() == ["1 of 1 IOPATH and 1 of 1 INTERCONNECT and PORT are used",
                                                     "1 IOPATH have different numbers for rise and fall: the greatest counts for both"]
    # 3 + 1, and 6 + 2 + 1; then, the other way round, * is the last for both, and the increment has nothing before it
    assert delays(every + first + other) == (4, 9)
    assert delays(other + first + every) == (7, 7)
    assert "left out: 1 INCREMENT of a delay that is not stated before it, the first in line 2" in capsys.readouterr().err.splitlines()
    # the wire's later delay replaces that of PORT: 6 + 4; a PORT after it replaces it
    assert delays(every + wire + lost) == (10, 7)
    assert capsys.readouterr().err.splitlines()[:3] == [
        "1 of 3 IOPATH and 2 of 2 INTERCONNECT and PORT are used", "left out: 1 IOPATH of the design itself, which is no cell, the first in line 3",
        "left out: 1 IOPATH of every instance of a type of which there is none, the first in line 4"]
    assert delays(wire + every) == (7, 7)


def test_an_sdf_file_of_another_netlist_is_said(tmp_path, capsys) -> None:
    assert converted(tmp_path, "module chip(input a, b, c, output y, z); AOI u1(.A(a), .B(b), .C(c), .Y(y), .Z(z)); endmodule") == 0
    annotated(tmp_path, sdf('(CELL (CELLTYPE "chip") (INSTANCE) (DELAY (ABSOLUTE (INTERCONNECT a u1/A (-2)))))\n'
                            '(CELL (CELLTYPE "OAI") (INSTANCE u1) (DELAY (ABSOLUTE (IOPATH A Y (4)))))'))
    said = capsys.readouterr().err
    assert "1 wires have a delay below 0, which is taken as 0\n" in said
    assert "1 instances have another type in the netlist than in the file, which may be that of another netlist: u1 is AOI here, and OAI in line 3\n" in said
