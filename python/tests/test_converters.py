"""Stimuli and timings from dumps, BLIF, patterns and SDF, and dumps from replies, with values worked out by hand."""
from __future__ import annotations

import pytest
from backsim.convert.waves import changes_of
from backsim.formats.stimulus import read_stimulus
from backsim.formats.timing import Clock, read_timing
from backsim.formats.vcd import read_vcd
from backsim.main import main
from conftest import TOP
from verilog_tools import icarus

C17 = f"{TOP}/examples/c17/c17.bench"
HEADER = ("$timescale 1 ps $end\n$scope module test $end\n$scope module dut $end\n$var wire 1 ! clk $end\n$var wire 2 % d [1:0] $end\n"
          "$var wire 1 & e [0:0] $end\n$scope module part $end\n$var reg 1 ( q $end\n$upscope $end\n$upscope $end\n$upscope $end\n"
          "$enddefinitions $end\n")
BODY = "#0\n1!\nbx %\n0&\nx(\n#10\n0!\n#20\n1!\nb10 %\n1(\n#30\n0!\nz&\n#40\n1!\n0(\n#60\n"
FLOP = "INPUT(clk)\nINPUT(d[0])\nINPUT(d[1])\nINPUT(e)\nINPUT(vdd)\nOUTPUT(part.q)\npart.q = DFF(d[0])\n"


@pytest.fixture
def vcd(write):
    return write("d.vcd", HEADER + BODY)


@pytest.fixture
def netlist(write):
    return write("n", FLOP)


def told(capsys, *words: object) -> str:
    status = main(list(map(str, words)))
    said = capsys.readouterr()
    assert status == 0, said.err
    return said.out


def refused(capsys, *words: object) -> str:
    assert main(list(map(str, words))) == 2
    said = capsys.readouterr()
    assert said.out == "" and said.err.count("\n") == 1
    return said.err


def test_the_stimulus_of_a_dump(capsys, netlist, vcd) -> None:
    assert told(capsys, "from-vcd", netlist, vcd, "test.dut", "--ticks", 10) == (
        "# unit 10 ps\nhorizon 6\nset clk 0 1\nset e 0 0\nset vdd 0 1\nset clk 1 0\nset clk 2 1\nset d[0] 2 0\nset d[1] 2 1\nset clk 3 0\nset e 3 z\n"
        "set clk 4 1\n")


def test_the_replies_of_a_dump(capsys, netlist, vcd, write) -> None:
    script = write("script", "wave part.q 1 6\ngo\nat d[1] 2\nfirst part.q 0 0 7\nfirst e 1 0 7\nwave clk 3 3\n")
    assert told(capsys, "from-vcd", netlist, vcd, "test.dut", "--ticks", 10, "--script", script) == (
        "wave part.q 1 6\n1 x\n2 1\n4 0\nend\nat d[1] 2 1\nfirst part.q 0 0 7 4\nfirst e 1 0 7 none\nwave clk 3 3\nend\n")


def test_a_unit_may_be_finer_than_a_tick(capsys, netlist, vcd, write) -> None:
    """A tick is 1 ps, so 4 units; a window may begin and end between two ticks."""
    words = ["from-vcd", netlist, vcd, "test.dut", "--unit", "250fs"]
    assert told(capsys, *words) == (
        "# unit 250 fs\nhorizon 240\nset clk 0 1\nset e 0 0\nset vdd 0 1\nset clk 40 0\nset clk 80 1\nset d[0] 80 0\nset d[1] 80 1\nset clk 120 0\nset e 120 z\n"
        "set clk 160 1\n")
    window, timing = ["--from", "12750fs", "--to", 118], write("t", "# unit 250 fs\nversion 2\nclock clk 80 80\ndefault 1\nclocked part.q clk\n")
    # 12.75 ps are 51 units; the change at 120 is after the window's end, which is 67 units after its beginning
    assert told(capsys, *words, *window, "--timing", timing, "--window", write("w", "")) == (
        "# unit 250 fs\nhorizon 67\nset clk 0 0\nset e 0 0\nset vdd 0 1\nset clk 29 1\nset d[0] 29 0\nset d[1] 29 1\n")
    script = write("script", "wave part.q 10 67\nat d[1] 28\nat d[1] 29\n")
    assert told(capsys, *words, *window, "--script", script) == "wave part.q 10 67\n10 x\n29 1\nend\nat d[1] 28 x\nat d[1] 29 1\n"
    assert "the dump ends at 240, before 241, where the window begins" in refused(capsys, *words, "--from", 241, "--script", script)
    for unit, common in (("3fs", "1 fs"), ("1500fs", "500 fs"), ("600fs", "200 fs")):
        assert f"a tick of it is 1 ps, and {unit[:-2]} fs is neither a multiple nor a divisor of that: {common} is a divisor of both" in refused(
            capsys, "from-vcd", netlist, vcd, "test.dut", "--unit", unit)


@pytest.mark.parametrize("words, cause", [
    (["test.dot"], "there is no scope test.dot; the scopes are: test, test.dut, test.dut.part"), (["test.dut", "--ticks", 15], "test.dut.clk changes at 10 ticks"),
    (["test"], "the input clk is not dumped in the scope test")])
def test_a_dump_that_does_not_fit_is_refused(words: list, cause: str, capsys, netlist, vcd) -> None:
    assert cause in refused(capsys, "from-vcd", netlist, vcd, *words)


@pytest.mark.parametrize("value", ["U", "H", "L", "W", "-"])
def test_foreign_values_are_refused_with_their_place(value: str, capsys, netlist, write) -> None:
    path = write("d.vcd", HEADER + BODY.replace("z&", f"{value}&"))
    line = (HEADER + BODY.replace("z&", f"{value}&")).split("\n").index(f"{value}&") + 1
    assert refused(capsys, "from-vcd", netlist, path, "test.dut").startswith(f"{path}:{line}: test.dut.e has the value {value}")


def test_a_dump_that_is_too_long_is_refused(capsys, netlist, write) -> None:
    path = write("d.vcd", HEADER + BODY + "#2000000\n")
    assert "its last time is 2000000 units, above 1000000" in refused(capsys, "from-vcd", netlist, path, "test.dut")
    assert told(capsys, "from-vcd", netlist, path, "test.dut", "--ticks", 10).startswith("# unit 10 ps\nhorizon 200000\n")


@pytest.mark.parametrize("line, cause", [("stuck clk 0 e 0 3", "a dump answers"), ("stats", "a dump answers"), ("at f 3", "f is not dumped"),
                                         ("wave e 0 99", "ends before, at 60")])
def test_a_script_that_a_dump_does_not_answer_is_refused(line: str, cause: str, capsys, netlist, vcd, write) -> None:
    script = write("script", f"at e 3\n{line}\n")
    said = refused(capsys, "from-vcd", netlist, vcd, "test.dut", "--script", script)
    assert said.startswith(f"{script}:2: ") and cause in said


BLIF = ".model m\n.inputs clk d\n.outputs \\\npart.q\n.latch d part.q {edge} clk {first}\n.end\n"


@pytest.mark.parametrize("edge, first, lines", [("re", "1", ["# unit 10 ps", "version 2", "clock clk 2 2", "default 1", "clocked part.q clk", "init part.q 1"]),
                                                ("fe", "3", ["# unit 10 ps", "version 2", "clock clk_falls 1 2", "default 1", "clocked part.q clk_falls"])])
def test_the_timing_of_a_blif_file(edge: str, first: str, lines: list[str], capsys, netlist, write) -> None:
    # the clock rises at 20 and 40, and falls at 10 and 30, of 59 ticks
    start = "1!" if edge == "fe" else "x!"
    path = write("d.vcd", HEADER + BODY.replace("#0\n1!", f"#0\n{start}").replace("#60", "#49"))
    words = ["from-blif", netlist, write("b", BLIF.format(edge=edge, first=first)), path, "test.dut", "--ticks", 10]
    assert told(capsys, *words).splitlines() == lines


@pytest.mark.parametrize("text, cause", [
    (BLIF.format(edge="ah", first="1"), ":5: no flip-flop with a clock's edge"), (BLIF.format(edge="re", first="7"), ":5: the initial value 7"),
    (BLIF.format(edge="re", first="1").replace("part.q re", "other re"), "no .latch for the flip-flops part.q"), ("INPUT(a)\n", ":1: a BLIF file begins with .model"),
    ("", "the file has no .model"), (".model m\n.inputs a \\\n", ":2: the file ends inside a line")])
def test_a_blif_file_at_fault_is_refused(text: str, cause: str, capsys, netlist, vcd, write) -> None:
    path = write("b", text)
    assert refused(capsys, "from-blif", netlist, path, vcd, "test.dut").startswith(f"{path}{cause}" if cause.startswith(":") else f"{path}: ")


def test_a_clock_that_begins_with_its_edge_is_refused_without_an_option_that_from_blif_lacks(capsys, netlist, vcd, write) -> None:
    # the dump begins with clk = 1
    said = refused(capsys, "from-blif", netlist, write("b", BLIF.format(edge="re", first="1")), vcd, "test.dut", "--ticks", 10)
    assert said.endswith("the clock clk begins with 1, and Verilog leaves open whether that is an edge: let it begin with the other value\n")


def test_what_a_clock_has_where_a_dump_begins_later_is_no_edge(capsys, netlist, write) -> None:
    # the clock rises at 20, 40, 60 and so on, and the dump begins at 24, where it is 1
    blif = write("b", BLIF.format(edge="re", first="1"))
    path = write("d.vcd", HEADER + "#24\n1!\n0&\n#30\n0!\n#40\n1!\n#50\n0!\n#60\n1!\n#79\n")
    assert "clock clk 40 20" in told(capsys, "from-blif", netlist, blif, path, "test.dut").splitlines()
    # it begins with 0, so the first rise is an edge
    path = write("d.vcd", HEADER + "#30\n0!\n0&\n#40\n1!\n#50\n0!\n#60\n1!\n#79\n")
    assert "clock clk 40 20" in told(capsys, "from-blif", netlist, blif, path, "test.dut").splitlines()


def test_a_clock_that_is_not_regular_is_refused(capsys, netlist, write) -> None:
    blif = write("b", BLIF.format(edge="re", first="1"))
    path = write("d.vcd", HEADER + "#0\n0!\n0&\n#10\n1!\n#20\n0!\n#30\n1!\n#35\n0!\n#60\n1!\n#70\n")
    assert "the clock clk is not regular: it rises at 10, 30 and so on, but not so at 60" in refused(capsys, "from-blif", netlist, blif, path, "test.dut")
    path = write("d.vcd", HEADER + "#0\n0!\n0&\n#10\n1!\n#20\n0!\n#30\n1!\n#70\n")
    assert "but not so at 50" in refused(capsys, "from-blif", netlist, blif, path, "test.dut")


def test_patterns(capsys, write) -> None:
    path = write("p", "# inputs 1 2 3 6 7\n00 101\n\nxX111\n")
    assert told(capsys, "from-patterns", C17, path, "--period", 5, "--first", 2) == (
        "horizon 11\nset 1 2 0\nset 2 2 0\nset 3 2 1\nset 6 2 0\nset 7 2 1\nset 1 7 x\nset 2 7 x\nset 6 7 1\n")


def test_constants_need_no_letter(capsys, write) -> None:
    netlist = write("n", "INPUT(a)\nINPUT(gnd)\nINPUT(vdd)\nOUTPUT(a)\n")
    assert told(capsys, "from-patterns", netlist, write("p", "1\n"), "--period", 5) == "horizon 4\nset a 0 1\nset gnd 0 0\nset vdd 0 1\n"
    assert told(capsys, "from-patterns", netlist, write("p", "110\n"), "--period", 5) == "horizon 4\nset a 0 1\nset gnd 0 1\nset vdd 0 0\n"


@pytest.mark.parametrize("text, cause", [("00101\n0010\n", ":2: the pattern has 4 letters, and there are 5 inputs"), ("00101\n0012z\n", ":2: a pattern has the letters 0, 1 and x"),
                                         ("# none\n", ": there is no pattern")])
def test_patterns_at_fault_are_refused(text: str, cause: str, capsys, write) -> None:
    path = write("p", text)
    assert refused(capsys, "from-patterns", C17, path, "--period", 5).startswith(f"{path}{cause}")


def test_too_many_patterns_are_refused(capsys, write) -> None:
    path = write("p", "00101\n" * 11)
    assert "above 1000000" in refused(capsys, "from-patterns", C17, path, "--period", 100_000)


SDF = """(DELAYFILE (SDFVERSION "3.0") (DESIGN "c17 (a)") // a comment (
 /* another
    one */
 (DIVIDER /) (TIMESCALE 10ps)
 (CELL (CELLTYPE "NAND2") (INSTANCE 10)
  (DELAY (ABSOLUTE (IOPATH A Y (1.0:2.0:3.5) (2:2.5:3)) (IOPATH B Y (1::2) (4)))))
 (CELL (CELLTYPE "NAND2") (INSTANCE 11)
  (DELAY (ABSOLUTE (IOPATH 3 Y (5)) (COND A==1 (IOPATH 6 Y (7) ())) (INTERCONNECT a b (1)))
         (INCREMENT (IOPATH 3 Y (1)))))
 (CELL (CELLTYPE "NAND2") (INSTANCE 16) (DELAY (ABSOLUTE (IOPATH B Y (0)) (IOPATH A Y (-1:0:0.5)))))
 (CELL (CELLTYPE "X") (INSTANCE u/v) (DELAY (ABSOLUTE (IOPATH A Y (5)))) (TIMINGCHECK (SETUP d c (1))))
)
"""


def test_the_greatest_of_the_numbers(capsys, write) -> None:
    path = write("d.sdf", SDF)
    base = write("t", "version 2\ndefault NAND 9\npin 19 1 3\nclock 5 10\ndelay 16 4\n")
    assert main(["from-sdf", C17, str(path), "--timing", str(base)]) == 0
    said = capsys.readouterr()
    # pin 0 of 10 has 3.5 and pin 1 has 4, both 4 when rounded up; of 11 the pins 3, which has 5 + 1, and 6 are named by their nets
    assert set(said.out.splitlines()) == {"# unit 10 ps", "version 2", "clock 5 10", "default NAND 9", "delay 10 4", "delay 11 7", "pin 11 0 6", "delay 16 1",
                                          "pin 19 1 3"}
    assert said.err.splitlines() == [
        "left out: 1 TIMINGCHECK, the first in line 11",
        "left out: 1 IOPATH of an instance that is no gate of the netlist, the first in line 11",
        "left out: 1 INTERCONNECT, which needs the ports of cells (--json), the first in line 8", "1 delays of 0 or less are taken as 1",
        "3 of 6 gates have no delay of the file, and keep the one that they had"]


def test_another_unit(capsys, write) -> None:
    path = write("d.sdf", SDF)
    # 35 ps and 40 ps are 18 and 20 units of 2 ps
    said = told(capsys, "from-sdf", C17, path, "--unit", "2ps")
    assert said.startswith("# unit 2 ps\n") and "delay 10 20\n" in said and "pin 10 0 18\n" in said
    assert "delay 10 4000\npin" not in told(capsys, "from-sdf", C17, path, "--unit", "10 fs")
    assert "delay 10 40\n" in told(capsys, "from-sdf", C17, path, "--unit", "1 ps")
    assert "pin 10 0 35\n" in told(capsys, "from-sdf", C17, path, "--unit", "1 ps")
    assert "delay 10 1\n" in told(capsys, "from-sdf", C17, path, "--unit", "1ns")
    base = write("t", "# unit 1 ps\n")
    assert "delay 10 40\n" in told(capsys, "from-sdf", C17, path, "--timing", base)
    assert "its unit of time is 10 ps, and that of the timing file is 1 ps" in refused(capsys, "from-sdf", C17, path, "--timing", base, "--unit", "10ps")
    with pytest.raises(SystemExit):
        main(["from-sdf", str(C17), str(path), "--unit", "0ps"])
    assert "a unit of time is wanted" in capsys.readouterr().err


def test_the_edge_of_a_flip_flop(capsys, write) -> None:
    netlist = write("n", "INPUT(d)\nOUTPUT(top.q[1])\ntop.q[1] = DFF(d)\n")
    path = write("d.sdf", '(DELAYFILE (DIVIDER /) (CELL (CELLTYPE "DFF") (INSTANCE top/q\\[1\\]) (DELAY (ABSOLUTE (IOPATH (posedge C) Q (2:3:4)) (IOPATH R Q (9))))))')
    assert told(capsys, "from-sdf", netlist, path) == "# unit 1 ns\ndefault 1\ndelay top.q[1] 4\n"


@pytest.mark.parametrize("text, cause", [
    (SDF[:200], "the file ends before the bracket"), ("", "expected `(DELAYFILE`"), ("(A)", "expected `(DELAYFILE`"), (SDF + ")", "expected one form"),
    (SDF.replace("(5)", "(five)", 1), ":8: `five` is no delay"), (SDF.replace("10ps", "3ps"), ":4: the time scale `3ps`"), (SDF.replace("(5)", "5", 1), ":8: expected a delay"),
    ('(DELAYFILE (DESIGN "a', "does not end"), (SDF.replace("INSTANCE 1", "INSTANCE x"), "no IOPATH of it is one of a gate of the netlist; where the netlist was made by from-json, --json says"),
    (SDF.replace("(5)", "(5e9)", 1), "above 1000000"), ("(" * 200, "expected one form")])
def test_an_sdf_file_at_fault_is_refused(text: str, cause: str, capsys, write) -> None:
    path = write("d.sdf", text)
    said = refused(capsys, "from-sdf", C17, path)
    assert said.startswith(str(path)) and cause in said


def test_replies_as_a_dump(capsys, write, tmp_path) -> None:
    replies = write("r", "wave part.count[1] 0 8\n0 x\n3 1\n6 0\nend\nat part.count[0] 4 1\nstuck g 1 y 2 5\n2 0\n4 1\nend\nat y 3 1\nat y 5 0\n"
                    "unknown n\nbudget m 3\nwave v[4] 0 2\n0 z\nend\n")
    assert main(["to-vcd", str(replies), "--timescale", "10 ps", "--top", "chip", "-o", str(tmp_path / "d.vcd")]) == 0
    dump = read_vcd(tmp_path / "d.vcd")
    assert (dump.ticks, dump.unit, dump.last) == (10, "ps", 8)
    assert dump.scopes == ["chip", "chip.g-stuck-at-1", "chip.part"]
    assert dump.signal("chip.part", "count") == ((0, "xx"), (3, "1x"), (4, "11"), (5, "1x"), (6, "0x"), (8, "xx"))
    assert dump.signal("chip", "y") == ((0, "x"), (3, "1"), (4, "x"), (5, "0"), (6, "x"))
    assert dump.signal("chip.g-stuck-at-1", "y") == ((0, "x"), (2, "0"), (4, "1"), (5, "x"))
    assert dump.signal("chip", "v[4]") == ((0, "z"), (2, "x"))
    flat = told(capsys, "to-vcd", replies, "--flat")
    assert "part.count[1] $end" in flat and "$scope module part" not in flat


def test_more_wires_than_a_session_may_dump(capsys, write) -> None:
    replies = write("r", "".join(f"at s{place} {place} 1\n" for place in range(300)))
    assert told(capsys, "to-vcd", replies).count("$var wire 1 ") == 300


@pytest.mark.parametrize("runs, changes", [
    ([], ((0, "x"),)), ([(0, 5, "1")], ((0, "1"), (5, "x"))), ([(2, 5, "1"), (3, 7, "1")], ((0, "x"), (2, "1"), (7, "x"))),
    ([(4, 5, "0"), (5, 6, "0"), (8, 9, "x")], ((0, "x"), (4, "0"), (6, "x")))])
def test_runs_that_overlap_or_leave_gaps(runs: list, changes: tuple) -> None:
    assert changes_of(runs) == changes


@pytest.mark.parametrize("text, cause", [("refused netlist line 3 cause 2\n", "the session was refused"), ("unknown a\n", "there is no wave"), ("wave a 0 3\n0 1\n", "the file ends")])
def test_replies_without_a_wave_are_refused(text: str, cause: str, capsys, write) -> None:
    assert cause in refused(capsys, "to-vcd", write("r", text))


def test_bad_words_of_to_vcd(capsys, write) -> None:
    path = write("r", "at a 3 1\n")
    assert "the time scale 3 ns is none of" in refused(capsys, "to-vcd", path, "--timescale", "3 ns")
    assert "has no blank" in refused(capsys, "to-vcd", path, "--top", "a b")


def test_a_dump_of_to_verilog_comes_back(capsys, tmp_path, example) -> None:
    """The stimulus of s27, through Verilog and a dump of Icarus."""
    files = example("s27")
    assert main(["to-verilog", *files, "--dump", str(tmp_path / "d.vcd"), "-o", str(tmp_path / "s27.v")]) == 0
    icarus(tmp_path, tmp_path / "s27.v", top="circuit")
    made = told(capsys, "from-vcd", files[0], tmp_path / "d.vcd", "circuit", "--ticks", 10)
    (tmp_path / "s").write_text(made)
    found, given = read_stimulus(tmp_path / "s"), read_stimulus(files[2])
    assert found.horizon == given.horizon
    assert {name: own for name, own in found.settings.items() if own} == given.settings
    assert told(capsys, "from-vcd", files[0], tmp_path / "d.vcd", "circuit", "--ticks", 10, "--script", f"{TOP}/examples/s27/s27.script") == (
        TOP / "examples/s27/s27.replies").read_text()
    assert read_timing(files[1]).clock == Clock(10, 10)
