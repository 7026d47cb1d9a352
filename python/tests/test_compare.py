"""`compare`: the first mismatches of a netlist with a dump, worked out by hand."""
from __future__ import annotations

import subprocess

import pytest
from backsim.main import main

# q counts the rises of clk at 10, 30 and so on modulo 4; y is its parity, two gates deep
NETLIST = """INPUT(clk)
INPUT(a)
OUTPUT(y)
q[0] = DFF(n)  # chip.v:7
n = NOT(q[0])
q[1] = DFF(m)  # chip.v:7
m = XOR(q[1], q[0])
p = XOR(q[0], q[1])  # chip.v:9
y = AND(p, a)  # chip.v:10
"""
TIMING = "# unit 1 ns\nversion 2\nclock clk 10 20\ndefault 1\nclocked q[0] clk\nclocked q[1] clk\ninit q[0] 0\ninit q[1] 0\n"
HEADER = ("$timescale 1 ns $end\n$scope module test $end\n$var wire 1 ! clk $end\n$var wire 1 % a $end\n$var reg 2 & q [1:0] $end\n"
          "$var wire 1 ( p $end\n$var wire 1 ) y $end\n$upscope $end\n$enddefinitions $end\n")
# at 11, 31, 51 and so on q is 1, 2, 3, 0; p and y are its parity
WORDS = ["00", "01", "10", "11", "00"]


def dump(words: list[str] = WORDS, parity: str = "01100", p_of: str = "", begin: str = "1%") -> str:
    text = HEADER + f"#0\n0!\n{begin}\nb00 &\n{(p_of or parity)[0]}(\n{parity[0]})\n"
    for number in range(1, 5):
        text += f"#{20 * number - 10}\n1!\n#{20 * number - 9}\nb{words[number]} &\n{(p_of or parity)[number]}(\n{parity[number]})\n#{20 * number}\n0!\n"
    return text + "#89\n"


@pytest.fixture
def compared(write, program, capsys, monkeypatch):
    monkeypatch.setenv("BACKSIM", program)
    netlist, timing = write("n", NETLIST), write("t", TIMING)

    def run(text: str, *words: object) -> tuple[int, list[str]]:
        status = main(["compare", str(netlist), str(timing), str(write("d.vcd", text)), "test", *map(str, words)])
        said = capsys.readouterr()
        return status, said.out.splitlines() or said.err.splitlines()

    return run


def test_nothing_differs(compared) -> None:
    # edges are at 10, 30 .. 70 and clk, an input, falls at 20 .. 80; the longest path is 3: q, p, y. So 9, 19, 29 .. 89 are compared
    assert compared(dump()) == (0, ["4 signals compared at 9 times; nets and buses that differ: 0"])


def test_the_first_of_each_bus_and_what_follows_from_it(compared, tmp_path) -> None:
    # from 31 on q[1] is wrong in the dump, and so is what is made of it
    words = ["00", "01", "00", "01", "00"]
    status, lines = compared(dump(words, "01010"), "--stimulus", tmp_path / "s")
    assert (status, lines) == (1, ["39: q[1:0] is 10 here, and 00 in the dump; chip.v:7; what it is made of does not differ; why q[1] 39",
                                   "39: p is 1 here, and 0 in the dump; chip.v:9; why p 39",
                                   "39: y is 1 here, and 0 in the dump; chip.v:10; why y 39",
                                   "4 signals compared at 9 times; nets and buses that differ: 3"])
    assert (tmp_path / "s").read_text().startswith("# unit 1 ns\nhorizon 89\nset clk 0 0\nset a 0 1\n")


def test_x_in_the_dump_is_told_apart(compared) -> None:
    assert compared(dump(["00", "0x", "10", "11", "00"])) == (0, ["x in the dump, and not here: q[1:0] from 19 on",
                                                                   "4 signals compared at 9 times; nets and buses that differ: 0"])
    # an a that is x makes y x where the parity is 1
    status, lines = compared(dump(begin="x%"))
    assert status == 1 and lines[0] == "19: y is x here, and 1 in the dump; chip.v:10; what it is made of does not differ; why y 19"


def test_a_flip_flop_took_what_it_has_before_what_follows_from_it(write, program, capsys, monkeypatch) -> None:
    # in the dump q takes d, which is its negation while a is 1; here it takes the negation of d, and so stays 0. At 9 both are right
    monkeypatch.setenv("BACKSIM", program)
    netlist = write("n", "INPUT(clk)\nINPUT(a)\nOUTPUT(q)\nq = DFF(e)\ne = NOT(d)\nd = XOR(q, a)\n")
    timing = write("t", "version 2\nclock clk 10 20\ndefault 1\nclocked q clk\ninit q 0\n")
    path = write("d.vcd", "$timescale 1 ns $end\n$scope module test $end\n$var wire 1 ! clk $end\n$var wire 1 % a $end\n$var reg 1 & q $end\n"
                 "$var wire 1 ( d $end\n$upscope $end\n$enddefinitions $end\n#0\n0!\n1%\n0&\n1(\n#10\n1!\n1&\n0(\n#20\n0!\n#29\n")
    assert main(["compare", str(netlist), str(timing), str(path), "test"]) == 1
    assert capsys.readouterr().out.splitlines()[:2] == ["19: q is 0 here, and 1 in the dump; what it is made of does not differ; why q 19",
                                                        "19: d is 1 here, and 0 in the dump; why d 19"]


def test_every_time(compared) -> None:
    # gates take a unit each, which the dump does not have
    status, lines = compared(dump(), "--every-time", "--only", "q", "p")
    assert (status, lines) == (1, ["0: p is x here, and 0 in the dump; chip.v:9; what it is made of does not differ; why p 0", "3 signals compared at 90 times; nets and buses that differ: 1"])


def test_an_output_that_is_a_constant_is_left_out_of_every_time(write, program, capsys, monkeypatch) -> None:
    # the BUFF of vdd shows 1 from 1 on, and that of gnd 0; what has another value in the dump differs from 0 on, where the BUFF is x
    monkeypatch.setenv("BACKSIM", program)
    netlist = write("n", "INPUT(a)\nINPUT(vdd)\nINPUT(gnd)\nOUTPUT(y)\nOUTPUT(one)\nOUTPUT(zero)\ny = NOT(a)\none = BUFF(vdd)\nzero = BUFF(gnd)\n")
    header = ("$timescale 1 ns $end\n$scope module test $end\n$var wire 1 ! a $end\n$var wire 1 & y $end\n$var wire 1 ( one $end\n"
              "$var wire 1 ) zero $end\n$upscope $end\n$enddefinitions $end\n")
    words = ["compare", str(netlist), str(write("t", "default 1\n")), str(write("d.vcd", header + "#0\n0!\nx&\n1(\n0)\n#1\n1&\n#9\n")), "test"]
    assert main([*words, "--every-time"]) == 0
    assert capsys.readouterr().out == "1 signals compared at 10 times; nets and buses that differ: 0\n"
    words[3] = str(write("d.vcd", header + "#0\n0!\nx&\n0(\n0)\n#1\n1&\n#9\n"))
    assert main([*words, "--every-time"]) == 1
    assert capsys.readouterr().out.startswith("0: one is x here, and 0 in the dump; ")


def test_a_window(compared, tmp_path) -> None:
    words = ["00", "01", "10", "10", "00"]
    # the window begins at 25; the flip-flops are those of the dump directly before 50, so 49 and 59 are compared, of which 59 differs
    status, lines = compared(dump(words, "01110"), "--from", "25ns", "--to", 65, "--stimulus", tmp_path / "s", "--window", tmp_path / "w")
    assert status == 1 and lines[0] == "34, 59 in the dump: q[1:0] is 11 here, and 10 in the dump; chip.v:7; what it is made of does not differ; why q[0] 34"
    assert (tmp_path / "w").read_text().startswith("# unit 1 ns\nversion 2\nclock clk 25 20\n")


def test_a_dump_that_begins_late(write, program, tools) -> None:
    # q is 1 from the beginning on here, and so is m; what was dumped from 40 on has q 0 up to the edge at 85, the first after a is 1
    netlist, timing = write("n", "INPUT(a)\nOUTPUT(q)\nm = OR(q, a)\nq = DFF(m)\n"), write("t", "clock 5 20\ninit q 1\n")
    late = write("d", "$timescale 1 ns $end\n$scope module top $end\n$var wire 1 ! a $end\n$var wire 1 % q $end\n$var wire 1 & m $end\n$upscope $end\n"
                 "$enddefinitions $end\n#40\n$dumpvars\n0!\n0%\n0&\n$end\n#70\n1!\n#71\n1&\n#86\n1%\n#99\n")
    run = tools("compare", netlist, timing, late, "top", "--program", program)
    assert run.returncode == 1 and run.stderr.decode() == \
        f"{late}: nothing is dumped before 40, and flip-flops begin at 0 here: --from 40 takes their values from the dump\n"
    run = tools("compare", netlist, timing, late, "top", "--program", program, "--from", 40)
    assert run.returncode == 0 and b"nothing is dumped" not in run.stderr
    early = write("e", "$timescale 1 ns $end\n$scope module top $end\n$var wire 1 ! a $end\n$var wire 1 % q $end\n$upscope $end\n"
                  "$enddefinitions $end\n#0\n0!\n0%\n#40\n")
    run = tools("compare", netlist, timing, early, "top", "--program", program)
    assert (run.returncode, run.stderr) == (1, b"")


def test_a_unit_finer_than_the_tick(write, program, tools) -> None:
    """A tick of 1 ns is 100 units of 10 ps; gates take 20 ps, so all has settled before each edge, and in the window too."""
    timing = write("t", TIMING.replace("unit 1 ns", "unit 10 ps").replace("clock clk 10 20", "clock clk 1000 2000").replace("default 1", "default 2"))
    text = dump(["00", "01", "10", "10", "00"], "01110")
    done = tools("compare", write("n", NETLIST), timing, write("d.vcd", text), "test", "--program", program)
    # the third edge is at 5000, and its value is looked at before clk falls at 6000
    assert done.stdout.decode().startswith("5999: q[1:0] is 11 here, and 10 in the dump; chip.v:7;"), done
    assert done.stdout.decode().endswith("4 signals compared at 9 times; nets and buses that differ: 3\n")
    done = tools("compare", write("n", NETLIST), timing, write("d.vcd", text), "test", "--from", "24.99ns", "--to", "65.01ns", "--program", program)
    assert done.stdout.decode().startswith("3500, 5999 in the dump: q[1:0] is 11 here"), done


def test_what_a_window_can_not_know_is_told_apart(write, program, tools) -> None:
    """h is not dumped, so y is x in a window; of key, declared [0:1], the dump has bit 1 wrong. The flip-flops are those before the edge at
    50, so 59, 69 and 75 are compared."""
    netlist = "INPUT(clk)\nINPUT(a)\nh = DFF(h)\nq = DFF(a)\ny = XOR(h, q)\nkey[0] = BUFF(a)\nkey[1] = NOT(a)\n"
    text = ("$timescale 1 ns $end\n$scope module test $end\n$var wire 1 ! clk $end\n$var wire 1 % a $end\n$var reg 1 & q $end\n$var wire 1 ) y $end\n"
            "$var wire 2 + key [0:1] $end\n$upscope $end\n$enddefinitions $end\n#0\n0!\n1%\nx&\nx)\nb11 +\n#10\n1!\n#11\n1&\n1)\n")
    text += "".join(f"#{20 * number}\n0!\n#{20 * number + 10}\n1!\n" for number in range(1, 4)) + "#89\n"
    timing = "# unit 1 ns\nversion 2\nclock clk 10 20\ndefault 1\nclocked h clk\nclocked q clk\n"
    words = [write("n", netlist), write("t", timing), write("d.vcd", text), "test", "--from", "25", "--to", "75", "--program", program]
    done = tools("compare", *words)
    assert (done.returncode, done.stdout.decode().splitlines()) == (1, [
        "34, 59 in the dump: key[0:1] is 10 here, and 11 in the dump; what it is made of does not differ; why key[1] 34",
        "x here, which may come of the flip-flops that are not dumped: y from 34 on", "4 signals compared at 3 times; nets and buses that differ: 1"])
    assert "1 flip-flops are not dumped, and begin with x: h\n" in done.stderr.decode()


def test_inputs_that_change_at_an_edge_are_said(write, program, tools) -> None:
    """a falls at 50, the third rise of clk; that clk itself falls at 20, 40 and so on is no matter."""
    text = dump().replace("#50\n1!\n", "#50\n1!\n0%\n")
    done = tools("compare", write("n", NETLIST), write("t", TIMING), write("d.vcd", text), "test", "--program", program)
    assert done.returncode == 0
    assert done.stderr.decode() == ("inputs change at edges of clocks, and Verilog leaves open which of the two comes first, so values may differ: a at 50, "
                                    "of clk\n")


@pytest.mark.parametrize("words, cause", [(("--only", "none"), "no signal, bus or pattern is none"), (("--unit", "2ns"), "its unit of time is 2 ns, and that of the timing file is 1 ns"),
                                          (("--ticks", 3), "its unit of time is 3 ns"), (("--from", 88), "never is the longest path's time")])
def test_bad_words(words: tuple, cause: str, compared) -> None:
    status, lines = compared(dump(), *words)
    assert status == 2 and len(lines) == 1 and cause in lines[0]


def test_a_path_that_is_too_long_is_found_by_settled(write, program, tools, tmp_path) -> None:
    """m takes 30 from q[0] to q[1], and shows it 30 + 1 after an edge; the next comes after 20."""
    timing, stimulus = write("t", TIMING + "delay m 30\n"), tmp_path / "s"
    done = tools("compare", write("n", NETLIST), timing, write("d.vcd", dump()), "test", "--stimulus", stimulus, "--program", program)
    assert done.returncode == 2 and b"never is the longest path's time, 31, between two events" in done.stderr and b"settled" in done.stderr
    done = tools("settled", write("n", NETLIST), timing, stimulus)
    assert (done.returncode, done.stdout.decode().splitlines()[-2]) == (1, "clock clk to clock clk: path 31, time 20, TOO LATE at q[1]")


def test_a_command_of_its_own(write, program, tools) -> None:
    files = write("n", NETLIST), write("t", TIMING), write("d.vcd", dump(["00", "01", "00", "01", "00"], "01010"))
    done: subprocess.CompletedProcess[bytes] = tools("compare", *files, "test", "--program", program)
    assert done.returncode == 1 and b"why q[1] 39" in done.stdout and done.stderr == b""
