"""The command settled. The expected paths and times are worked out by hand."""
from __future__ import annotations

import pytest
from backsim.main import main

NETLIST = """INPUT(a)
OUTPUT(q)
n = NOT(a)
m = AND(n, r)
q = DFF(m)
r = DFF(q)
"""
TIMING = "version 2\nclock 10 20\nclock slow 15 40\nclocked r slow\ndefault 2\ndelay q 3\npin m 1 4\n"
STIMULUS = "horizon 100\nset a 0 0\nset a 21 1\nset a 43 0\n"


def settled(write, capsys, netlist: str = NETLIST, timing: str = TIMING, stimulus: str = STIMULUS) -> tuple[int, str, str]:
    status = main(["settled", str(write("netlist", netlist)), str(write("timing", timing)), str(write("stimulus", stimulus))])
    said = capsys.readouterr()
    return status, said.out, said.err


def test_paths_and_times(write, capsys) -> None:
    """Edges are at 10, 30, 50, 70, 90, and of the slow clock at 15, 55, 95. The inputs change at 21 and 43, and reach m after 2 + 2. q is
    shown 3 after its edge and reaches r's pin at once: from 50 to 55 there is the least time. r is shown 2 after its edge, and m 4
    after that: from 15 to 30."""
    assert settled(write, capsys) == (0, "inputs to clock: path 4, time 7\n"
                                         "clock to clock slow: path 3, time 5\n"
                                         "clock slow to clock: path 6, time 15\n"
                                         "longest path 6\n", "")


def test_a_path_that_is_too_long(write, capsys) -> None:
    status, out, _ = settled(write, capsys, timing=TIMING.replace("delay q 3", "delay q 6"))
    assert (status, out.splitlines()[1]) == (1, "clock to clock slow: path 6, time 5, TOO LATE at r")


SHIFTED = "version 2\nclock clk 10 20\nclock clk+3 13 20\nclocked q clk\nclocked r clk+3\ndefault 2\ndelay q 4\n"


def test_a_clock_that_from_sdf_shifted_is_the_one_that_it_comes_of(write, capsys) -> None:
    """q shows an edge of clk 4 after it, and r takes it 3 after the next: the path is 4 - 3. r shows the edge 3 + 2 after it, and m 2 later.
    Without names it is the same."""
    expected = "inputs to clock clk: path 4, time 7\nclock clk to clock clk: path 7, time 20\nlongest path 7\n"
    assert settled(write, capsys, timing=SHIFTED) == (0, expected, "")
    unnamed = SHIFTED.replace("clock clk 10", "clock 10").replace("clocked q clk\n", "").replace("clk+3", "clock+3")
    assert settled(write, capsys, timing=unnamed) == (0, expected.replace(" clk", ""), "")


def test_a_flip_flop_that_takes_what_the_same_edge_changes(write, capsys) -> None:
    """q shows an edge at the very time at which r takes its pin, so r takes what q has from this edge on. a changes at 31, and p takes it 3
    after the edge at 30."""
    status, out, _ = settled(write, capsys, timing=SHIFTED.replace("delay q 4", "delay q 3"))
    assert (status, out.splitlines()[1]) == (1, "clock clk to clock clk: path 7, time 20, TOO EARLY: the shortest path is 0")
    status, out, _ = settled(write, capsys, "INPUT(a)\np = DFF(a)\n", "version 2\nclock c 10 20\nclock c+3 13 20\nclocked p c+3\n",
                             "horizon 100\nset a 0 0\nset a 31 1\n")
    assert (status, out.splitlines()[0]) == (1, "inputs to clock c: path -3, time 19, TOO EARLY: the shortest path is -3")


def test_a_clock_with_such_a_name_and_other_edges_is_its_own(write, capsys) -> None:
    """From 10, where q has an edge, to 14."""
    status, out, _ = settled(write, capsys, timing=SHIFTED.replace("clk+3 13", "clk+3 14"))
    assert (status, out.splitlines()[1]) == (0, "clock clk to clock clk+3: path 4, time 4")


def test_an_input_that_changes_at_an_edge(write, capsys) -> None:
    status, out, _ = settled(write, capsys, stimulus="horizon 100\nset a 0 0\nset a 30 1\n")
    assert (status, out.splitlines()[0]) == (1, "inputs to clock: path 4, time 0, TOO LATE: a at the edge at 30")


def test_an_input_is_compared_with_the_clocks_that_it_leads_to(write, capsys) -> None:
    """a changes at an edge of d, which does not see it: from 21 to 30 are 9. b changes at an edge of c: from 40 to 41 is 1. e leads to
    both, and changes with a at 61, 9 before 70 and at an edge of d."""
    netlist = "INPUT(a)\nINPUT(b)\nINPUT(e)\nm = AND(a, e)\np = DFF(m)\nq = DFF(b)\n"
    timing = "version 2\nclock c 10 20\nclock d 21 20\nclocked p c\nclocked q d\n"
    stimulus = "horizon 100\nset a 0 0\nset a 21 1\nset a 61 0\nset b 0 1\nset b 40 0\nset b 50 1\nset e 0 1\nset e 61 0\n"
    status, out, _ = settled(write, capsys, netlist, timing, stimulus)
    assert (status, out.splitlines()[:2]) == (0, ["inputs to clock c: path 1, time 9", "inputs to clock d: path 0, time 1"])
    status, out, _ = settled(write, capsys, netlist.replace("DFF(b)", "DFF(n)\nn = NAND(b, e)"), timing, stimulus + "set b 61 0\n")
    assert (status, out.splitlines()[:2]) == (1, ["inputs to clock c: path 1, time 9",
                                                  "inputs to clock d: path 1, time 0, TOO LATE: b and 1 more at the edge at 61"])


def test_a_setting_that_repeats_a_value_is_no_change(write, capsys) -> None:
    """a is 1 from 21 on, so at the edge at 30 it does not change."""
    assert settled(write, capsys, stimulus=STIMULUS + "set a 30 1\n") == settled(write, capsys)


@pytest.mark.parametrize("netlist, told", [
    ("INPUT(a)\nq = DFF(a)\n", "no clock: q, which keep"), ("INPUT(a)\nq = DFF(a)\nr = DFF(q)\nt = DFF(r)\n", "no clock: q and 2 more flip-flops, which keep")])
def test_flip_flops_without_a_clock_are_told(netlist: str, told: str, write, capsys) -> None:
    assert settled(write, capsys, netlist, "", "horizon 100\nset a 5 0\n") == (0, f"{told} what they begin with\nlongest path 0\n", "")


def test_a_stimulus_that_sets_nothing_is_told(write, capsys) -> None:
    status, out, _ = settled(write, capsys, stimulus="horizon 100\n")
    assert status == 0
    assert out.splitlines()[0] == "inputs: none that is read is set after time 0, so no time was compared with their paths"


def test_an_empty_stimulus_is_refused(write, capsys) -> None:
    status, out, err = settled(write, capsys, stimulus="")
    assert (status, out) == (2, "")
    assert err.endswith("/stimulus: the first line that isn't blank must be `horizon H`: the file has no such line\n")


def test_a_blif_file_is_no_timing_file(write, capsys) -> None:
    status, out, err = settled(write, capsys, timing=".model counter\n.inputs a\n.end\n")
    assert (status, out) == (2, "")
    assert "/timing:1: the line has none of the forms of a timing file" in err and err.count("\n") == 1


def test_a_timing_file_of_another_netlist_is_refused(write, capsys) -> None:
    status, out, err = settled(write, capsys, timing=TIMING + "delay other 3\n")
    assert (status, out) == (2, "") and "/timing:8: the netlist has no signal of this name: other" in err


def test_a_netlist_without_inputs(write, capsys) -> None:
    netlist = "OUTPUT(y)\ny = NOT(y2)\ny2 = DFF(y)\n"
    assert settled(write, capsys, netlist, "clock 5 10\ndefault 1\n", "horizon 50\n") == (
        0, "inputs: none that is read is set after time 0, so no time was compared with their paths\n"
           "clock to clock: path 2, time 10\nlongest path 2\n", "")
    assert settled(write, capsys, "", "", "horizon 5\n") == (0, "longest path 0\n", "")


def test_gates_that_make_a_cycle(write, capsys) -> None:
    status, out, err = settled(write, capsys, "INPUT(a)\nb = AND(a, c)\nc = NOT(b)\n", "", "horizon 5\n")
    assert (status, out) == (2, "")
    assert err.count("\n") == 1 and "make a cycle" in err


def test_a_chain_of_many_gates(write, capsys) -> None:
    gates = "".join(f"n{place + 1} = NOT(n{place})\n" for place in range(20_000))
    assert settled(write, capsys, "INPUT(n0)\n" + gates, "", "horizon 5\n") == (0, "longest path 20000\n", "")
