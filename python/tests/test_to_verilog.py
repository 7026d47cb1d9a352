"""to-verilog, with values worked out by hand, by Icarus Verilog."""
from __future__ import annotations

import pytest
from backsim.convert.verilog import quoted
from backsim.main import main
from conftest import TOP
from verilog_tools import icarus, in_order

# names that Verilog would take for its own words, or that its strings would take apart
ODD = {"bench": 'INPUT(t)\nINPUT(last)\nINPUT(a%d)\nOUTPUT(line)\nline = AND(t, last)\na\\n"b = XOR(line, a%d)\n100% = NOT(a\\n"b)\n',
       "timing": "default 2\ndelay 100% 3\n", "stim": "horizon 20\nset t 0 1\nset last 3 1\nset last 9 0\nset a%d 0 0\nset a%d 5 1\nset a%d 7 z\n",
       "script": 'wave line 0 21\nwave a\\n"b 0 21\ngo\nat 100% 12\nfirst 100% 1 0 21\nfirst 100% z 0 21\nwave a%d 2 9\n\nwave t 7 7\n'}
# line is 1 from 3 + 2 on and 0 from 9 + 2 on; a\n"b is its exclusive or with a%d, two later: 0 from 7, x from 9, as a%d is z from 7;
# 100% is the negation of that, three later
ODD_REPLIES = """wave line 0 21
0 x
5 1
11 0
end
wave a\\n"b 0 21
0 x
7 0
9 x
end
at 100% 12 x
first 100% 1 0 21 10
first 100% z 0 21 none
wave a%d 2 9
2 0
5 1
7 z
end
wave t 7 7
end
"""


@pytest.fixture
def odd(write) -> list:
    return [write(f"odd.{kind}", text) for kind, text in ODD.items()]


def test_odd_names(odd, tmp_path) -> None:
    assert main(["to-verilog", *map(str, odd), "-o", str(tmp_path / "odd.v")]) == 0
    assert in_order(icarus(tmp_path, tmp_path / "odd.v", top="circuit")) == ODD_REPLIES


def test_one_line_alone(odd, tmp_path) -> None:
    assert main(["to-verilog", *map(str, odd), "-o", str(tmp_path / "odd.v")]) == 0
    assert icarus(tmp_path, tmp_path / "odd.v", top="circuit", words=("+line=5",)) == "5 first 100% 1 0 21 10\n"


def test_a_dump_with_an_odd_name(odd, tmp_path) -> None:
    file = tmp_path / 'a"%d\\n.vcd'
    assert main(["to-verilog", *map(str, odd[:3]), "--dump", str(file), "-o", str(tmp_path / "odd.v")]) == 0
    icarus(tmp_path, tmp_path / "odd.v", top="circuit")
    assert file.read_text().startswith("$date")


def test_the_examples_of_the_repository(tmp_path, example) -> None:
    # the replies of s27 were worked out by hand
    assert main(["to-verilog", *example("s27"), f"{TOP}/examples/s27/s27.script", "-o", str(tmp_path / "s27.v")]) == 0
    assert in_order(icarus(tmp_path, tmp_path / "s27.v", top="circuit")) == (TOP / "examples/s27/s27.replies").read_text()


def test_first_is_no_wave(tmp_path, example, write) -> None:
    script = write("script", "first G17 1 0 31\nfirst G17 z 0 31\n")
    assert main(["to-verilog", *example("s27"), str(script), "-o", str(tmp_path / "s27.v")]) == 0
    # by the replies of s27: G17 is x from 0 on, 1 from 5 on and 0 from 16 on
    assert in_order(icarus(tmp_path, tmp_path / "s27.v", top="circuit")) == "first G17 1 0 31 5\nfirst G17 z 0 31 none\n"


def test_a_netlist_without_inputs(tmp_path, write) -> None:
    files = [write("n", "OUTPUT(q)\nq = DFF(p)\np = NOT(q)\n"), write("t", "clock 2 3\ninit q 0\n"), write("s", "horizon 9\n"),
             write("script", "wave q 0 10\n")]
    assert main(["to-verilog", *map(str, files), "-o", str(tmp_path / "n.v")]) == 0
    # edges at 2, 5 and 8, each shown one later
    assert in_order(icarus(tmp_path, tmp_path / "n.v", top="circuit")) == "wave q 0 10\n0 0\n3 1\n6 0\n9 1\nend\n"


@pytest.mark.parametrize("unit, fits", [("10 ps", True), ("1 us", True), ("25 ps", False)])
def test_a_dump_has_the_unit_of_the_files(unit: str, fits: bool, tmp_path, write, capsys, program) -> None:
    """No time scale is 25 ps; the dump is of 1 ns then, and not that of the files."""
    files = [str(write("n", "OUTPUT(q)\nq = DFF(p)\np = NOT(q)\n")), str(write("t", f"# unit {unit}\nclock 2 3\ninit q 0\n"))]
    assert main(["to-verilog", *files, str(write("s", "horizon 9\n")), "--dump", str(tmp_path / "d.vcd"), "-o", str(tmp_path / "n.v")]) == 0
    icarus(tmp_path, tmp_path / "n.v", top="circuit")
    status = main(["compare", *files, str(tmp_path / "d.vcd"), "circuit", "--ticks", "10", "--every-time", "--program", program])
    said = capsys.readouterr()
    if fits:
        assert (status, said.out) == (0, "2 signals compared at 10 times; nets and buses that differ: 0\n")
    else:
        assert status == 2 and said.err.endswith("its unit of time is 1 ns, and that of the timing file is 25 ps\n")


@pytest.mark.parametrize("line, cause", [
    ("stats", "Verilog answers"), ("vcd file", "Verilog answers"), ("why 22 3", "Verilog answers"), ("stuck 1 0 22 0 5", "Verilog answers"),
    ("trim 3", "Verilog answers"), ("wave 22", "Verilog answers"), ("wave 99 0 3", "the netlist has no signal 99"),
    ("wave 22 0 12", "past the horizon, 10"), ("at 22 11", "past the horizon, 10")])
def test_what_verilog_does_not_answer_is_refused_before_anything_is_written(line: str, cause: str, write, example, tools) -> None:
    script = write("script", f"wave 22 0 5\ngo\n{line}\n")
    run = tools("to-verilog", *example("c17"), script)
    assert (run.returncode, run.stdout) == (2, b"")
    assert run.stderr.decode().startswith(f"{script}:3: ") and cause in run.stderr.decode() and run.stderr.count(b"\n") == 1


def test_neither_or_both_of_script_and_dump(example, tools) -> None:
    assert tools("to-verilog", *example("c17")).returncode == 2
    assert tools("to-verilog", *example("c17"), f"{TOP}/examples/c17/c17.script", "--dump", "x").returncode == 2


def test_quotes() -> None:
    assert quoted('a\\"%', is_format=True) == 'a\\\\\\"%%'
    assert quoted("100%") == "100%"
