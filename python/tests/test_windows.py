"""Windows of long dumps, dumps that are cut, FST, and units of time."""
from __future__ import annotations

import os
import subprocess
import tracemalloc
from itertools import product

import pytest
from backsim.convert.dump import Span, read_dump
from backsim.errors import FormatError, UsageError
from backsim.formats.circuit import read_files
from backsim.formats.stimulus import read_stimulus
from backsim.formats.timing import Clock, read_timing
from backsim.formats.units import Unit, unit_in, unit_of, units_of
from backsim.formats.vcd import Selection, Vcd, read_vcd
from backsim.main import main
from backsim.session.session import Session
from backsim.values import At
from verilog_tools import need

HEADER = ("$timescale 10 ps $end\n$scope module test $end\n$var wire 1 ! clk $end\n$var wire 1 % a $end\n$var wire 4 & d [3:0] $end\n"
          "$var reg 1 ( q $end\n$var reg 1 ) r $end\n$upscope $end\n$enddefinitions $end\n")
NETLIST = "INPUT(clk)\nINPUT(a)\nINPUT(d[2])\nOUTPUT(y)\ny = AND(q, d[2])\nq = DFF(a)\nr$1 = DFF(a)\nr = NOT(r$1)\n"
TIMING = "# unit 1 ns\nversion 2\nclock clk 5 10\ndefault 1\nclocked q clk\nclocked r$1 clk\ninit q 1\n"


def counted(periods: int) -> str:
    """A clock that rises at 5, 15 and so on, of 10 ns; `a` has bit 0 of the number of the period from 0 ns on, and `q` and `r`, from 6 on,
    that of the edge; `d` has the number modulo 16."""
    body = ["#0\n0!\n0%\nb0 &\nx(\nx)\n"]
    for number in range(periods):
        begin = 1000 * number
        body.append(f"#{begin}\n0!\n{number & 1}%\nb{number % 16:b} &\n#{begin + 500}\n1!\n#{begin + 600}\n{number & 1}(\n{1 - (number & 1)})\n")
    return HEADER + "".join(body) + f"#{1000 * periods}\n"


def told(capsys, *words: object) -> tuple[str, str]:
    status = main(list(map(str, words)))
    said = capsys.readouterr()
    assert status == 0, said.err
    return said.out, said.err


def test_a_window_has_its_inputs_clocks_and_flip_flops(capsys, write, tmp_path) -> None:
    files = write("n", NETLIST), write("d.vcd", counted(100)), write("t", TIMING)
    words = ["from-vcd", files[0], files[1], "test", "--unit", "1ns", "--from", "503ns", "--to", 531, "--timing", files[2], "--window", tmp_path / "w"]
    out, err = told(capsys, *words)
    # period 50 begins at 500: d is 50 % 16 = 2, then 3, 4 and 5; a is 0, 1, 0, 1
    assert out == ("# unit 1 ns\nhorizon 28\nset clk 0 0\nset a 0 0\nset d[2] 0 0\nset clk 2 1\nset clk 7 0\nset a 7 1\nset clk 12 1\n"
                   "set clk 17 0\nset a 17 0\nset d[2] 17 1\nset clk 22 1\nset clk 27 0\nset a 27 1\n")
    # the longest path is from q through y, 2, so the first edge may be that of 505; the first pause ends at 515, where q has the 0 of 506,
    # and r, which is 1, tells that of the flip-flop behind it
    assert read_timing(tmp_path / "w").clocks == {"clk": Clock(12, 10)}
    assert read_timing(tmp_path / "w").initials == {"q": "0", "r$1": "0"}
    assert err == "the flip-flops are those of the dump from 515 on, 12 in the window; gates before it may be x\n"
    assert main(list(map(str, words[:10]))) == 2
    assert "the netlist has flip-flops, whose clocks and initial values a window shifts" in capsys.readouterr().err


@pytest.mark.parametrize("words, cause", [(("--from", "2us"), "the dump ends at 1 us, before 2 us"), (("--from", "9ns", "--to", 3), "the window ends at 3, before its beginning at 9ns"),
                                          (("--from", "3 parsecs"), "is no time"), (("--from", "1.5ns"), "is between two units of 1 ns")])
def test_windows_that_are_refused(words: tuple, cause: str, capsys, write, tmp_path) -> None:
    files = write("n", NETLIST), write("d.vcd", counted(100)), write("t", TIMING)
    assert main(list(map(str, ["from-vcd", files[0], files[1], "test", "--unit", "1ns", *words, "--timing", files[2], "--window", tmp_path / "w"]))) == 2
    said = capsys.readouterr().err
    assert cause in said and said.count("\n") == 1 and not (tmp_path / "w").exists()


@pytest.mark.parametrize("start, stop", [(0, 40_000), (1, 39_999), (17_500, 17_700), (20_400, 20_400), (39_000, None)])
def test_a_window_is_that_of_the_whole(start: int, stop: int | None, write, monkeypatch) -> None:
    path = write("d.vcd", counted(40))
    whole = read_vcd(path)
    monkeypatch.setattr("backsim.formats.vcd.BLOCK", 300)
    part = read_vcd(path, lambda vcd: Selection(vcd.codes("test", ["a", "d[3]"]), start, stop))
    end = whole.last if stop is None else stop
    assert part.last == end - start
    for name, changes in part.bits("test", ["a", "d[3]"]).items():
        expected = whole.bits("test", [name])[name]
        assert [change for change in changes if change[0] > 0] == [(time - start, value) for time, value in expected if start < time <= end]
        assert changes[0] == (0, [value for time, value in expected if time <= start][-1])


@pytest.mark.parametrize("before, after", [(" &", "\t&"), ("%\nb", "% b"), ("%\n", "% \n"), (" &", "\n&"), ("&\n", "& \n"), ("\nb", "\n b")])
def test_what_is_before_a_window_may_have_other_blanks(before: str, after: str, write, monkeypatch) -> None:
    path = write("d.vcd", HEADER + counted(40)[len(HEADER):].replace(before, after))
    for block, number in product(range(200, 300, 9), range(20, 30)):
        monkeypatch.setattr("backsim.formats.vcd.BLOCK", block)
        # up to the rise of the clock `a` has bit 0 of the number of the period, and `d` the number modulo 16
        bits = read_vcd(path, lambda vcd, start=1000 * number + 400: Selection(None, start, start)).bits("test")
        assert "".join(bits[name][0][1] for name in ("clk", "a", "d[3]", "d[2]", "d[1]", "d[0]")) == f"0{number & 1}{number % 16:04b}"


def test_words_of_a_change_may_be_on_lines_of_their_own(write) -> None:
    path = write("d.vcd", HEADER + "#0 0! 1%\nb1010\n& x( $comment 1!\n0% $end\nx)\n#7 1!\r\nb1 &\r\n#9\n")
    bits = read_vcd(path).bits("test")
    assert (bits["clk"], bits["a"], bits["d[3]"], bits["d[0]"]) == (((0, "0"), (7, "1")), ((0, "1"),), ((0, "1"), (7, "0")), ((0, "0"), (7, "1")))


def test_memory_does_not_grow_with_the_dump(write) -> None:
    path = write("d.vcd", counted(40_000))
    assert os.path.getsize(path) > 2_000_000
    tracemalloc.start()
    read_dump(path, "test", Span(start=39_990_000), ["a"])
    grown = tracemalloc.get_traced_memory()[1]
    tracemalloc.stop()
    assert grown < 40_000_000  # a few blocks of a megabyte, and their lines


def test_a_dump_that_is_cut_ends_before_its_last_time(capsys, write) -> None:
    text = counted(20)
    path = write("d.vcd", text[:text.rindex("b11 &") + 2])
    netlist = write("n", "INPUT(a)\nINPUT(d[0])\n")
    out, err = told(capsys, "from-vcd", netlist, path, "test", "--ticks", 100)
    # period 19 begins at 190, of which a has its value and d has none yet
    assert out.startswith("# unit 1 ns\nhorizon 189\n") and out.endswith("set a 180 0\nset d[0] 180 0\n")
    assert err == f"{path}:{text[:text.rindex('b11 &')].count(chr(10)) + 1}: the dump ends in the middle: it is taken up to 189\n"


def test_fst_is_read_by_fst2vcd(capsys, write, tmp_path, monkeypatch) -> None:
    need("vcd2fst", "gtkwave")
    netlist, path, timing = write("n", NETLIST), write("d.vcd", counted(100)), write("t", TIMING)
    subprocess.run(["vcd2fst", path, tmp_path / "d.fst"], check=True, capture_output=True)
    words = ["test", "--unit", "1ns", "--from", 503, "--to", 531, "--timing", timing, "--window", tmp_path / "w"]
    assert told(capsys, "from-vcd", netlist, tmp_path / "d.fst", *words) == told(capsys, "from-vcd", netlist, path, *words)
    assert read_vcd(tmp_path / "d.fst").bits("test") == read_vcd(path).bits("test")
    cut = write("cut.fst", (tmp_path / "d.fst").read_bytes()[:400])
    assert main(["from-vcd", str(netlist), str(cut), "test"]) == 2
    said = capsys.readouterr().err
    assert said.startswith(f"{cut}: ") and said.count("\n") == 1
    monkeypatch.setenv("PATH", str(tmp_path))
    assert main(["from-vcd", str(netlist), str(tmp_path / "d.fst"), "test"]) == 2
    assert capsys.readouterr().err == (f"{tmp_path}/d.fst: this is an FST dump; fst2vcd, which makes VCD of it, is not there (Debian's package "
                                       "gtkwave)\n")


@pytest.mark.parametrize("text, unit", [("10ps", Unit(10, "ps")), (" 1 ns ", Unit(1, "ns")), ("1000 ps", Unit(1, "ns")), ("0ps", None), ("ps", None), ("1.5ns", None)])
def test_units(text: str, unit: Unit | None) -> None:
    assert unit_of(text) == unit


def test_times_in_units() -> None:
    assert [units_of(time, Unit(10, "ps")) for time in (7, "7", "1.5ns", "2 us")] == [7, 7, 150, 200_000]


@pytest.mark.parametrize("head, unit", [("# unit 10 ps\n", Unit(10, "ps")), ("\n# a file\n  #unit 1ns\r\nhorizon 3\n", Unit(1, "ns")), ("horizon 3\n# unit 1 ns\n", None),
                                        ("# units 1 ns\n", None), ("", None)])
def test_the_unit_of_a_file(head: str, unit: Unit | None) -> None:
    assert unit_in(head.encode()) == unit


def test_files_of_different_units_are_not_joined(write) -> None:
    netlist, timing = write("n", NETLIST), write("t", TIMING)
    for text in ("# unit 1 ns\nhorizon 5\n", "horizon 5\n", "# unit 1000 ps\nhorizon 5\n"):
        assert read_files(netlist, timing, write("s", text))[2].horizon == 5
    with pytest.raises(FormatError, match="s: its unit of time is 10 ps, and that of the timing file is 1 ns"):
        read_files(netlist, timing, write("s", "# unit 10 ps\nhorizon 5\n"))
    assert read_stimulus(write("s", "# unit 10 ps\nhorizon 5\n")).unit == Unit(10, "ps")
    assert isinstance(read_vcd(write("d", counted(2))), Vcd)


def test_times_are_said_in_seconds(write, program, tools, monkeypatch, tmp_path, capsys) -> None:
    """By the unit that the files state: in Python, and on the command line."""
    monkeypatch.setenv("BACKSIM", program)
    files = [write("n", "INPUT(a)\ny[0] = NOT(a)\ny[1] = BUFF(a)\n"), write("t", "# unit 10 ps\ndefault 1\n"), write("s", "# unit 10 ps\nhorizon 500\nset a 0 0\nset a 100 1\n")]
    with Session(*files) as session:
        assert session.at("y[0]", "1ns") == session.at("y[0]", 100) == At("y[0]", 100, "1")
        assert session.wave("y[0]", "0.5ns", "2 ns").changes == ((50, "1"), (101, "0"))
        assert session.first("y[0]", 0, 0, "5ns").time == 101
        with session.batch() as batch:
            asked = batch.at("y[1:0]", "1010ps")
        assert asked.result().value == "10"
        with pytest.raises(UsageError, match="is between two units of 10 ps"):
            session.at("y[0]", "1ps")
        with pytest.raises(UsageError, match="3s is 300,000,000,000 units of 10 ps, after the greatest time, 4,294,967,294"):
            session.at("y[0]", "3s")
    assert main(["why", *map(str, files), "y", "1.01ns"]) == 0
    assert "y[1:0]" in capsys.readouterr().out
    # 3 s are 3 * 10**11 units of 10 ps, more than any line can ask for; a window may end one unit after the horizon, at 5.01 ns
    beyond = "3s is 300,000,000,000 units of 10 ps, after the horizon, 500\n"
    for words in (["why", *files, "y", "3s"], ["draw", *files, "y", "--to", "3s", "-o", tmp_path / "o.svg"]):
        assert main(list(map(str, words))) == 2 and capsys.readouterr().err == beyond
    done = tools("ask", *files, input=b"y 3s\ny 5.01ns\nfirst y 3 0 5.01ns\n", env={"BACKSIM": program})
    assert done.stderr.decode() == f"standard input:1: {beyond}standard input:2: 5.01ns is 501 units of 10 ps, after the horizon, 500\n"
    assert done.stdout == b"y[1:0] is never 11 (3) from 0 on and before 501\n"
    with pytest.raises(FormatError, match="its unit of time is 1 ns"):
        Session(files[0], files[1], write("other", "# unit 1 ns\nhorizon 5\n"))
    with pytest.raises(UsageError, match="is not known"), Session(files[0], write("bare", ""), write("also", "horizon 5\n")) as session:
        session.at("y[0]", "1ns")


def test_times_of_commands_are_said_in_seconds(write, program, tools, tmp_path, capsys) -> None:
    """Patterns, looks, faults and pages by the unit of the timing file, or of --unit."""
    netlist, timing, patterns = write("n", "INPUT(a)\nOUTPUT(y)\ny = NOT(a)\n"), write("t", "# unit 10 ps\ndefault 1\n"), write("p", "0\n1\n")
    words = ["from-patterns", netlist, patterns, "--period", "1ns", "--first", "0.5ns", "-o", tmp_path / "s"]
    assert main([*map(str, words), "--unit", "10ps"]) == 0
    assert (tmp_path / "s").read_text().startswith("# unit 10 ps\nhorizon 249\nset a 50 0\nset a 150 1\n")
    assert main([*map(str, words), "--unit", "1ns"]) == 2 and main(list(map(str, words))) == 2
    said = capsys.readouterr().err
    assert "--first: 0.5ns is between two units of 1 ns" in said and "--period: what 1ns is in units is not known" in said
    both = [tools("faults", netlist, timing, patterns, "--period", period, "--times", *times, env={"BACKSIM": program})
            for period, times in (("1ns", ["0.5ns:1.5ns:1000ps"]), (100, ["50", "150"]))]
    assert both[0].stdout == both[1].stdout and both[0].returncode == both[1].returncode == 0
    for option, cause in ((["--period", "0ns"], "--period 0ns is 0 units"), (["--period", "1ns", "--times", "3ns"], "--times 3ns: the time 300 is after the horizon, 199"),
                          (["--period", "1ns", "--times", "1ps"], "--times: 1ps is between two units of 10 ps")):
        done = tools("faults", netlist, timing, patterns, *option, env={"BACKSIM": program})
        assert done.returncode == 2 and cause in done.stderr.decode(), done.stderr
    done = tools("view", netlist, timing, tmp_path / "s", "--from", "1ns", "--to", "3ns", "--no-browser", env={"BACKSIM": program})
    assert done.returncode == 2 and b"3ns is 300 units of 10 ps, after the horizon, 249" in done.stderr
