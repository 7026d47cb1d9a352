"""Byte order marks, and messages with control characters."""
from __future__ import annotations

import codecs
import json

import pytest
from backsim import Refused, Session
from backsim.convert.blif import read_latches
from backsim.convert.patterns import read_patterns
from backsim.convert.sdf import read_sdf
from backsim.convert.yosys import read_module
from backsim.errors import FormatError, UsageError
from backsim.formats.netlist import parse_netlist, read_netlist
from backsim.formats.stimulus import read_stimulus
from backsim.formats.timing import read_timing
from backsim.formats.vcd import read_vcd
from backsim.main import main
from test_bad_files import GOOD, MODULE

MARK = codecs.BOM_UTF8


def test_files_of_other_programs_may_begin_with_a_mark(write) -> None:
    files = {kind: write(kind, MARK + GOOD[kind]) for kind in ("vcd", "sdf", "blif", "patterns")}
    assert read_vcd(files["vcd"]).bits("top")["1"] == ((0, "0"), (5, "1"))
    assert len(read_sdf(files["sdf"]).paths) == 2
    assert read_latches(files["blif"]) == {}
    assert read_patterns(files["patterns"], parse_netlist(GOOD["netlist"], "n")).words == ("00101", "10111")
    assert read_module(write("json", MARK + json.dumps(MODULE).encode())).name == "top"


@pytest.mark.parametrize("read, text", [(read_netlist, "INPUT(a)\n"), (read_timing, "default 1\n"), (read_stimulus, "horizon 1\n")])
@pytest.mark.parametrize("coding", ["utf-8-sig", "utf-16"])
def test_files_of_the_simulator_may_not(read, text: str, coding: str, write) -> None:
    path = write("f", text.encode(coding))
    with pytest.raises(FormatError, match="f:1: the file begins with a byte order mark, which the program refuses"):
        read(path)


def test_the_program_refuses_a_mark_in_the_first_line(write, tools, program) -> None:
    files = write("n", MARK + b"INPUT(a)\n"), write("t", "default 1\n"), write("s", "horizon 1\n"), write("q", "at a 0\n")
    done = tools("run", *files, "--program", program)
    assert done.returncode == 2 and done.stdout == b"refused netlist line 1 cause 1\n"


def test_a_session_says_that_it_is_a_mark(write, program) -> None:
    files = write("n", "INPUT(a)\n"), write("t", MARK + b"default 1\n"), write("s", "horizon 1\n")
    with pytest.raises(Refused) as refused:
        Session(*files, program=program)
    assert refused.value.number == 1 and str(refused.value).startswith(f"{files[1]}:1: the file begins with a byte order mark")


def test_control_characters_are_written_as_escapes(write, capsys) -> None:
    netlist = str(write("n", "INPUT(a)\n"))
    dump = str(write("d", "$timescale 1 ns $end\n$scope module top $end\n$var wire 1 ! a $end\n$upscope $end\n$enddefinitions $end\n#0\n0!\n\x1b[31m!\x07\n"))
    assert main(["from-vcd", netlist, dump, "top"]) == 2
    assert capsys.readouterr().err == f"{dump}:8: expected a time or a value change, and found `\\x1b[31m!\\x07`\n"
    assert main(["names", netlist, "--list", "b\x1b]0;title\x07\nc"]) == 2
    assert capsys.readouterr().err == f"{netlist}: no signal, bus or pattern is b\\x1b]0;title\\x07\\nc\n"
    assert main(["no\x1b[2J"]) == 2
    assert capsys.readouterr().err.startswith("backsim-tools: there is no command no\\x1b[2J;")
    assert str(UsageError("a\tb\u2028c")) == "a\\tb\\u2028c"
