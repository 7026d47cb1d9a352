"""The reader and the writer of dumps."""
from __future__ import annotations

import io
import shutil
import subprocess

import pytest
from backsim import FormatError
from backsim.formats.vcd import Variable, VcdWriter, code_of, read_vcd, value_at, write_vcd
from backsim.main import main

HEAD = """$date today $end
$version a simulator $end
$timescale 10 ps $end
$scope module test $end
$var wire 1 ! clock $end
$scope module part $end
$var reg 4 " count [3:0] $end
$var wire 1 # \\odd[2] $end
$var real 64 % level $end
$upscope $end
$upscope $end
$enddefinitions $end
"""
BODY = """#0
$dumpvars
0!
b10 "
x#
r1.5 %
$end
#5
1!
bx1 "
#7
0!
z#
"""


def test_a_dump_of_a_simulator(write) -> None:
    dump = read_vcd(write("dump", HEAD + BODY))
    assert (dump.ticks, dump.unit, dump.last) == (10, "ps", 7)
    assert dump.scopes == ["test", "test.part"]
    assert dump.signal("test", "clock") == ((0, "0"), (5, "1"), (7, "0"))
    # a value of fewer bits is continued to the left by 0, or by x where it begins with x
    assert dump.signal("test.part", "count") == ((0, "0010"), (5, "xxx1"))
    assert dump.signal("test", "part.count[1]") == ((0, "1"), (5, "x"))
    assert dump.signal("test.part", "odd[2]") == ((0, "x"), (7, "z"))
    bits = dump.bits("test")
    assert set(bits) == {"clock", "part.count[3]", "part.count[2]", "part.count[1]", "part.count[0]", "part.odd[2]"}
    assert bits["part.count[0]"] == ((0, "0"), (5, "1"))
    assert [value_at(bits["clock"], time) for time in (0, 4, 5, 6, 7, 9)] == ["0", "0", "1", "1", "0", "0"]


def test_a_wrong_scope_lists_the_scopes(write) -> None:
    dump = read_vcd(write("dump", HEAD + BODY))
    with pytest.raises(FormatError, match="no scope test.port; the scopes are: test, test.part"):
        dump.bits("test.port")
    with pytest.raises(FormatError, match="nothing is dumped as conut in the scope test.part; near it: count"):
        dump.signal("test.part", "conut")


def test_of_many_scopes_those_near_the_top_and_like_it_are_listed(write) -> None:
    inner = "".join(f"$scope module core{number} $end\n$scope module alu $end\n$upscope $end\n$upscope $end\n" for number in range(100))
    dump = read_vcd(write("dump", f"$timescale 1 ns $end\n$scope module top $end\n$var wire 1 ! a $end\n{inner}$upscope $end\n$enddefinitions $end\n#0\n0!\n"))
    with pytest.raises(FormatError) as refused:
        dump.bits("top.core57.allu")
    # a scope that is left out by one letter is the nearest
    said = str(refused.value)
    assert "there is no scope top.core57.allu; near it: top.core57.alu, " in said
    assert said.endswith("; the scopes are: top, " + ", ".join(f"top.core{number}" for number in range(9)) + " ...")


@pytest.mark.parametrize("value", "UHLW-")
def test_values_that_are_none_of_four_are_refused_where_they_are_asked(write, value: str) -> None:
    path = write("dump", HEAD + BODY + f"#8\n{value}!\n")
    dump = read_vcd(path)
    line = (HEAD + BODY).count("\n") + 2
    with pytest.raises(FormatError) as error:
        dump.signal("test", "clock")
    assert str(error.value) == f"{path}:{line}: test.clock has the value {value}, which is none of 0, 1, x and z"
    assert dump.signal("test.part", "count")[0] == (0, "0010")


@pytest.mark.parametrize("text, line, cause", [
    ("", None, "the header of a VCD file is cut or missing"),
    ("INPUT(a)\n", 1, "expected a declaration of a VCD header"),
    ("$timescale 1 ns $end\n$scope module top $end\n", 2, "the header of a VCD file is cut or missing"),
    ("$timescale 1 ns $end\n$scope module to", 2, "the file ends inside \\$scope"),
    (HEAD, 12, "cut after its header"),
    (HEAD + "#0\nb01", 14, "cut after its header"),
    (HEAD + "#0\nb01\n", 14, "a code was to follow"),
    (HEAD + "#0\n$comment 0!\n", 14, "ends inside"),
    (HEAD + "#0\n0?\n", 14, "no variable has the code"),
    (HEAD + "#0\n0!\nhello\n", 15, "no variable has the code|expected a time or a value"),
    (HEAD + "#5\n0!\n#3\n1!\n", 15, "comes after 5"),
    (HEAD + "#0\nb10101 \"\n", 14, "no value of 4 bits"),
    ("$var port 1 <0 a $end\n", 1, "extended dump"),
    ("$scope module a $end\n$dumpports a $end\n", 2, "extended dump"),
    (HEAD + "#0\npD 6 0 <0\n", 14, "extended dump"),
    ("$timescale 7 ns $end\n", 1, "time scale"),
    ("$upscope $end\n", 1, "without a scope"),
    ("$var wire 8 ! a [3:0] $end\n", 1, "8 bits"),
])
def test_dumps_that_are_refused(write, text: str, line: int | None, cause: str) -> None:
    with pytest.raises(FormatError, match=cause) as error:
        read_vcd(write("dump", text))
    assert error.value.line == line


def test_codes_are_all_different() -> None:
    codes = [code_of(place) for place in range(94 + 94 * 94 + 10)]
    assert len(set(codes)) == len(codes)
    assert codes[0] == "!" and codes[93] == "~" and codes[94] == "!!"


def test_what_is_written_is_read_back() -> None:
    """Any number of wires, vectors, scopes and another unit of time."""
    dumped = [(Variable(("top", "part"), "count", 8, 7, 0), ((0, "xxxxxxxx"), (3, "0101zx01"))),
              (Variable(("top",), "a"), ((0, "0"), (3, "1"), (10, "z"))),
              (Variable(("other",), "$end"), ((0, "x"),)),
              *((Variable(("top", "many"), f"w{place}"), ((place, "1"),)) for place in range(200))]
    stream = io.StringIO()
    write_vcd(stream, dumped, "100 fs", 250)
    text = stream.getvalue()
    assert text.startswith("$timescale 100 fs $end\n")
    assert "#3\n" in text and "b0101zx01 !\n" in text


def test_the_written_dump_by_the_reader(tmp_path) -> None:
    path = tmp_path / "dump"
    dumped = [(Variable(("top", "part"), "count", 2, 1, 0), ((0, "xx"), (3, "0z"))), (Variable(("top",), "a"), ((0, "0"), (9, "1")))]
    with open(path, "w") as stream:
        write_vcd(stream, dumped, "1 us", 20)
    dump = read_vcd(path)
    assert (dump.ticks, dump.unit, dump.last, dump.scopes) == (1, "us", 20, ["top", "top.part"])
    assert dump.signal("top", "a") == ((0, "0"), (9, "1"))
    assert dump.signal("top.part", "count") == ((0, "xx"), (3, "0z"))


def test_changes_come_in_order() -> None:
    writer = VcdWriter(io.StringIO(), [Variable(("top",), "a")])
    writer.change(3, 0, "1")
    with pytest.raises(ValueError):
        writer.change(2, 0, "0")
    with pytest.raises(ValueError):
        writer.change(4, 0, "01")
    with pytest.raises(ValueError):
        VcdWriter(io.StringIO(), [], "3 ns")


@pytest.mark.skipif(shutil.which("iverilog") is None, reason="iverilog is not there")
def test_a_dump_of_icarus(tmp_path) -> None:
    (tmp_path / "test.v").write_text("""`timescale 1ns/1ns
module test; reg [3:0] n = 4'd9; wire y; part p(n[0], y); wire \\$and\\a.v:1$2 ; assign \\$and\\a.v:1$2 = n[3];
initial begin $dumpfile("dump.vcd"); $dumpvars(0, test); #3 n = 4'b1x0z; #4 $finish; end endmodule
module part(input a, output b); assign b = ~a; endmodule
""")
    subprocess.run(["iverilog", "-o", "model", "test.v"], cwd=tmp_path, check=True)
    subprocess.run(["vvp", "-n", "model"], cwd=tmp_path, check=True, stdout=subprocess.DEVNULL)
    dump = read_vcd(tmp_path / "dump.vcd")
    assert dump.scopes == ["test", "test.p"]
    assert dump.signal("test", "n") == ((0, "1001"), (3, "1x0z"))
    assert dump.signal("test", "n[3]") == ((0, "1"),)
    assert dump.signal("test.p", "b") == ((0, "0"), (3, "x"))
    assert dump.signal("test", "$and\\a.v:1$2") == ((0, "1"),)


@pytest.mark.parametrize("version, written", [("Icarus Verilog", r"\a\\b"), ("a simulator", r"\a\b"), ("a simulator", r"a\b")])
def test_a_backslash_in_a_name_is_one(version: str, written: str, write) -> None:
    dump = read_vcd(write("dump", f"$version {version} $end\n$scope module top $end\n$var wire 1 ! {written} $end\n"
                                  "$upscope $end\n$enddefinitions $end\n#0\n1!\n"))
    assert dump.signal("top", "a\\b") == ((0, "1"),)


@pytest.mark.parametrize("version, written", [("Icarus Verilog", r"\\\foo"), ("a simulator", r"\\foo")])
def test_a_name_may_begin_with_a_backslash(version: str, written: str, write) -> None:
    dump = read_vcd(write("dump", f"$version {version} $end\n$scope module top $end\n$var wire 1 ! {written} $end\n"
                                  "$upscope $end\n$enddefinitions $end\n#0\n1!\n"))
    assert dump.signal("top", "\\foo") == ((0, "1"),)


@pytest.mark.parametrize("written, name", [(r"\$0\valid[0:0]", "$0\\valid[0:0]"), ("valid[0:0]", "valid[0]"), ("valid [0:0]", "valid[0]"),
                                           (r"\valid [0:0]", "valid[0]"), (r"\valid[3]", "valid[3]")])
def test_brackets_of_an_escaped_name_are_part_of_it(written: str, name: str, write) -> None:
    dump = read_vcd(write("dump", f"$scope module top $end\n$var wire 1 ! {written} $end\n$upscope $end\n$enddefinitions $end\n#0\n1!\n"))
    assert dump.bits("top", [name]) == {name: ((0, "1"),)}


@pytest.mark.parametrize("body, scope, cause", [
    ("#0\n0!\n#3\nU!\n", "top", "dump:8: top.a has the value U, which is none of 0, 1, x and z"),
    ("#0\nH!\n", "top", "dump:6: top.a has the value H, which is none of 0, 1, x and z"),
    ("#0\nL!\n", "top", "dump:6: top.a has the value L, which is none of 0, 1, x and z"),
    ("#0\n0!\n", "tap", "dump: there is no scope tap; the scopes are: top")])
def test_a_stimulus_is_made_of_four_values_alone(body: str, scope: str, cause: str, write, capsys) -> None:
    netlist = write("netlist", "INPUT(a)\nOUTPUT(a)\n")
    head = "$scope module top $end\n$var wire 1 ! a $end\n$upscope $end\n$enddefinitions $end\n"
    path = write("dump", head + body)
    assert main(["from-vcd", str(netlist), str(path), scope]) == 2
    said = capsys.readouterr()
    assert said.out == "" and said.err == f"{path.parent}/{cause}\n"
    path.write_text("$scope module top $end\n$var wire 1 ! a $end\n$upsc")
    assert main(["from-vcd", str(netlist), str(path), "top"]) == 2
    assert capsys.readouterr().err == f"{path}:3: the file ends inside $upsc\n"
