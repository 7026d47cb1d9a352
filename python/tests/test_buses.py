"""Buses that are named without their range, by a netlist."""
from __future__ import annotations

import pytest
from backsim.circuit.buses import full_name, nearest, signals_of, written_number
from backsim.errors import UsageError
from backsim.main import main

NAMES = ("a", "part.count[0]", "part.count[1]", "part.count[2]", "mem[1][3]", "mem[1][4]", "gap[0]", "gap[2]", "wide", "wide[1]", "wide[0]")
NETLIST = "".join(f"INPUT({name})\n" for name in NAMES)


@pytest.mark.parametrize("name, full", [("a", "a"), ("part.count", "part.count[2:0]"), ("mem[1]", "mem[1][4:3]"), ("mem", "mem"), ("none", "none"),
                                        ("part.count[0:2]", "part.count[0:2]"), ("wide", "wide"), ("part", "part"), ("part.count[1]", "part.count[1]")])
def test_the_range_of_a_bus(name: str, full: str) -> None:
    assert full_name(name, set(NAMES)) == full


@pytest.mark.parametrize("name, signals", [("part.count", ("part.count[2]", "part.count[1]", "part.count[0]")), ("mem[1][3:4]", ("mem[1][3]", "mem[1][4]")),
                                           ("a", ("a",)), ("none", ()), ("part.count[3:0]", ()), ("mem[1]", ("mem[1][4]", "mem[1][3]"))])
def test_the_signals_of_a_name(name: str, signals: tuple[str, ...]) -> None:
    assert signals_of(name, set(NAMES)) == signals


def test_a_bus_with_a_gap_is_told() -> None:
    with pytest.raises(UsageError, match=r"the bus gap\[2:0\] has no bit gap\[1\]"):
        full_name("gap", set(NAMES))


@pytest.mark.parametrize("name, like", [("part.coun", ("part.count[2:0]",)), ("part.count[7]", ("part.count[2]", "part.count[1]", "part.count[0]")),
                                        ("gaps", ("gap[0]",)), ("mem[1]", ("mem[1][4:3]",)), ("wid", ("wide",)), ("none", ())])
def test_a_bus_is_named_once_among_what_is_like_a_name(name: str, like: tuple[str, ...]) -> None:
    assert nearest(name, NAMES) == like


def test_names_lists_signals(write, capsys) -> None:
    netlist = str(write("n", NETLIST))
    assert main(["names", netlist, "--list", "part.count", "m*", "a"]) == 0
    assert capsys.readouterr().out.split() == ["part.count[2]", "part.count[1]", "part.count[0]", "mem[1][3]", "mem[1][4]", "a"]
    assert main(["names", netlist, "--list", "none"]) == 2
    assert capsys.readouterr().err == f"{netlist}: no signal, bus or pattern is none\n"


def test_draw_takes_a_bus_by_its_name(write, tmp_path, program, monkeypatch, capsys) -> None:
    pytest.importorskip("matplotlib", reason="matplotlib is missing (Debian's package python3-matplotlib)")
    monkeypatch.setenv("BACKSIM", program)
    files = [str(write("n", f"# bus mem[1][3:4]\n{NETLIST}")), str(write("t", "")), str(write("s", "horizon 5\nset part.count[1] 2 1\n"))]
    assert main(["draw", *files, "part.count", "m*", "-o", str(tmp_path / "p.svg")]) == 0
    assert "part.count[2:0]" in (tmp_path / "p.svg").read_text() and "mem[1][3:4]" in (tmp_path / "p.svg").read_text()
    assert main(["draw", *files, "gap", "-o", str(tmp_path / "q.svg")]) == 2
    assert capsys.readouterr().err == f"{files[0]}: the bus gap[2:0] has no bit gap[1]: name its bits, or a range that has all\n"


def test_a_bus_is_named_as_it_was_declared(write, program, tools) -> None:
    """key was declared [0:3] and is 1 in bit 3 alone, so 0001 from its leftmost bit on; y sees it one unit later, and word was declared as usual."""
    names = [f"{bus}[{bit}]" for bus in ("key", "word") for bit in range(4)]
    files = [write("n", "# bus key[0:3]\n" + "".join(f"INPUT({name})\n" for name in names) + f"OUTPUT(y)\ny = OR({', '.join(names)})\n"), write("t", ""),
             write("s", "horizon 9\n" + "".join(f"set {name} 2 {int(name == 'key[3]')}\n" for name in names))]
    said = [tools("why", *files, *words, env={"BACKSIM": program}).stdout.decode() for words in (("key", 5), ("y", 2), ("word", 1))]
    assert said[0].startswith("key[0:3] is 0001 at 5\n") and "x: 8 inputs have no value before 2: key[0:3], word[3:0]\n" in said[1]
    assert said[2].startswith("word[3:0] is xxxx at 1\n")
    done = tools("ask", *files, input=b"key 5\nkez 5\nkey* 5\n", env={"BACKSIM": program})
    assert done.stdout == b"key[0:3] = 0001 (1)\nkey[0:3] = 0001 (1)\n" and done.stderr.endswith(b"there is no signal kez; near it: key[0:3]\n")


@pytest.mark.parametrize("text, number", [("31", 31), ("0x1f", 31), ("1Fh", 31), ("0b1_1111", 31), ("5'h1f", 31), ("5'd31", 31), ("'b11111", 31), ("0031", 31),
                                          ("5'b2", None), ("1f", None), ("h", None), ("", None)])
def test_numbers_as_people_write_them(text: str, number: int) -> None:
    assert written_number(text) == number
