"""Explanations: root causes, chains, what decides alone. The circuits are small enough to be worked out by hand; that a cause decides
alone is tried by a plain simulator (plain.py) over circuits with that cause set."""
from __future__ import annotations

import json
from collections.abc import Callable
from functools import partial

import pytest
from backsim.errors import UsageError
from backsim.explanations import CauseKind, Explanation
from backsim.explanations.names import in_short
from backsim.formats.netlist import parse_netlist, read_netlist, with_sources, write_netlist
from backsim.formats.proof import parse_proof
from backsim.main import main
from backsim.circuit.rules import read_design
from backsim.session.session import Session
from backsim.values import Budget
from conftest import TOP
from plain import Circuit

# an enable that is a multiplexer, as from-json makes it, before a register q; its clock has edges at 5, 15, 25 ..
ENABLED = """INPUT(d)
INPUT(en)
INPUT(rst)
OUTPUT(y)
en$1 = NOT(en)  # chip.v:7.3-9.6
q$1$1 = AND(en$1, q)  # chip.v:7.3-9.6
q$1$2 = AND(en, d)  # chip.v:7.3-9.6
q$1$3 = AND(q, d)  # chip.v:7.3-9.6
q$1 = OR(q$1$1, q$1$2, q$1$3)  # chip.v:7.3-9.6
q = DFF(q$1)  # chip.v:7.3-9.6
$and$1 = AND(q, rst)  # chip.v:11.14-11.21
y = NOT($and$1)  # chip.v:11.10-11.22
"""


@pytest.fixture
def enabled(write):
    """The circuit above, explained by a session."""

    def explained(program: str, stimulus: str, name: str, time: int, **options) -> Explanation:
        files = [write("e.bench", ENABLED), write("e.timing", "clock 5 10\n"), write("e.stim", stimulus)]
        with Session(*files, program=program) as session:
            found = session.explain(name, time, **options)
        assert isinstance(found, Explanation)
        return found

    return explained


def test_the_gates_of_a_step(write, program, monkeypatch, capsys) -> None:
    """en lets d, which is 1, through two gates, each a unit late, to the edge at 5, and q shows it at 6; y is two gates behind it. q$1$1,
    which q$1 looks at first, is known from 2 on, so the cell of q$1 begins at 3."""
    monkeypatch.setenv("BACKSIM", program)
    files = [write("e.bench", ENABLED), write("e.timing", "clock 5 10\n"), write("e.stim", "horizon 100\nset d 0 1\nset en 0 1\nset rst 0 1\n")]
    assert main(["why", *map(str, files), "y", "9", "--until", "d", "--gates"]) == 0
    lines = capsys.readouterr().out.splitlines()
    begin = lines.index("d, 3 steps back:") + 1
    # the gates of a step stand below it, two letters further right
    assert [" ".join(line.split()) for line in lines[begin:begin + 6]] == [
        "8 y = 0 2 gates, the last a NOT chip.v:11", "7 $and$1 = 1 AND(q, rst) chip.v:11",
        "6 q = 1 flip-flop, took d through 2 gates at the edge at 5 chip.v:7", "3 q$1 = 1 OR(q$1$1, q$1$2, q$1$3) chip.v:7",
        "1 q$1$2 = 1 AND(en, d) chip.v:7", "0 d = 1 input, set at 0"]
    assert lines[begin].index("y = 0") + 2 == lines[begin + 1].index("$and$1 = 1")


def test_a_register_that_was_never_set(enabled, program) -> None:
    """Nothing enables q, so it shows x at each edge, and y is x as rst is 1."""
    why = enabled(program, "horizon 100\nset d 0 1\nset en 0 0\nset rst 0 1\n", "y", 42)
    assert why.value == "x" and [(cause.kind, cause.names, cause.alone) for cause in why.causes] == [(CauseKind.UNSET, ("q",), ("q",))]
    steps = why.chain()
    assert [(step.name, step.value, step.start, step.source) for step in steps] == [
        ("y", "x", 38, "chip.v:11"), ("q", "x", 36, "chip.v:7"), ("q", "x", 0, "chip.v:7")]
    # y and the gate before it are of one line; q kept its value at the edges 5, 15, 25 and 35
    assert steps[0].gates == 2 and steps[1].what == "flip-flop, kept its value at 4 edges, 5 to 35"
    assert str(why).splitlines()[:2] == ["y is x at 42", "x: flip-flop q was never set before it was read"]


def test_a_register_keeps_its_value_through_gates_that_a_tool_named(write, program) -> None:
    """q takes d, through two gates, at the edge at 5, and from 8 on en is 0: it has the value still at the edges 15, 25 and 35."""
    files = [write("n", "INPUT(d)\nINPUT(en)\nq = DFF($m)\n$m = OR($a, $b)\n$a = AND($n, q)\n$b = AND(en, d)\n$n = NOT(en)\n"),
             write("t", "clock 5 10\n"), write("s", "horizon 50\nset d 0 1\nset en 0 1\nset en 8 0\n")]
    with Session(*files, program=program) as session:
        why = session.explain("q", 42)
    cause = next(cause for cause in why.causes if "d" in cause.names)
    assert [(step.name, step.start, step.what) for step in why.chain(cause, "d")] == [
        ("q", 36, "flip-flop, took d through 2 gates at the edge at 5, kept its value at 3 edges, 15 to 35"), ("d", 0, "input, set at 0")]


def test_an_input_that_decides(enabled, program) -> None:
    """rst is 0 from 20 on, and gates 0 through the AND whatever q is."""
    why = enabled(program, "horizon 100\nset d 0 1\nset en 0 1\nset rst 0 1\nset rst 20 0\n", "$and$1", 42)
    assert str(why).splitlines()[:2] == ["$and$1 is 0 at 42", "0: input rst decides, set to 0 at 20"]
    why = enabled(program, "horizon 100\nset d 0 1\nset en 0 1\nset rst 0 1\nset rst 20 0\n", "y", 42)
    assert str(why).splitlines()[1] == "1: input rst, set to 0 at 20"


def test_an_input_without_a_value(enabled, program) -> None:
    """d has its first value at 40, so the edge at 25, which en lets through from 20 on, takes x."""
    why = enabled(program, "horizon 100\nset d 40 1\nset en 0 0\nset en 20 1\nset rst 0 1\n", "q", 30)
    lines = str(why).splitlines()
    assert lines[:2] == ["q is x at 30", "x: input d has no value before 40"]
    assert [(step.name, step.start, step.what) for step in why.chain(why.causes[0], "d")] == [
        ("q", 26, "flip-flop, took d through 2 gates at the edge at 25"), ("d", 0, "input, not set before 40")]


def test_a_chain_is_cut_by_until_and_depth(enabled, program) -> None:
    stimulus = "horizon 100\nset d 0 1\nset en 0 1\nset rst 0 1\n"
    why = enabled(program, stimulus, "y", 42)
    # q took d at 35; the AND is 1 as both its pins are
    assert [step.name for step in why.chain(why.causes[0], "d")] == ["y", "q", "d"] and "3 inputs set at 0" in str(why)
    why = enabled(program, stimulus, "y", 42, until=["q"])
    assert {(cause.kind, cause.names) for cause in why.causes} == {(CauseKind.INPUT, ("rst",)), (CauseKind.UNTIL, ("q",))}
    why = enabled(program, stimulus, "y", 42, depth=1)
    assert {(cause.kind, cause.names) for cause in why.causes} == {(CauseKind.INPUT, ("rst",)), (CauseKind.BEYOND, ("q",))}
    with pytest.raises(UsageError, match="no cause of y at 42"):
        why.chain(why.causes[0], "en")


def test_a_bus_and_what_it_is_as_json(write, program, capsys, monkeypatch) -> None:
    monkeypatch.setenv("BACKSIM", program)
    files = [str(write("b.bench", "INPUT(a[0])\nINPUT(a[1])\nOUTPUT(s[0])\nOUTPUT(s[1])\ns[0] = NOT(a[0])\ns[1] = BUFF(a[1])\n")),
             str(write("b.timing", "")), str(write("b.stim", "horizon 20\nset a[0] 3 0\nset a[1] 3 0\n"))]
    assert main(["why", *files, "s", "10"]) == 0
    assert capsys.readouterr().out.splitlines()[:2] == ["s[1:0] is 01 at 10", "01: 2 inputs set at 3: a[1:0] = 00"]
    assert main(["why", *files, "s[1:0]", "10", "--json", "--chains", "1"]) == 0
    found = json.loads(capsys.readouterr().out)
    assert found["value"] == "01" and found["causes"][0]["signals"][0] == {"name": "a[1]", "value": "0", "start": 3, "end": 21,
                                                                          "alone": False}
    assert [step["name"] for step in found["chains"][0]["steps"]] == ["s[1]", "a[1]"]
    assert main(["why", *files, "s", "2"]) == 0
    assert "x: 2 inputs have no value before 3: a[1:0]" in capsys.readouterr().out
    # of a word of which a part is known, the causes of both parts are told
    assert main(["why", *files[:2], str(write("c.stim", "horizon 20\nset a[1] 3 0\n")), "s", "10", "--chains", "0"]) == 0
    told = capsys.readouterr().out.splitlines()
    assert told[0] == "s[1:0] is 0x at 10" and {"0x: input a[1], set to 0 at 3", "0x: input a[0] is never set"} <= set(told)


def test_a_flip_flop_without_a_clock_is_told(write, program, capsys, monkeypatch) -> None:
    monkeypatch.setenv("BACKSIM", program)
    files = [str(write("b.bench", "INPUT(a)\nOUTPUT(y)\ny = NOT(q)\nq = DFF(a)\n")), str(write("b.timing", "")), str(write("b.stim", "horizon 20\nset a 3 0\n"))]
    assert main(["why", *files, "y", "10"]) == 0
    assert capsys.readouterr().out.splitlines()[-1] == "  0  q = x  no initial value, and no clock"


def test_the_processor_of_the_example(example, program) -> None:
    """A register without a reset that nothing writes before 8,701 is x; the words of the register file that come to it are no way out, as
    is worked out by hand from its source: `if (code == PUT) result <= left`."""
    with Session(*example("from_verilog"), program=program) as session:
        why = session.explain("result[0]", 8000)
    assert isinstance(why, Explanation) and why.spent == (50_000,)
    assert [(cause.kind, len(cause.names), cause.alone) for cause in why.causes] == [(CauseKind.UNSET, 9, ("result[0]",))]
    assert set(why.causes[0].names) == {"result[0]", *(f"registers[{place}][0]" for place in range(8))}
    assert [(step.name, step.what, step.source) for step in why.chain()] == [
        ("result[0]", "flip-flop, kept its value at 40 edges, 100 to 7,900", "processor.v:107"),
        ("result[0]", "no initial value", "processor.v:107")]
    lines = str(why).splitlines()
    assert len(lines) < 20 and lines[1] == ("x: 9 flip-flops were never set before they were read: result[0], registers[0..7][0]")


class Changed(Circuit):
    """A made-up circuit in which inputs and initial values have other values: `change` gives that of a name at a time for its own."""

    def __init__(self, seed: int, change: Callable[[str, int, str], str]) -> None:
        self.change = change
        super().__init__(seed)

    def _value(self, name: str, time: int) -> str:
        value = super()._value(name, time)
        is_leaf = name in self.inputs or self.gates[name][0] == "DFF" and self.edge(name, time) is None
        return self.change(name, time, value) if is_leaf else value


@pytest.mark.parametrize("seed", range(40))
def test_what_decides_alone_does(write, seed: int) -> None:
    """Made-up circuits: a flip-flop or input of which an explanation says that it alone makes an unknown value known is set to each value,
    and of one that alone gives a known value, all others are set to x."""
    circuit = Circuit(seed)
    files = [str(write(name, text)) for name, text in zip(("n.bench", "n.timing", "n.stim"), circuit.files())]
    design = read_design(*files)
    for name in circuit.names:
        for time in range(0, circuit.horizon + 1, 7):
            why = Explanation(design, name, time, (parse_proof(circuit.proof(name, time).encode(), "proof"),))
            assert why.value == circuit.value(name, time) and why.start <= time < why.end
            for cause in why.causes:
                assert [step.value for step in why.chain(cause, cause.names[0])][0] == why.value
                for signal, (start, end) in zip(cause.names, cause.times):
                    if signal in cause.alone:
                        is_own = partial(_is_at, signal, start, end)
                        if why.value == "x":
                            changed = [Changed(seed, lambda *leaf, own=own: own if is_own(*leaf) else leaf[2]) for own in "01"]
                            assert {other.value(name, time) for other in changed} <= {"0", "1"}
                        else:
                            blurred = Changed(seed, lambda *leaf: leaf[2] if is_own(*leaf) else "x")
                            assert blurred.value(name, time) == why.value == circuit.value(name, time)


def _is_at(signal: str, start: int, end: int, name: str, time: int, value: str) -> bool:
    return name == signal and start <= time < end


def test_names_in_short() -> None:
    assert in_short(["a[3]", "a[2]", "a[0]", "b"]) == "a[3:2], a[0], b"
    assert in_short([f"r[{word}][{bit}]" for word in range(3) for bit in range(4)]) == "r[0..2][3:0]"
    assert in_short([f"u[{place}].q" for place in (0, 1, 2, 5)]) == "u[0..2].q, u[5].q"
    assert in_short("abcdefghij", 3) == "a, b, c and 7 more"


def test_places_in_the_source_stay(tmp_path) -> None:
    netlist = parse_netlist(ENABLED.encode(), "e.bench")
    assert netlist.gates["q"].source == "chip.v:7.3-9.6" and parse_netlist(b"INPUT(a)\ny = NOT(a) # b\n", "n").gates["y"].source == ""
    with open(tmp_path / "again.bench", "w", encoding="ascii") as stream:
        write_netlist(netlist, stream)
    again = read_netlist(tmp_path / "again.bench")
    assert [gate.source for gate in again.gates.values()] == [gate.source for gate in netlist.gates.values()]
    placed = with_sources(netlist, {"q": "a.v:1", "y": "a.v:2"})
    assert (placed.gates["q$1$2"].source, placed.gates["y"].source, placed.gates["$and$1"].source) == ("a.v:1", "a.v:2", "")


def test_the_graph_has_the_names(enabled, program) -> None:
    pytest.importorskip("networkx", reason="networkx is missing (Debian's package python3-networkx)")
    graph = enabled(program, "horizon 100\nset d 0 1\nset en 0 0\nset rst 0 1\n", "y", 12).to_graph()
    assert graph.nodes["y", 8]["value"] == "x" and graph.nodes["y", 8]["source"] == "chip.v:11.10-11.22"
    assert list(graph.predecessors(("y", 8))) == [("$and$1", 7)]


def test_the_shipped_pages_name_their_files() -> None:
    assert (TOP / "examples" / "from_verilog" / "from_verilog.bench").read_text().count("  # processor.v:") > 500


def test_a_bus_of_which_a_bit_needs_more(write, program) -> None:
    """q toggles at each second edge, so that q at t is that of n one before, which is the negation of q two before t: it needs a point for
    each time, and y[1] at 60,000 more than the usual 50,000. It is what q was at 59,999, where 29,999 twos have passed."""
    files = [write("n", "INPUT(a)\ny[2] = BUFF(a)\nn = NOT(q)\nq = DFF(n)\ny[1] = BUFF(q)\ny[0] = NOT(a)\n"), write("t", "clock 1 1\ninit q 0\n"),
             write("s", "horizon 60000\nset a 0 1\n")]
    with Session(*files, program=program) as session:
        found = session.explain("y[2:0]", 60_000)
        assert isinstance(found, Explanation) and found.value == "110" and found.spent == (50_000,)
        assert {name for cause in found.causes for name in cause.names} == {"a", "q"}
    # a budget that is given is all that there is
    with Session(*files, program=program) as session:
        assert session.explain("y[2:0]", 59_990, 100) == Budget("y[1]", 100)
