"""Explanations as graphs. The graphs of the examples follow from docs/use/EXAMPLES.md by hand; made-up circuits are compared with a plain
simulator (plain.py)."""
from __future__ import annotations

import pytest
from backsim.errors import FormatError
from backsim.formats.proof import parse_proof, read_proof
from backsim.explanations.cells import CellGraph, explain
from backsim.circuit.kinds import Kind
from backsim.circuit.rules import Cell, Role, read_design
from backsim.pictures.words import sentence_of
from backsim.session.session import Session
from conftest import TOP
from plain import Circuit, table

X_PROOF = "why G17 4 x\ncell 13 1 2 x\ncell 15 1 2 x\ncell 16 2 3 x\ncell 8 3 4 x\ncell 4 4 5 x\nend\n"


def edges(explanation: CellGraph) -> set[tuple[str, str, int, bool]]:
    """(effect, cause, time, matters) of each edge."""
    return {(explanation.nodes[edge.effect].name, explanation.nodes[edge.cause].name, edge.time, edge.matters)
            for edge in explanation.edges}


def explained(files: list[str], text: str) -> CellGraph:
    return explain(read_design(*files), parse_proof(text.encode(), "proof"))


def test_the_proof_of_c17(example) -> None:
    graph = explain(read_design(*example("c17")), read_proof(TOP / "examples" / "c17" / "c17.proof"))
    assert edges(graph) == {("23", "16", 2, True), ("23", "19", 2, True), ("16", "2", 0, True), ("19", "11", 1, False),
                            ("19", "7", 1, True), ("11", "3", 0, True)}
    assert [(node.name, node.start, node.end, node.value) for node in graph.nodes] == [
        ("23", 3, 11, "0"), ("16", 1, 11, "1"), ("19", 2, 11, "1"), ("2", 0, 11, "0"), ("11", 1, 11, "1"), ("7", 0, 11, "0"),
        ("3", 0, 11, "0")]
    assert {node.name for node in graph.nodes if node.role is Role.INPUT} == {"2", "3", "7"}


def test_the_way_of_the_x(example) -> None:
    graph = explained(example("s27"), X_PROOF)
    way = {("G17", "G11", 3, True), ("G11", "G9", 2, True), ("G9", "G16", 1, True), ("G9", "G15", 1, True), ("G16", "G8", 0, True),
           ("G15", "G12", 0, True), ("G15", "G8", 0, True)}
    assert edges(graph.way()) == way
    assert edges(graph) == way | {("G11", "G5", 2, False), ("G16", "G3", 0, False)}
    roles = {node.name: node.role for node in graph.nodes}
    assert (roles["G8"], roles["G12"], roles["G5"], roles["G3"]) == (Role.EARLY, Role.EARLY, Role.INITIAL, Role.INPUT)
    assert len(graph.way().nodes) == 7 and all(node.value == "x" for node in graph.way().nodes)


def test_pins_with_delays_of_their_own_and_edges(example) -> None:
    """At 12 parity shows the edge at 11, where next was 1, of parity and caught at 10; caught shows the edge at 8, and pulse at 8 saw
    trigger at 7 and inverted four back. Of pulse's cell, which begins at 7, these are 6 and 3."""
    text = ("why parity 12 1\ncell 1 1 7 0\ncell 3 1 7 1\ncell 4 3 6 0\ncell 5 4 7 0\ncell 1 7 11 1\ncell 2 7 12 0\ncell 4 9 12 1\n"
            "cell 5 10 13 1\ncell 2 12 17 1\nend\n")
    graph = explained(example("pulse"), text)
    by_start = {(graph.nodes[edge.effect].name, graph.nodes[edge.effect].start, graph.nodes[edge.cause].name, graph.nodes[edge.cause].start,
                 edge.time) for edge in graph.edges}
    assert by_start == {
        ("parity", 12, "next", 10, 11), ("next", 10, "parity", 7, 9), ("next", 10, "caught", 9, 9), ("caught", 9, "pulse", 7, 8),
        ("pulse", 7, "trigger", 6, 6), ("pulse", 7, "inverted", 1, 3), ("inverted", 1, "trigger", 0, 0), ("parity", 7, "next", 4, 6),
        ("next", 4, "parity", 0, 3), ("next", 4, "caught", 3, 3), ("caught", 3, "pulse", 1, 2), ("pulse", 1, "trigger", 0, 0)}


def test_a_pin_before_its_delay_is_a_leaf(write) -> None:
    files = [str(write("n.bench", "INPUT(a)\nOUTPUT(y)\nINPUT(b)\ny = OR(a, b)\n")),
             str(write("n.timing", "version 2\npin y 1 5\n")), str(write("n.stim", "horizon 9\nset a 0 0\nset b 0 0\n"))]
    graph = explained(files, "why y 2 x\ncell 1 1 5 x\nend\n")
    assert [(node.name, node.role, node.start, node.end, node.value) for node in graph.nodes] == [
        ("y", Role.GATE, 1, 5, "x"), ("a", Role.INPUT, 0, 10, "0"), ("b", Role.UNSEEN, 0, 5, "x")]
    assert edges(graph.way()) == {("y", "b", -4, True)}


def test_cells_of_inputs_are_their_runs(write) -> None:
    """a is x up to 5, 1 up to 12 and then 0; its settings at 0, 3, 9 and 14 repeat that. b is never set."""
    settings = ((0, "x"), (3, "x"), (5, "1"), (9, "1"), (12, "0"), (14, "0"))
    stimulus = "horizon 20\n" + "".join(f"set a {time} {value}\n" for time, value in settings)
    design = read_design(write("n", "INPUT(a)\nINPUT(b)\ny = AND(a, b)\n"), write("t", ""), write("s", stimulus))
    cells = [design.base("a", time) for time in range(21)] + [design.base("b", 7)]
    expected = [Cell(0, 5, "x")] * 5 + [Cell(5, 12, "1")] * 7 + [Cell(12, 21, "0")] * 9 + [Cell(0, 21, "x")]
    assert cells == [(Role.INPUT, cell) for cell in expected]


def test_a_base_answer_explains_itself(example) -> None:
    graph = explained(example("s27"), "why G17 0 x\nend\n")
    assert [(node.name, node.role) for node in graph.nodes] == [("G17", Role.EARLY)] and not graph.edges


def test_needless_lines_are_left_out(example) -> None:
    graph = explained(example("c17"), "why 16 3 1\ncell 7 1 11 1\ncell 9 1 11 1\nend\n")
    assert [node.name for node in graph.nodes] == ["16", "2"]


def test_nearest_says_what_it_leaves_out(example) -> None:
    graph = explained(example("s27"), X_PROOF).way().nearest(3)
    assert [node.name for node in graph.nodes] == ["G17", "G11", "G9"]
    assert graph.hidden == {2: 2}
    assert len(graph.edges) == 2


@pytest.mark.parametrize("text, line", [
    ("why 23 3 1\ncell 8 1 11 1\ncell 9 1 11 1\ncell 10 2 11 1\ncell 6 3 11 0\nend\n", 1),
    ("why 23 3 0\ncell 8 1 11 0\ncell 9 1 11 1\ncell 10 2 11 1\ncell 6 3 11 0\nend\n", 2),
    ("why 23 3 0\ncell 8 1 11 1\ncell 9 1 10 1\ncell 10 2 11 1\ncell 6 3 11 0\nend\n", 3),
    ("why 23 3 0\ncell 9 1 11 1\ncell 10 2 11 1\ncell 6 3 11 0\nend\n", 3),
    ("why 23 3 0\ncell 6 3 11 0\nend\n", 2),
    ("why 23 3 0\ncell 8 1 11 1\ncell 9 1 11 1\ncell 10 2 11 1\nend\n", 1),
    ("why 23 3 0\ncell 11 1 11 1\nend\n", 2),
    ("why 23 3 0\ncell 0 0 11 0\nend\n", 2),
    ("why 23 3 0\ncell 8 0 11 1\nend\n", 2),
    ("why 23 3 0\ncell 8 11 12 1\nend\n", 2),
    ("why nobody 3 0\nend\n", 1),
    ("why 23 11 0\ncell 8 1 11 1\nend\n", 1),
])
def test_what_does_not_follow_is_refused_with_its_line(example, text: str, line: int) -> None:
    with pytest.raises(FormatError) as refused:
        explained(example("c17"), text)
    assert refused.value.line == line


@pytest.mark.parametrize("seed", range(25))
def test_made_up_circuits(write, seed: int) -> None:
    circuit = Circuit(seed)
    files = [str(write(name, text)) for name, text in zip(("n.bench", "n.timing", "n.stim"), circuit.files())]
    design = read_design(*files)
    for name in circuit.names:
        for time in range(0, circuit.horizon + 1, 5):
            graph = explain(design, parse_proof(circuit.proof(name, time).encode(), "proof"))
            assert graph.value == circuit.value(name, time)
            causes = graph.causes()
            for number, node in enumerate(graph.nodes):
                if node.role is not Role.UNSEEN:
                    assert {circuit.value(node.name, at) for at in range(node.start, node.end)} == {node.value}
                assert node.role.is_leaf == (not causes[number])
                if not node.role.is_leaf:
                    expected = circuit.children(node.name, node.start)
                    assert [(graph.nodes[edge.cause].name, edge.time) for edge in causes[number]] == expected
                    assert _settled_by(circuit, node.name, [(edge, graph.nodes[edge.cause].value) for edge in causes[number]])
                assert sentence_of(node, causes[number], graph.nodes)
            for edge in graph.way().edges:
                assert graph.value != "x" or graph.way().nodes[edge.cause].value in "xz"


@pytest.mark.parametrize("seed", range(100, 106))
def test_replies_of_the_program(write, program: str, seed: int) -> None:
    circuit = Circuit(seed)
    files = [str(write(name, text)) for name, text in zip(("n.bench", "n.timing", "n.stim"), circuit.files())]
    design = read_design(*files)
    points = [(name, time) for name in circuit.names for time in range(0, circuit.horizon + 1, 3)]
    with Session(*files, program=program) as session, session.batch() as batch:
        pending = [batch.why(name, time) for name, time in points]
        batch.ask()
        for (name, time), answer in zip(points, pending):
            graph = explain(design, answer.result())
            assert (graph.name, graph.time, graph.value) == (name, time, circuit.value(name, time))


def _settled_by(circuit: Circuit, name: str, seen: list) -> bool:
    """Whether the pins that matter alone give the value: what the other looked pins see may be anything that does not decide."""
    kind = circuit.gates[name][0]
    value = table(kind, [found for _, found in seen])
    return all(table(kind, [found if edge.matters else other for edge, found in seen]) == value
               for other in ({"AND": "1x", "NAND": "1x", "OR": "0x", "NOR": "0x"}.get(kind, "01") if value != "x" else "01"
                             if kind in ("XOR", "XNOR") else {"AND": "1", "NAND": "1", "OR": "0", "NOR": "0"}.get(kind, "01")))


@pytest.mark.parametrize("kind", [kind for kind in Kind if not kind.is_unary])
def test_gates_have_their_tables(kind: Kind) -> None:
    for first in "01xz":
        for second in "01xz":
            for third in "01xz":
                values = [first, second, third]
                assert kind.gate_value(values) == table(kind.value, values)
                if kind.decides(first):
                    assert {kind.gate_value([first, *rest]) for rest in (["0", "0"], ["1", "1"], ["x", "0"], ["z", "1"])} \
                        == {table(kind.value, [first])}


@pytest.mark.parametrize("kind", [Kind.NOT, Kind.BUFF, Kind.DFF])
def test_unary_gates_have_their_tables(kind: Kind) -> None:
    for value in "01xz":
        assert kind.gate_value([value]) == table(kind.value, [value])
        assert not kind.decides(value)
