"""What a netlist says of its graph. The circuit is small enough to be seen through."""
from __future__ import annotations

import builtins
import io

import pytest
from backsim import Gate, Kind, MissingExtra, Netlist, parse_netlist, write_netlist
from backsim.formats.netlist import in_order
from backsim.graphs import graph_of

TEXT = b"""INPUT(a)
input( b )   # in either case
OUTPUT(y)
y = nand(m, q, m)
m = BUF(b)
q = DFF(y)
z = NOT(a)
"""
NETLIST = parse_netlist(TEXT, "netlist")


def test_names_are_numbered_as_they_first_appear() -> None:
    assert NETLIST.names == ("a", "b", "y", "m", "q", "z")
    assert [NETLIST.number_of(name) for name in NETLIST.names] == list(range(6))
    assert NETLIST.gates["y"] == Gate("y", Kind.NAND, ("m", "q", "m"), 4) and NETLIST.gates["m"].kind is Kind.BUFF
    assert (NETLIST.inputs, NETLIST.outputs) == (("a", "b"), ("y",))
    assert "q" in NETLIST and "Q" not in NETLIST
    with pytest.raises(KeyError):
        NETLIST.number_of("Q")


def test_cones_go_through_flip_flops() -> None:
    assert NETLIST.cone("y") == {"y", "m", "q", "b"} == NETLIST.cone("q")
    assert NETLIST.cone("z") == {"z", "a"}
    assert NETLIST.reached("b") == {"b", "m", "y", "q"} and NETLIST.reached("a") == {"a", "z"}
    assert NETLIST.fanout() == {"a": ("z",), "b": ("m",), "y": ("q",), "m": ("y",), "q": ("y",), "z": ()}
    with pytest.raises(KeyError):
        NETLIST.reached("nowhere")


def test_gates_in_order() -> None:
    assert [gate.name for gate in in_order(NETLIST)] == ["m", "y", "z"]
    with pytest.raises(ValueError):
        list(in_order(parse_netlist(b"a = NOT(b)\nb = NOT(a)\n", "netlist")))


def test_a_netlist_that_is_built_is_numbered_as_it_is_written() -> None:
    netlist = Netlist.build(["a"], ["y", "y"], [Gate("y", Kind.AND, ("w", "a")), Gate("w", Kind.NOT, ("a",))])
    stream = io.StringIO()
    write_netlist(netlist, stream)
    assert stream.getvalue() == "INPUT(a)\nOUTPUT(y)\ny = AND(w, a)\nw = NOT(a)\n"
    assert netlist.names == ("a", "y", "w") == parse_netlist(stream.getvalue().encode(), "netlist").names


def test_a_graph_of_networkx(monkeypatch) -> None:
    networkx = pytest.importorskip("networkx")
    graph = graph_of(NETLIST)
    assert networkx.ancestors(graph, "z") == {"a"}
    assert graph.nodes["y"] == {"kind": "NAND", "is_output": True} and graph.nodes["a"]["kind"] == "INPUT"
    assert sorted(data["pin"] for data in graph["m"]["y"].values()) == [0, 2]


def test_a_graph_without_networkx(monkeypatch) -> None:
    usual = builtins.__import__

    def without(name: str, *rest: object) -> object:
        if name == "networkx":
            raise ImportError(name)
        return usual(name, *rest)

    monkeypatch.setattr(builtins, "__import__", without)
    with pytest.raises(MissingExtra, match="networkx is not there: install Debian's package python3-networkx") as error:
        graph_of(NETLIST)
    assert error.value.status == 2
