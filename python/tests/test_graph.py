"""The graph of an explanation in graphviz's language, and as graphviz draws it."""
from __future__ import annotations

import re
import shutil
import xml.etree.ElementTree as ElementTree

import pytest
from backsim.errors import MissingExtra
from backsim.formats.proof import parse_proof
from backsim.explanations.cells import CellGraph, explain
from backsim.pictures.graph import dot_text, picture_of
from backsim.circuit.rules import read_design
from backsim.pictures.words import shortened

X_PROOF = "why G17 4 x\ncell 13 1 2 x\ncell 15 1 2 x\ncell 16 2 3 x\ncell 8 3 4 x\ncell 4 4 5 x\nend\n"
SVG = "{http://www.w3.org/2000/svg}"
needs_dot = pytest.mark.skipif(shutil.which("dot") is None, reason="the program dot is missing (Debian's package graphviz)")


@pytest.fixture
def graph(example) -> CellGraph:
    return explain(read_design(*example("s27")), parse_proof(X_PROOF.encode(), "proof"))


def test_nodes_edges_and_ranks(graph) -> None:
    text = dot_text(graph.way())
    assert len(re.findall(r"^  n\d+ \[label=", text, re.M)) == 7
    arrows = re.findall(r"^  n(\d+) -> n(\d+) ", text, re.M)
    names = [node.name for node in graph.way().nodes]
    assert {(names[int(effect)], names[int(cause)]) for cause, effect in arrows} == {
        ("G17", "G11"), ("G11", "G9"), ("G9", "G16"), ("G9", "G15"), ("G16", "G8"), ("G15", "G12"), ("G15", "G8")}
    ranks = {names[int(node)]: int(time) for time, node in re.findall(r"rank=same; t(\d+); n(\d+);", text)}
    assert ranks == {"G17": 4, "G11": 3, "G9": 2, "G16": 1, "G15": 1, "G8": 0, "G12": 0}
    assert "t0 -> t1 -> t2 -> t3 -> t4;" in text
    assert text.count("rounded") == 2 and text.count("dashed") == 0


def test_what_does_not_matter_is_dashed(graph) -> None:
    assert dot_text(graph).count("dashed") == 2


def box_of(group: ElementTree.Element) -> tuple[float, float, float, float] | None:
    """The box around the shape of a node; a time of the axis has none."""
    shapes = [*group.iter(f"{SVG}polygon"), *group.iter(f"{SVG}path")]
    if not shapes:
        return None
    numbers = list(map(float, re.findall(r"-?\d+(?:\.\d+)?", shapes[0].get("points") or shapes[0].get("d"))))
    return min(numbers[::2]), min(numbers[1::2]), max(numbers[::2]), max(numbers[1::2])


@needs_dot
def test_svg_by_graphviz(graph) -> None:
    root = ElementTree.fromstring(picture_of(graph.way(), "svg"))
    assert root.tag == f"{SVG}svg"
    nodes = [group for group in root.iter(f"{SVG}g") if group.get("class") == "node"]
    edges = [group for group in root.iter(f"{SVG}g") if group.get("class") == "edge"]
    assert len(nodes) == 7 + 5 and len(edges) == 7 + 4
    places = {}
    for group in nodes:
        words = [text.text for text in group.iter(f"{SVG}text")]
        left, _, right, _ = box_of(group) or (float(next(group.iter(f"{SVG}text")).get("x")), 0, 0, 0)
        places[words[0]] = (left + right) / 2 if right else left
        if len(words) > 1:
            assert words[1].startswith("t = ")
    # earlier cells stand to the left, above or below their time
    assert places["G8 = x"] < places["G16 = x"] < places["G9 = x"] < places["G11 = x"] < places["G17 = x"]
    assert abs(places["G9 = x"] - places["t = 2"]) < 1


@needs_dot
def test_no_two_nodes_overlap(graph) -> None:
    root = ElementTree.fromstring(picture_of(graph, "svg"))
    boxes = [box for group in root.iter(f"{SVG}g") if group.get("class") == "node" and (box := box_of(group))]
    assert len(boxes) == 9
    for place, one in enumerate(boxes):
        for other in boxes[place + 1:]:
            assert one[2] <= other[0] or other[2] <= one[0] or one[3] <= other[1] or other[3] <= one[1]


@needs_dot
@pytest.mark.parametrize("name", ['a"b', "a\\b", "<b>&amp;", "\\N", "[0]", "{x|y}", "$auto$async2sync.cc:107", "x" * 255])
def test_names_of_any_letters(write, name: str) -> None:
    design = read_design(write("n.bench", f"INPUT(a)\n{name} = NOT(a)\n"), write("n.timing", ""), write("n.stim", "horizon 5\nset a 0 0\n"))
    graph = explain(design, parse_proof(f"why {name} 3 1\ncell 1 1 6 1\nend\n".encode(), "proof"))
    root = ElementTree.fromstring(picture_of(graph, "svg"))
    assert f"{shortened(name, 36)} = 1" in [text.text.replace("\u2060", "") for text in root.iter(f"{SVG}text")]


@needs_dot
def test_png_by_graphviz(graph) -> None:
    assert picture_of(graph, "png").startswith(b"\x89PNG\r\n\x1a\n")


def test_a_missing_graphviz_is_said(graph, monkeypatch, tmp_path) -> None:
    monkeypatch.setenv("PATH", str(tmp_path))
    with pytest.raises(MissingExtra, match="graphviz"):
        picture_of(graph, "svg")
    assert picture_of(graph, "dot") == dot_text(graph).encode()


@pytest.mark.parametrize("name, most, expected", [("abc", 3, "abc"), ("abcdefghij", 7, "ab…ghij"), ("abcdefghij", 9, "ab…efghij")])
def test_long_names_keep_their_ends(name: str, most: int, expected: str) -> None:
    assert len(shortened(name, most)) <= most
    assert shortened(name, most) == expected
