"""Pictures: timing diagrams by matplotlib, explanations as graphs by graphviz and as a page, and the profile of a journal.

    from backsim import Session
    from backsim.pictures import Row, explain, page_of, picture_of, read_design, waves_picture

    files = "s27.bench", "s27.timing", "s27.stim"
    with Session(*files) as session:
        svg = waves_picture([Row("G17", (session.wave("G17", 0, 31),))], "svg")
        why = explain(read_design(*files), session.why("G17", 4))
    graph = picture_of(why.way(), "svg")
    page = page_of(why, horizon=30)

matplotlib is imported, and the program `dot` started, when a picture is made."""
from ..circuit.rules import Cell, Design, Role, read_design
from ..explanations.cells import CellGraph, Edge, Node, explain
from .graph import dot_text, picture_of
from .page import page_of
from .rows import Row, bus_row, row_of, with_buses
from .waves import waves_picture

__all__ = ["Cell", "Design", "Edge", "CellGraph", "Node", "Role", "Row", "bus_row", "dot_text", "explain", "page_of", "picture_of",
           "read_design", "row_of", "waves_picture", "with_buses"]
