"""Timing diagrams: what rows there are, and what is drawn of them. The expected shapes are worked out by hand."""
from __future__ import annotations

import struct
import xml.etree.ElementTree as ElementTree

import pytest
from backsim.errors import FormatError, UsageError
from backsim.main import main
from backsim.pictures.rows import Row, bus_row, row_of, with_buses, word_text
from backsim.pictures.shapes import HALF, Shapes
from backsim.pictures.sources import chosen, rows_of_replies, rows_of_vcd
from backsim.pictures.waves import waves_picture
from backsim.values import Wave
from conftest import TOP

PULSE = TOP / "examples" / "pulse"


def wave(name: str, start: int, stop: int, *changes: tuple[int, str]) -> Wave:
    return Wave(name, start, stop, changes)


@pytest.mark.parametrize("word, radix, expected", [
    ("0000", "hex", "0"), ("11111010", "hex", "fa"), ("1", "hex", "1"), ("101010", "hex", "2a"), ("xxxx", "hex", "x"),
    ("xx10", "hex", "X"), ("xx0101", "hex", "x5"), ("x0010", "hex", "x2"), ("zzzz0001", "hex", "z1"), ("z001", "hex", "X"),
    ("11111010", "dec", "250"), ("1x", "dec", "x"), ("zz", "dec", "z"), ("z0", "dec", "x"), ("10xz", "bin", "10xz"),
    ("1000", "signed", "-8"), ("0111", "signed", "7"), ("1x", "signed", "x"), ("zz", "signed", "z"),
])
def test_words_of_a_bus(word: str, radix: str, expected: str) -> None:
    assert word_text(word, radix) == expected


def test_pieces_of_a_row_do_not_overlap() -> None:
    row = row_of("a", [wave("a", 5, 10, (5, "1"), (7, "0")), wave("a", 0, 6, (0, "x"), (4, "1")), wave("a", 6, 8, (6, "1"), (7, "0"))])
    assert row.waves == (wave("a", 0, 6, (0, "x"), (4, "1")), wave("a", 6, 10, (6, "1"), (7, "0")))


def test_a_bus_is_known_where_all_bits_are() -> None:
    high = Row("c[1]", (wave("c[1]", 0, 8, (0, "0"), (5, "1")), wave("c[1]", 12, 14, (12, "1"))))
    low = Row("c[0]", (wave("c[0]", 3, 13, (3, "x"), (6, "0")),))
    assert bus_row("c[1:0]", [high, low]).waves == (wave("c[1:0]", 3, 8, (3, "0x"), (5, "1x"), (6, "10")),
                                                    wave("c[1:0]", 12, 13, (12, "10")))


def test_bits_are_joined_where_they_are_one_bus() -> None:
    def bit(name: str, stop: int = 4) -> Row:
        return Row(name, (wave(name, 0, stop, (0, "1")),))

    rows = [bit("c[0]"), bit("en"), bit("c[1]"), bit("c[2]"), bit("d[0]"), bit("d[2]"), bit("e[4]"), bit("e[5]", 3), bit("f[0]")]
    assert [row.label for row in with_buses(rows)] == ["c[2:0]", "en", "d[0]", "d[2]", "e[4]", "e[5]", "f[0]"]


def shapes_of(row: Row, start: int = 0, stop: int = 40, unit: float = 0.25) -> Shapes:
    shapes = Shapes(start, stop, "hex", unit, 0.09)
    shapes.add_row(0, row)
    return shapes


def test_bits_are_lines_x_is_a_band_and_z_a_middle_line() -> None:
    shapes = shapes_of(Row("a", (wave("a", 0, 40, (0, "x"), (10, "0"), (20, "1"), (30, "z")),)))
    assert shapes.areas["x"] == [[(0, -HALF), (0, HALF), (10, HALF), (10, -HALF)]]
    assert shapes.lines["line"] == [[(10, -HALF), (20, -HALF), (20, HALF), (30, HALF)]]
    assert shapes.areas["high"] == [[(20, -HALF), (20, HALF), (30, HALF), (30, -HALF)]]
    assert shapes.lines["z"] == [[(30, 0), (40, 0)]]
    assert not shapes.lines["unknown"]


def test_where_nothing_was_asked_the_row_is_dotted() -> None:
    shapes = shapes_of(Row("a", (wave("a", 5, 10, (5, "1")), wave("a", 10, 20, (10, "0")))))
    assert shapes.lines["unknown"] == [[(0, 0), (5, 0)], [(20, 0), (40, 0)]]


def test_buses_are_bands_with_values_where_these_have_room() -> None:
    shapes = shapes_of(Row("c", (wave("c", 0, 40, (0, "xxxxxxxx"), (10, "00111010"), (39, "zzzzzzzz")),)))
    assert len(shapes.areas["x"]) == 1 and shapes.lines["z"] == [[(39, 0), (40, 0)]]
    (shape,) = shapes.areas["bus"]
    assert shape[0] == (10, 0) and shape[3] == (39, 0) and {abs(y) for _, y in shape} == {0, HALF}
    assert shapes.texts == [(24.5, 0, "3a")]
    assert shapes_of(Row("c", (wave("c", 0, 40, (0, "0000"), (39, "1111")),)), unit=0.1).texts == [(19.5, 0, "0")]
    # 0.4 inches, of which 0.08 stay free, have room for three letters of 0.09, and 0.3 for two
    assert shapes_of(Row("c", (wave("c", 0, 40, (0, "0011101001011100")),)), unit=0.01).texts == [(20, 0, "3a…")]
    assert shapes_of(Row("c", (wave("c", 0, 30, (0, "0011101001011100")),)), unit=0.01).texts == []


def test_a_value_at_one_time_is_a_letter_and_a_crowd_of_them_points() -> None:
    pieces = tuple(wave("a", at, at + 1, (at, value)) for at, value in ((100, "1"), (101, "0"), (900, "x")))
    shapes = shapes_of(Row("a", pieces), 0, 1000, 0.01)
    assert shapes.values == [(100, 0, "1"), (900, 0, "x")]
    assert shapes.dots == [(101, 0)]


def test_changes_that_are_too_close_are_one_area() -> None:
    changes = [(0, "0"), *((500 + place, "10"[place % 2]) for place in range(100)), (600, "1")]
    shapes = shapes_of(Row("a", (wave("a", 0, 1000, *changes),)), 0, 1000, 0.001)
    assert shapes.areas["busy"] == [[(500, -HALF), (500, HALF), (600, HALF), (600, -HALF)]]
    assert shapes.lines["line"] == [[(0, -HALF), (500, -HALF)], [(600, HALF), (1000, HALF)]]


def test_rows_of_replies() -> None:
    rows = rows_of_replies(PULSE / "pulse.replies")
    # the values at 10 and 11 lie in the wave of pulse
    assert [(row.label, [(piece.start, piece.stop) for piece in row.waves]) for row in rows] == [
        ("pulse", [(0, 41)]), ("caught", [(0, 41)]), ("parity", [(0, 41)])]
    assert rows[0].waves[0].changes == ((0, "x"), (1, "0"), (7, "1"), (11, "0"), (28, "1"), (32, "0"))
    assert [row.label for row in chosen(rows, ["parity", "?u*", "caught"], PULSE)] == ["parity", "pulse", "caught"]


def test_rows_of_a_dump() -> None:
    rows = rows_of_vcd(PULSE / "pulse.vcd", None, ["caught"])
    assert rows == [Row("caught", (wave("caught", 0, 42, (0, "0"), (9, "1"), (12, "0"), (30, "1"), (33, "0"), (41, "x")),))]


def test_vectors_and_bits_of_a_dump(write) -> None:
    dump = write("d.vcd", "$timescale 1 ns $end\n$scope module top $end\n$var wire 4 ! count [3:0] $end\n$var wire 1 \" go $end\n"
                          "$upscope $end\n$enddefinitions $end\n#0\nbx !\n0\"\n#5\nb101 !\n1\"\n#9\n")
    rows = rows_of_vcd(dump, "top", [])
    assert rows == [Row("count[3:0]", (wave("count[3:0]", 0, 10, (0, "xxxx"), (5, "0101")),)),
                    Row("go", (wave("go", 0, 10, (0, "0"), (5, "1")),))]
    assert rows_of_vcd(dump, "top", ["count[2]"])[0].waves[0].changes == ((0, "x"), (5, "1"))
    assert rows_of_vcd(dump, "top", ["count[1:0]"])[0].waves[0].changes == ((0, "xx"), (5, "01"))
    assert rows_of_vcd(dump, "top", ["count"]) == rows[:1] == rows_of_vcd(dump, "top", ["c*"])
    with pytest.raises(FormatError, match="no wave of nothing.*count"):
        rows_of_vcd(dump, "top", ["nothing"])
    with pytest.raises(FormatError, match="the scopes are: top"):
        rows_of_vcd(dump, "here", [])


def test_pictures_of_1_and_of_64_waves() -> None:
    pytest.importorskip("matplotlib", reason="matplotlib is missing (Debian's package python3-matplotlib)")
    row = Row("a", (wave("a", 0, 40, (0, "x"), (10, "0"), (20, "1"), (30, "z")),))
    sizes = []
    for count in (1, 64):
        png = waves_picture([row] * count, "png")
        assert png.startswith(b"\x89PNG\r\n\x1a\n")
        sizes.append(struct.unpack(">II", png[16:24]))
    assert sizes[0][0] == sizes[1][0] and sizes[0][1] < 300 and sizes[1][1] < 3600
    for count in (0, 65):
        with pytest.raises(UsageError, match=f"there are {count} waves"):
            waves_picture([row] * count, "svg")
    with pytest.raises(UsageError, match="no time to draw"):
        waves_picture([row], "svg", start=9, stop=9)


def test_the_axis_says_what_a_unit_of_time_is(write, tmp_path, program, monkeypatch) -> None:
    pytest.importorskip("matplotlib", reason="matplotlib is missing (Debian's package python3-matplotlib)")
    monkeypatch.setenv("BACKSIM", program)
    files = [str(write("n", "INPUT(a)\n")), str(write("t", "# unit 10 ps\n")), str(write("s", "horizon 5\nset a 0 1\n"))]
    plain = [files[0], str(write("p", "")), str(write("q", "horizon 5\nset a 0 1\n"))]
    for words, said in ((files, b"<!-- time in units of 10 ps -->"), (plain, b"<!-- time -->")):
        assert main(["draw", *words, "a", "-o", str(tmp_path / "p.svg")]) == 0
        assert said in (tmp_path / "p.svg").read_bytes()


def test_the_same_svg_each_time_with_hatched_bands() -> None:
    pytest.importorskip("matplotlib", reason="matplotlib is missing (Debian's package python3-matplotlib)")
    row = Row("$a$b", (wave("$a$b", 0, 40, (0, "x"), (10, "0")),))
    one, two = (waves_picture([row], "svg", title="t$_1$", marks=[3, 7]) for _ in range(2))
    assert one == two
    root = ElementTree.fromstring(one)
    assert root.tag.endswith("svg") and any(element.tag.endswith("pattern") for element in root.iter())
