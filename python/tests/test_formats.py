"""The readers, on the sessions of tests/sessions/: they refuse what the program is to refuse, at the same line for the same cause, and
read everything else; and what a writer writes is read back."""
from __future__ import annotations

import io
import re

import pytest
from backsim import FormatError
from backsim.formats import causes
from backsim.formats.journal import collect, events_of
from backsim.formats.netlist import parse_netlist, write_netlist
from backsim.formats.proof import CellLines, parse_proof, write_proof
from backsim.formats.replies import pairs, read_replies
from backsim.formats.script import Go, parse_script, units, write_script
from backsim.formats.stimulus import check_stimulus, parse_stimulus, write_stimulus
from backsim.formats.timing import check_timing, parse_timing, write_timing
from backsim.formats.vcd import read_vcd
from backsim.journal.legality import judge
from backsim.scripts.parts import read_lines
from sessions import sessions

SESSIONS = sessions()
REFUSED = re.compile(rb"refused (netlist|timing|stimulus) line ([0-9]+) cause ([0-9]+)\n")


def read_all(texts: dict[str, bytes]) -> None:
    """Reads the three files as the program does, each whole before the next, and then joins them."""
    netlist = parse_netlist(texts.get("netlist", b""), "netlist")
    timing = parse_timing(texts.get("timing", b""), "timing")
    stimulus = parse_stimulus(texts.get("stimulus", b""), "stimulus")
    check_timing(timing, netlist, "timing")
    check_stimulus(stimulus, netlist, "stimulus")


@pytest.mark.parametrize("name", SESSIONS)
def test_files_are_refused_as_the_program_refuses_them(name: str) -> None:
    texts = SESSIONS[name]
    refusal = REFUSED.fullmatch(texts.get("replies", b""))
    if refusal is None:
        if int(texts.get("status", b"0")) == 0:
            read_all(texts)
        return
    file, line, cause = refusal[1].decode(), int(refusal[2]), int(refusal[3])
    with pytest.raises(FormatError) as error:
        read_all(texts)
    assert error.value.path == file
    assert error.value.line == (line or None)
    assert error.value.cause.startswith(causes.in_words(file, cause))


@pytest.mark.parametrize("name", [name for name, texts in SESSIONS.items() if texts.get("status", b"0").strip() == b"0"])
def test_replies_are_paired_with_their_lines(name: str) -> None:
    texts = SESSIONS[name]
    lines = list(parse_script(texts.get("script", b"")))
    replies = texts.get("replies", b"")
    found = list(pairs(lines, read_replies(io.BytesIO(replies))))
    assert [line for line, _ in found] == [line for line in lines if not isinstance(line, Go)]
    assert b"".join(reply.text for _, reply in found) == replies


@pytest.mark.parametrize("name", [name for name, texts in SESSIONS.items() if "journal" in texts])
def test_journals_are_read_and_legal(name: str) -> None:
    text = SESSIONS[name]["journal"]
    journal = collect(events_of(io.BytesIO(text), "journal"))
    entries = sum(len(shard) for section in journal.sections for shard in section.shards)
    assert judge(events_of(io.BytesIO(text), "journal"), "journal") == (entries, len(journal.sections))
    words = {b"told", b"claim", b"fill", b"evict", b"drop", b"spent"}
    assert entries == sum(line.split(b" ")[0] in words for line in text.splitlines())


@pytest.mark.parametrize("name, file", [(name, file) for name, texts in SESSIONS.items() for file in texts if file.startswith("dump ")])
def test_dumps_are_read(name: str, file: str, write) -> None:
    text = SESSIONS[name][file]
    dump = read_vcd(write("dump", text))
    assert dump.scopes == ["top"]
    assert len(dump.variables) == text.count(b"$var ")


@pytest.mark.parametrize("name", [name for name, texts in SESSIONS.items() if texts.get("status", b"0").strip() == b"0"])
def test_what_is_written_is_read_back(name: str) -> None:
    texts = SESSIONS[name]
    netlist = parse_netlist(texts.get("netlist", b""), "netlist")
    again = parse_netlist(_written(write_netlist, netlist), "netlist")
    assert again.inputs == netlist.inputs and again.outputs == netlist.outputs
    assert {gate.name: (gate.kind, gate.pins) for gate in again.gates.values()} == {
        gate.name: (gate.kind, gate.pins) for gate in netlist.gates.values()}
    timing = parse_timing(texts.get("timing", b""), "timing")
    assert parse_timing(_written(write_timing, timing), "timing") == timing
    stimulus = parse_stimulus(texts.get("stimulus", b""), "stimulus")
    assert parse_stimulus(_written(write_stimulus, stimulus), "stimulus") == stimulus
    lines = list(parse_script(texts.get("script", b"")))
    assert [str(line) for line in parse_script(_written(write_script, lines))] == [str(line) for line in lines]


def _written(writer, what) -> bytes:
    stream = io.StringIO()
    writer(what, stream)
    return stream.getvalue().encode("latin-1")


def test_batches_end_where_the_page_says() -> None:
    """Of docs/use/FORMATS.md, Units: at the 64th item, where budgets come to more than 1,000,000 or lengths to more than 4,000,000."""
    many = "".join(f"at a {time}\n" for time in range(64)) + "at a 64\n"
    # 64 budgets of 50,000 are 3,200,000: a batch has 20 of them
    assert [len(unit) for unit in units(parse_script(many.encode()), 100)] == [20, 20, 20, 5]
    small = "".join(f"at a {time} 1\n" for time in range(65))
    assert [len(unit) for unit in units(parse_script(small.encode()), 100)] == [64, 1]
    long = b"wave a 0 1000001 1\n" * 5
    assert [len(unit) for unit in units(parse_script(long), 1_000_000)] == [3, 2]
    # a window past the horizon has no length
    assert [len(unit) for unit in units(parse_script(long), 999_999)] == [5]
    single = b"at a 1\nat b 1\nfirst a 1 0 5\nat a 2\ngo\nat a 3\nstats\nbad\n"
    assert [[str(line) for line in unit] for unit in units(parse_script(single), 100)] == [
        ["at a 1", "at b 1"], ["first a 1 0 5"], ["at a 2"], ["at a 3"], ["stats"], ["bad"]]


def test_a_script_is_told_from_other_files_by_its_words() -> None:
    """Its first line, or most of its lines, begin with the word of a line."""
    for text in (b"trim 5\n", b"go\nINPUT(a)\nINPUT(b)\n", b"INPUT(a)\nvcd f\nstats\n", b""):
        assert len(read_lines(io.BytesIO(text), "script")) == text.count(b"\n")
    with pytest.raises(FormatError, match="this is no script: `INPUT.a.` and most other lines are no question"):
        read_lines(io.BytesIO(b"INPUT(a)\nvcd f\n"), "script")


@pytest.mark.parametrize("text, line", [
    (b"", 1), (b"why a 3 1", 1), (b"at a 3 1\n", 1), (b"why a 3 1\n", 2), (b"why a 3 1\ncell 0 1 2\nend\n", 2),
    (b"why a 3 1\ncell 00 1 2 1\nend\n", 2), (b"why a 3 1\ncell 0 1 2 1\n", 3), (b"why a 3 1\nend\nend\n", 3), (b"why a 3 1\nend", 2)])
def test_texts_that_are_no_proof(text: bytes, line: int) -> None:
    with pytest.raises(FormatError) as error:
        parse_proof(text, "proof")
    assert error.value.line == line


def test_a_proof_is_written_as_it_was_read() -> None:
    text = b"why a 3 1\ncell 0 1 4 0\ncell 7 2 5 x\nend\n"
    assert _written(write_proof, parse_proof(text, "proof")) == text


def test_lines_that_proofs_have_in_common_are_one_cell() -> None:
    lines = CellLines()
    first, second = lines.cells_of(b"cell 0 1 2 x\ncell 3 1 4294967295 1\n"), lines.cells_of(b"cell 3 1 4294967295 1\n")
    assert first == parse_proof(b"why a 1 1\ncell 0 1 2 x\ncell 3 1 4294967295 1\nend\n", "proof").cells
    assert first is not None and second is not None and first[1] is second[0] and lines.cells_of(b"") == ()
    for bad in (b"cell 0 1 2 x", b"cell 0 1 2 X\n", b"cell 00 1 2 x\n", b"cell 0 1 4294967296 x\n", b"cell 0 1 2 x \n", b"\n", b"cell 0 1 2 x\nend\n"):
        assert lines.cells_of(bad) is None
