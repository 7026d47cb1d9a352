"""The commands journal and names, and the judgement of journals by the table of docs/meaning/RULES.md."""
from __future__ import annotations

import io

import pytest
from backsim import FormatError
from backsim.formats.journal import Claim, Evict, Fill, Head, Spent, collect, events_of, read_events
from backsim.journal.legality import NotLegal, judge
from backsim.main import main
from conftest import TOP

JOURNAL = """journal shards 2 cells 1
batch 1
shard 0
claim 1 2 5
fill 1 2 5 5 9 1
told 1 2 7 5 9 1
evict 2 5
X
shard 1
claim 1 3 4
drop 1 3 4
spent 1 3 4 0
end
trim 2
shard 0
evict 0 3
shard 1
end
batch 3
shard 0
shard 1
end
held 4
shard 0
claim 7 0 1
fill 7 0 1 1 2 x
end
"""
LEGAL = JOURNAL.replace("evict 2 5\nX\n", "claim 1 0 3\nevict 2 5\nfill 1 0 3 3 4 0\n")


def judged(text: str) -> tuple[int, int]:
    return judge(events_of(io.BytesIO(text.encode()), "journal"), "journal")


def test_a_legal_journal() -> None:
    assert judged(LEGAL) == (12, 4)
    assert judged(LEGAL.replace("spent 1 3 4 0", "spent 1 3 4 500000")) == (12, 4)
    journal = collect(events_of(io.BytesIO(LEGAL.encode()), "journal"))
    assert (journal.shards, journal.cells) == (2, 1)
    assert [(section.kind, section.number, len(section.shards)) for section in journal.sections] == [
        ("batch", 1, 2), ("trim", 2, 2), ("batch", 3, 2), ("held", 4, 1)]
    assert journal.sections[0].shards[0][:2] == [Claim(1, 2, 5), Fill(1, 2, 5, 5, 9, "1")]
    assert journal.sections[0].shards[1][2] == Spent(1, 3, 4, 0) and journal.sections[1].shards[0] == [Evict(0, 3)]


@pytest.mark.parametrize("old, new, line, cause", [
    ("claim 1 2 5\n", "", 4, "the query has not claimed the point"), ("fill 1 2 5 5 9 1\n", "", 5, "the cell is not stored"),
    ("told 1 2 7 5 9 1", "told 1 2 9 5 9 1", 6, "the cell does not cover the point"),
    ("told 1 2 7 5 9 1", "told 1 2 7 5 9 0", 6, "the cell is not stored"), ("claim 1 2 5", "claim 1 3 5", 4, "one of another shard"),
    ("told 1 2 7 5 9 1", "claim 1 2 7", 6, "a stored cell covers the point"),
    ("claim 1 0 3\n", "claim 1 0 3\nclaim 1 0 3\n", 8, "the point is claimed"), ("evict 2 5\n", "", 8, "there is no room"),
    ("evict 2 5\n", "evict 2 6\n", 8, "not the least recent one"), ("evict 2 5\nfill 1 0 3 3 4 0", "evict 2 5", 13, "nothing fills it"),
    ("drop 1 3 4\nspent 1 3 4 0\n", "", 12, "claims are left"), ("drop 1 3 4", "drop 2 3 4", 12, "has not claimed"),
    ("fill 1 0 3 3 4 0", "told 1 0 3 3 4 0", 9, "does not fill it"), ("evict 0 3", "claim 1 0 3", 17, "a trim only evicts"),
    ("fill 7 0 1 1 2 x", "fill 7 0 1 1 2 z", 27, "z is the value of no cell"),
    ("claim 1 2 5\n", "evict 2 5\n", 4, "the shard has room"),
    ("spent 1 3 4 0", "spent 1 3 4 500001", 13, "500001 claims are more than any budget"),
])
def test_journals_that_are_not_legal(old: str, new: str, line: int, cause: str) -> None:
    assert old in LEGAL
    with pytest.raises(NotLegal, match=cause) as error:
        judged(LEGAL.replace(old, new, 1))
    assert (error.value.line, error.value.status) == (line, 1)


@pytest.mark.parametrize("text, line", [
    ("", 1), ("journal shards 2 cells\n", 1), ("journal shards 0 cells 1\n", 1), ("journal shards 2 cells 01\n", 1),
    ("journal shards 2 cells 1\n\n", 2), ("journal shards 2 cells 1\nbatch 2\n", 2), ("journal shards 2 cells 1\nheld 1\n", 2),
    ("journal shards 2 cells 1\nbatch 1\nclaim 1 2 3\n", 3), ("journal shards 2 cells 1\nbatch 1\nshard 0\nend\n", 4),
    (LEGAL.replace("claim 1 2 5", "claim 1 2"), 4), (LEGAL.replace("claim 1 2 5", "claim 1 2  5"), 4),
    (LEGAL.replace("5 9 1", "9 5 1", 1), 5), (LEGAL.replace("5 9 1", "5 9 2", 1), 5), (LEGAL.replace("5 9 1", "5 2000003 1", 1), 5),
    (LEGAL[:-1], 28), (LEGAL[:-4], 28), (LEGAL + "more\n", 29), (LEGAL.replace("\n", "\r\n"), 1)])
def test_texts_that_are_no_journal(text: str, line: int) -> None:
    with pytest.raises(FormatError) as error:
        judged(text)
    assert error.value.line == line and error.value.status == 2


def test_the_command(write, capsys) -> None:
    path = write("journal", LEGAL)
    assert main(["journal", str(path)]) == 0
    assert capsys.readouterr().out == "legal: 12 entries in 4 sections\n"
    path = write("journal", LEGAL.replace("claim 1 2 5\n", ""))
    assert main(["journal", str(path)]) == 1
    said = capsys.readouterr()
    assert (said.out, said.err) == ("", f"{path}:4: the query has not claimed the point\n")
    path = write("journal", LEGAL.replace("claim 1 2 5\n", "\n"))
    assert main(["journal", str(path)]) == 2
    assert capsys.readouterr().err.startswith(f"{path}:4: expected an entry")
    assert main(["journal", str(TOP / "examples/s27/s27.journal"), "--profile"]) == 0
    assert "evaluations" in capsys.readouterr().out


def test_a_journal_is_gone_through_line_by_line(write) -> None:
    events = read_events(write("journal", "journal shards 2 cells 1\nnonsense\n"))
    assert next(events) == (1, Head(2, 1))
    with pytest.raises(FormatError):
        next(events)


def test_names_in_place_of_numbers(write, capsys, monkeypatch) -> None:
    netlist = write("netlist", "INPUT(a)\nINPUT(b)\nOUTPUT(y)\ny = AND(a, b)\n")
    text = ("journal shards 1 cells 1\n\ntold 1 2 3 4 5 1\nclaim 1 0 2\nevict 1 3\nspent 1 2 3 4\nwhy y 3 1\ncell 1 0 4 1\n"
            "end\nat cell 3 1\n")
    named = ("journal shards 1 cells 1\n\ntold 1 y 3 4 5 1\nclaim 1 a 2\nevict b 3\nspent 1 y 3 4\nwhy y 3 1\ncell b 0 4 1\n"
             "end\nat cell 3 1\n")
    assert main(["names", str(netlist), str(write("journal", text))]) == 0
    assert capsys.readouterr().out == named

    class Source:
        buffer = io.BytesIO(text.encode())

    monkeypatch.setattr("sys.stdin", Source)
    assert main(["names", str(netlist)]) == 0
    assert capsys.readouterr().out == named


@pytest.mark.parametrize("line", ["claim 1 3 2", "claim 1 2", "cell x 1 2 0", "cell 0 1", "claim 1 99999999999 2"])
def test_numbers_of_no_signal(line: str, write, capsys) -> None:
    netlist, path = write("netlist", "INPUT(a)\nINPUT(b)\nOUTPUT(b)\n"), write("journal", f"end\n{line}\n")
    assert main(["names", str(netlist), str(path)]) == 2
    assert capsys.readouterr().err == f"{path}:2: `{line}` names no signal of the netlist, which has 2\n"
