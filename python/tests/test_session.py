"""Sessions with the program. What is expected is worked out by hand, or by the plain simulator of `stand_in`."""
from __future__ import annotations

import os
import pickle
import signal
import subprocess
import sys
import threading
from pathlib import Path
from xml.etree import ElementTree

import pytest
from backsim import (At, Budget, Dump, Fault, First, FormatError, Past, Proof, Refused, Session, SessionError, Stats, Stuck, Trimmed,
                     Unknown, UsageError, Wave, parse_netlist, read_netlist)
from backsim.errors import NoValue
from backsim.formats.proof import write_proof
from backsim.formats.script import AtLine, BadScriptLine, Go, WaveLine
from backsim.formats.stimulus import Stimulus
from backsim.formats.timing import Timing
from backsim.formats.vcd import read_vcd
from backsim.values import BadLine
from conftest import TOP
from processes import PATIENCE
from stand_in import Circuit

STAND_IN = str(Path(__file__).with_name("stand_in.py"))
COUNTER = b"""INPUT(in)
OUTPUT(count[1])
count[0] = NOT(in)
count[1] = BUFF(in)
u1.a = NOT(in)
u1.b = NOT(u1.a)
u2.a = NOT(in)
"""


def runs(circuit: Circuit, name: str, start: int, stop: int, *stuck: str) -> tuple[tuple[int, str], ...]:
    """The maximal runs of a signal, of the rows of the plain simulator."""
    rows, found = circuit.rows(*stuck), []
    for time in range(start, stop):
        if not found or rows[time][name] != found[-1][1]:
            found.append((time, rows[time][name]))
    return tuple(found)


@pytest.mark.parametrize("name", ["c17", "s27", "pulse"])
def test_answers_are_those_of_forward_simulation(name: str, example, program: str) -> None:
    files = example(name)
    circuit = Circuit(*files)
    stop = circuit.horizon + 1
    with Session(*files, program=program) as session:
        assert set(session.names()) == set(circuit.names)
        for signal in circuit.names:
            expected = runs(circuit, signal, 0, stop)
            wave = session.wave(signal, 0, stop)
            assert wave == Wave(signal, 0, stop, expected)
            for time in (0, stop // 2, stop - 1):
                value = circuit.rows()[time][signal]
                assert session.at(signal, time) == At(signal, time, value)
                assert wave.value_at(time) == value
            for value in "01xz":
                times = [start for start, found in expected if found == value]
                assert session.first(signal, value, 0, stop) == First(signal, value, 0, stop, times[0] if times else None)
            site = circuit.names[len(circuit.names) // 2]
            for value in "01":
                found = runs(circuit, signal, 0, stop, site, value)
                assert session.stuck(site, value, signal, 0, stop) == Stuck(site, value, Wave(signal, 0, stop, found))


def test_a_proof_is_taken_by_the_checker(example, program: str, checker: str, tmp_path) -> None:
    files = example("s27")
    with Session(*files, program=program) as session:
        proof = session.why("G17", 12)
    assert isinstance(proof, Proof) and (proof.name, proof.time) == ("G17", 12)
    with open(tmp_path / "proof", "w") as stream:
        write_proof(proof, stream)
    said = subprocess.run([checker, *files, tmp_path / "proof"], capture_output=True, text=True).stdout
    assert said == f"yes G17 12 {Circuit(*files).rows()[12]['G17']}\n"


def test_answers_that_are_no_value(example, program: str) -> None:
    with Session(*example("c17"), program=program) as session:
        assert session.wave("22", 0, 100) == Past("22", 0, 100)
        assert session.at("22", 99) == Past("22", 99, 100)
        unknown = session.at("222", 3)
        assert unknown == Unknown("222") and unknown.nearest[0] == "22"
        # 22 at 3 needs 10 and 16 at 2 beside itself
        assert session.at("22", 3, 0) == Budget("22", 0)
        assert session.first("22", "z", 0, 11) == First("22", "z", 0, 11, None)


def test_counts_and_dumps(example, program: str, tmp_path) -> None:
    with Session(*example("c17"), program=program, journal=tmp_path / "journal") as session:
        dumped = tmp_path / "waves.vcd"
        assert session.vcd(dumped) == Dump("none")
        assert session.stats() == Stats(0, 0, 0, 0)
        session.wave("22", 0, 11)
        # 22 is evaluated from 1 on with 10 and 16 before it, and once more from 2 on
        stats = session.stats()
        assert stats.batches == 1 and stats.evictions == 0 and stats.fills == stats.cells > 0
        assert session.vcd(dumped) == Dump("written", str(dumped), 1)
        assert session.vcd(dumped) == Dump("taken", str(dumped))
        assert session.trim(0) == Trimmed(stats.cells)
        assert session.stats() == Stats(1, stats.fills, stats.cells, 0)
    assert read_vcd(dumped).signal("top", "22")[:2] == ((0, "x"), (2, "0"))
    assert (tmp_path / "journal").read_text().startswith("journal shards 8 cells 65536\nbatch 1\n")


def test_buses_and_patterns(program: str) -> None:
    netlist = parse_netlist(COUNTER, "netlist")
    with Session(netlist, Timing(default=1), Stimulus(10, {"in": [(0, "0"), (4, "1"), (7, "x")]}), program=program) as session:
        # NOT and BUFF of the input an instant later
        assert session.wave("count[1:0]", 0, 11) == Wave("count[1:0]", 0, 11, ((0, "xx"), (1, "01"), (5, "10"), (8, "xx")))
        assert session.wave("count[0:1]", 3, 6).changes == ((3, "10"), (5, "01"))
        assert session.at("count[1:0]", 5) == At("count[1:0]", 5, "10")
        assert session.first("count[1:0]", "10", 0, 11).time == 5
        assert session.first("count[1:0]", "xx", 1, 11).time == 8
        assert session.first("count[1:0]", "11", 0, 11).time is None
        assert session.stuck("in", 1, "count[1:0]", 0, 3) == Stuck("in", "1", Wave("count[1:0]", 0, 3, ((0, "xx"), (1, "10"))))
        assert session.wave("count[2:0]", 0, 3) == Unknown("count[2]")
        assert session.names("u1.*") == ("u1.a", "u1.b")
        assert session.names("u?.a") == ("u1.a", "u2.a")
        assert session.names("count[*]") == ("count[1]", "count[0]")
        with pytest.raises(UsageError, match="is a bus"):
            session.why("count[1:0]", 5)
        with pytest.raises(UsageError, match="2 of the letters"):
            session.first("count[1:0]", "101", 0, 5)


def test_a_batch(example) -> None:
    with Session(*example("c17"), program=STAND_IN) as session:
        with session.batch() as batch:
            asked = [batch.at("22", 3), batch.wave("23", 0, 11), batch.first("22", 0, 0, 11), batch.stuck("10", 1, "22", 0, 11)]
            with pytest.raises(UsageError, match="not asked yet"):
                asked[0].result()
        circuit = Circuit(*example("c17"))
        assert [one.result() for one in asked] == batch.results
        assert asked[0].result() == At("22", 3, circuit.rows()[3]["22"])
        assert asked[1].result() == Wave("23", 0, 11, runs(circuit, "23", 0, 11))


def test_a_batch_is_sent_while_it_is_filled(example) -> None:
    """Other questions may come between, and each answer is that of its own question."""
    values = [row["22"] for row in Circuit(*example("c17")).rows()]
    with Session(*example("c17"), program=STAND_IN) as session:
        with session.batch() as batch:
            asked = []
            for place in range(1000):
                asked.append(batch.at("22", place % 11))
                if place % 300 == 299:
                    assert session.at("22", place % 11) == At("22", place % 11, values[place % 11])
        assert [one.result() for one in asked] == [At("22", place % 11, values[place % 11]) for place in range(1000)]
        with pytest.raises(ValueError, match="enough"), session.batch() as batch:
            for place in range(600):
                batch.at("23", 3)
            raise ValueError("enough")
        assert session.at("22", 5) == At("22", 5, values[5])


def test_a_batch_that_breaks_off_says_what_was_answered(example, monkeypatch) -> None:
    monkeypatch.setenv("STAND_IN", "cut 700")
    with Session(*example("c17"), program=STAND_IN) as session, pytest.raises(SessionError) as error:
        with session.batch() as batch:
            for place in range(1000):
                batch.at("22", place % 11)
    assert [(line.time, answer.time) for line, answer in error.value.answered] == [(place % 11, place % 11) for place in range(699)]


def test_a_batch_of_any_length_ends(example) -> None:
    """Neither side waits for the other, though what is asked and what is replied are more than a pipe holds."""
    count = 20_000
    lines = [WaveLine("22", 0, 11) for _ in range(count)]
    with Session(*example("c17"), program=STAND_IN) as session:
        answers = session.ask(lines)
    assert len(answers) == count and len(set(answers)) == 1


def test_a_reply_of_many_pieces_among_others(program: str) -> None:
    """y is 1 from 1 on, an instant after en is 0, and turns at each instant from 4 on, an instant after en is 1."""
    netlist = parse_netlist(b"INPUT(en)\nOUTPUT(y)\ny = NAND(en, y)\n", "netlist")
    changes = ((0, "x"), (1, "1"), *((time, "01"[time % 2]) for time in range(4, 20_001)))
    with Session(netlist, Timing(default=1), Stimulus(20_000, {"en": [(0, "0"), (3, "1")]}), program=program) as session:
        lines = [AtLine("y", 7), WaveLine("y", 0, 20_001), AtLine("y", 2), WaveLine("y", 5, 5), AtLine("y", 8)]
        assert session.ask(lines) == [At("y", 7, "1"), Wave("y", 0, 20_001, changes), At("y", 2, "1"), Wave("y", 5, 5, ()), At("y", 8, "0")]


def test_answers_come_one_by_one_and_may_be_left(example) -> None:
    with Session(*example("c17"), program=STAND_IN) as session:
        lines = [AtLine("22", time) for time in range(11)] + [Go()]
        for line, answer in session.ask_each(lines):
            assert answer.time == line.time
            if line.time == 4:
                break
        assert session.at("23", 3).name == "23"


def test_bad_lines_have_their_numbers(example, program: str) -> None:
    with Session(*example("c17"), program=program) as session:
        # the first line of the session is its own
        assert session.ask([AtLine("22", 3), BadScriptLine(text="nonsense"), AtLine("22", 4)])[1] == BadLine(3)
        assert session.ask([BadScriptLine(text="a\nb")]) == [BadLine(6)]


@pytest.mark.parametrize("ask, cause", [
    (lambda session: session.at("a b", 3), "is no name"), (lambda session: session.at("", 3), "is no name"),
    (lambda session: session.at("22", -1), "is no time"), (lambda session: session.at("22", 1.5), "is no time"),
    (lambda session: session.wave("22", 0, 5, 500_001), "is no budget"), (lambda session: session.stuck("10", "x", "22", 0, 5), "stuck at"),
    (lambda session: session.trim(70_000), "is no number of cells"), (lambda session: session.vcd("a b"), "can name this file"),
    (lambda session: session.first("22", 2, 0, 5), "is no value"), (lambda session: session.at("n" * 4100, 3), "4,100 letters"),
    (lambda session: session.stuck("n" * 4100, 0, "22", 0, 5), "4,100 letters"), (lambda session: session.vcd("/" * 4093), "can name this file")])
def test_what_no_line_can_say(example, ask, cause: str) -> None:
    with Session(*example("c17"), program=STAND_IN) as session:
        with pytest.raises(UsageError, match=cause):
            ask(session)
        # the session goes on
        assert session.at("22", 3).value == "0"


def test_the_longest_names_are_answered(example, program: str) -> None:
    longest = "n" * 2016
    with Session(*example("c17"), program=program) as session:
        assert session.stuck(longest, 0, longest, 4_294_967_294, 4_294_967_294, 500_000) == Unknown(longest)
        with pytest.raises(UsageError, match="2,017 letters"):
            session.at(f"{longest}n", 3)


def test_a_refused_netlist_is_told_in_words(example, program: str, write) -> None:
    netlist = write("bad.bench", "INPUT(a)\n# a comment\ny = MUX(a, a, a)  # here\n")
    _, timing, stimulus = example("c17")
    with pytest.raises(Refused) as error:
        Session(netlist, timing, stimulus, program=program)
    refused = error.value
    assert (refused.file, refused.path, refused.line, refused.number) == ("netlist", str(netlist), 3, 2)
    assert refused.line_text == "y = MUX(a, a, a)  # here"
    assert str(refused) == (f"{netlist}:3: the kind is none of AND, NAND, OR, NOR, XOR, XNOR, NOT, BUFF (or BUF) and DFF: "
                            "`y = MUX(a, a, a)  # here`")
    assert refused.status == 2


def test_a_stimulus_without_a_line_is_refused(example, program: str, write) -> None:
    netlist, timing, _ = example("c17")
    path = write("empty", "")
    with pytest.raises(Refused) as error:
        Session(netlist, timing, path, program=program)
    assert str(error.value) == f"{path}: the first line that isn't blank must be `horizon H`"


def test_a_missing_file_is_told_with_its_reason(example, program: str, tmp_path) -> None:
    _, timing, stimulus = example("c17")
    with pytest.raises(Fault) as error:
        Session(tmp_path / "nothing", timing, stimulus, program=program)
    assert (error.value.place, error.value.path, error.value.status) == ("netlist", str(tmp_path / "nothing"), 5)
    assert str(error.value).startswith(f"{tmp_path / 'nothing'}: ") and "No such file" in str(error.value)
    with pytest.raises(Fault) as error:
        Session(*example("c17"), program=program, journal=tmp_path / "no" / "journal")
    assert error.value.place == "journal"


def test_programs_that_are_none(example, write, monkeypatch) -> None:
    with pytest.raises(UsageError, match="no program of this name"):
        Session(*example("c17"), program="/nothing")
    path = write("program", "no program\n")
    path.chmod(0o755)
    with pytest.raises((UsageError, SessionError)):
        Session(*example("c17"), program=path)
    monkeypatch.setenv("BACKSIM", STAND_IN)
    with Session(*example("c17")) as session:
        assert session.at("22", 3).value in "01"


@pytest.mark.parametrize("how, cause", [("leave 3", "is no reply to `at 22 2`"), ("cut 3", "ended before all"), ("refuse 3", "16 MiB")])
def test_a_session_that_breaks_off_says_what_was_answered(example, monkeypatch, how: str, cause: str) -> None:
    monkeypatch.setenv("STAND_IN", how)
    lines = [AtLine("22", time) for time in range(6)]
    with Session(*example("c17"), program=STAND_IN) as session:
        with pytest.raises(SessionError, match=cause) as error:
            session.ask(lines)
        values = [row["22"] for row in Circuit(*example("c17")).rows()]
        assert error.value.answered == tuple((line, At("22", line.time, values[line.time])) for line in lines[:2])
        with pytest.raises(SessionError, match=cause):
            session.at("22", 3)


@pytest.mark.parametrize("own", [None, "glibc.malloc.arena_max=2"])
def test_large_pages_unless_the_user_says_otherwise(own: str | None, program: str, example, write, tmp_path, monkeypatch) -> None:
    if own is None:
        monkeypatch.delenv("GLIBC_TUNABLES", raising=False)
    else:
        monkeypatch.setenv("GLIBC_TUNABLES", own)
    noting = write("noting", f"#!/bin/sh\necho $GLIBC_TUNABLES > '{tmp_path}/noted'\nexec '{program}' \"$@\"\n")
    noting.chmod(0o755)
    with Session(*example("c17"), program=noting) as session:
        assert session.at("22", 3).value == "0"
    assert (tmp_path / "noted").read_text() == f"{own or 'glibc.malloc.hugetlb=1'}\n"


@pytest.mark.parametrize("place, given, cause", [
    (0, b"c17.bench", "the netlist is of the type bytes: a path or a Netlist is wanted"),
    (1, 3, "the timing is of the type int: a path or a Timing is wanted"),
    (2, None, "the stimulus is of the type NoneType: a path or a Stimulus is wanted"), (0, "a\0b", "'a\\x00b': embedded null byte")])
def test_what_is_no_file_of_a_circuit(place: int, given: object, cause: str, example) -> None:
    files: list[object] = list(example("c17"))
    files[place] = given
    with pytest.raises(UsageError) as told:
        Session(*files, program=STAND_IN)
    assert str(told.value) == cause


def test_a_session_that_was_closed(example) -> None:
    session = Session(*example("c17"), program=STAND_IN)
    session.close()
    session.close()
    with pytest.raises(UsageError, match="closed"):
        session.at("22", 3)


def test_a_netlist_that_was_read_may_be_given(example) -> None:
    netlist, timing, stimulus = example("c17")
    with Session(read_netlist(netlist), timing, stimulus, program=STAND_IN) as session:
        assert session.at("22", 3) == At("22", 3, Circuit(netlist, timing, stimulus).rows()[3]["22"])


def test_options_out_of_range(example) -> None:
    with pytest.raises(UsageError, match="65 is no number of shards: a whole number from 1 to 64"):
        Session(*example("c17"), program=STAND_IN, shards=65)


def test_the_readers_error_is_one_of_the_session_too(example, write) -> None:
    with Session(*example("c17"), program=STAND_IN) as session:
        session._files[0] = str(write("gone", "y = AND(\n"))
        assert session.at("G22", 3) == Unknown("G22")
        with pytest.raises(FormatError):
            session.names()


def test_values_of_a_wave() -> None:
    wave = Wave("a", 2, 9, ((2, "x"), (4, "1"), (8, "0")))
    assert list(wave) == [(2, 4, "x"), (4, 8, "1"), (8, 9, "0")]
    assert [wave.value_at(time) for time in range(2, 9)] == ["x", "x", "1", "1", "1", "1", "0"]
    for time in (1, 9):
        with pytest.raises(IndexError):
            wave.value_at(time)
    assert Wave("a", 5, 5, ()) == Wave("a", 5, 5, ()) != wave
    assert sys.getsizeof(wave) < 100


@pytest.mark.parametrize("ask", [
    lambda session: session.trim(50.0), lambda session: session.trim(True), lambda session: session.at("22", True),
    lambda session: session.at("22", 3.0), lambda session: session.wave("22", 0, 5, True), lambda session: session.first("22", 0, False, 5),
    lambda session: session.explain("22", True), lambda session: session.batch().at("22", 3.0)])
def test_what_is_no_whole_number_is_refused_and_the_session_stays(example, ask) -> None:
    with Session(*example("c17"), program=STAND_IN) as session:
        with pytest.raises(UsageError, match="a whole number"):
            ask(session)
        assert session.at("22", 3).value == "0"


@pytest.mark.parametrize("ask", [lambda session: session.at("\u00e9", 3), lambda session: session.stuck("\u00e9", 1, "22", 0, 5)])
def test_a_letter_outside_ascii_is_said_to_be_no_part_of_a_name(example, ask) -> None:
    with Session(*example("c17"), program=STAND_IN) as session:
        with pytest.raises(UsageError, match="^'\u00e9' is no name: .*, and no letter outside ASCII$"):
            ask(session)


def test_numbers_of_numpy(example, program) -> None:
    numpy = pytest.importorskip("numpy", reason="numpy is missing (Debian's package python3-numpy)")
    with Session(*example("c17"), program=program, shards=numpy.int64(2)) as session:
        wave = session.wave("22", numpy.int64(0), numpy.uint8(11), numpy.int32(50))
        assert session.trim(numpy.int16(500)) == Trimmed(0)
        with pytest.raises(UsageError, match="is no time"):
            session.at("22", numpy.float64(3))
        with pytest.raises(UsageError, match="True.* is no time"):
            session.at("22", numpy.bool_(True))
        with pytest.raises(UsageError, match="True.* is no budget"):
            session.at("22", 3, numpy.bool_(True))
    assert wave == Wave("22", 0, 11, ((0, "x"), (2, "0"))) and len(wave) == 2 and list(wave) == [(0, 2, "x"), (2, 11, "0")]
    runs = wave.to_numpy()
    assert runs["start"].tolist() == [0, 2] and runs["stop"].tolist() == [2, 11] and runs["value"].tolist() == ["x", "0"]


def test_a_table_of_pandas() -> None:
    pytest.importorskip("pandas", reason="pandas is missing (Debian's package python3-pandas)")
    table = Wave("b[1:0]", 0, 9, ((0, "x1"), (4, "10"))).to_pandas()
    assert table["value"].tolist() == ["x1", "10"] and table["number"].isna().tolist() == [True, False] and table["number"][1] == 2
    assert Wave("b", 0, 9, ((0, "1" * 70),)).to_pandas()["number"][0] == 2 ** 70 - 1


def test_notebooks_show_waves() -> None:
    wave = Wave("b<c>", 0, 9, ((0, "x"), (4, "1"), (6, "z")))
    root = ElementTree.fromstring(wave._repr_svg_())
    assert {child.tag.rpartition("}")[2] for child in root} >= {"polygon", "polyline", "text"} and "b<c>" in "".join(root.itertext())
    assert "<td>4</td><td>6</td><td>1</td>" in wave._repr_html_() and "b<c>" not in wave._repr_html_()
    assert "<svg" in Wave("b", 3, 3, ())._repr_html_() and "stuck at 1" in Stuck("s", "1", wave)._repr_html_()


def test_what_has_no_value_says_why(example, program) -> None:
    with Session(*example("c17"), program=program) as session:
        answers = session.at("G22", 3), session.at("22", 99)
    for answer, said in zip(answers, ("the netlist has no signal G22; near it: 22", "the time 99 was asked, which is after the horizon")):
        for use in (lambda: answer.value, lambda: answer.changes, lambda: list(answer)):
            with pytest.raises(NoValue, match=said):
                use()
        assert not hasattr(answer, "value") and pickle.loads(pickle.dumps(answer)) == answer
    with pytest.raises(AttributeError, match="3 evaluations did not suffice for 22"):
        Budget("22", 3).value


def test_threads_share_a_session(example) -> None:
    """Each thread gets its own answers, whatever the others ask."""
    files = example("c17")
    rows = Circuit(*files).rows()
    wrong: list[object] = []

    def ask(session: Session, seed: int) -> None:
        for place in range(40):
            time = (seed + place) % 11
            with session.batch() as batch:
                asked = [batch.at(name, time) for name in ("22", "23", "10")]
            answers = [session.at("16", time), *(one.result() for one in asked)]
            wrong.extend(answer for answer in answers if answer.value != rows[time][answer.name])

    with Session(*files, program=STAND_IN) as session:
        threads = [threading.Thread(target=ask, args=(session, seed)) for seed in range(6)]
        for thread in threads:
            thread.start()
        for thread in threads:
            thread.join(PATIENCE)
        assert not any(thread.is_alive() for thread in threads) and not wrong


@pytest.mark.parametrize("ends", ["term", "kill", "exit", "close"])
def test_no_folder_stays_behind(example, program, tmp_path, ends: str) -> None:
    """A session that nobody closes, over a netlist that was read, in a process that ends by itself or by a signal."""
    text = ("import sys\nfrom backsim import Session, read_netlist\n"
            f"session = Session(read_netlist({example('c17')[0]!r}), *{example('c17')[1:]!r}, program={program!r})\n"
            "print(session.at('22', 3).value, open(session.journal).readline().split()[0], flush=True)\n"
            + ("session.close()\n" if ends == "close" else "sys.stdin.readline()\n"))
    environment = os.environ | {"PYTHONPATH": str(TOP / "python"), "TMPDIR": str(tmp_path)}
    process = subprocess.Popen([sys.executable, "-c", text], env=environment, stdin=subprocess.PIPE, stdout=subprocess.PIPE)
    assert process.stdin and process.stdout and process.stdout.readline() == b"0 journal\n"
    if ends in ("term", "kill"):
        process.send_signal(signal.SIGTERM if ends == "term" else signal.SIGKILL)
    process.communicate(b"\n", timeout=PATIENCE)
    assert list(tmp_path.iterdir()) == []
