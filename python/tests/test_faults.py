"""Faults: which there are, which are one, what the command says, and that it never says more than the replies do."""
from __future__ import annotations

import csv
import os
import random
import re
import subprocess
from pathlib import Path

import pytest
from backsim import read_netlist
from backsim.errors import FormatError
from backsim.faults import asking
from backsim.faults import bundle as bundle_of
from backsim.faults.collapse import collapse
from backsim.faults.lists import read_faults, text_of
from backsim.faults.model import Fault, Lines, Site
from backsim.formats.netlist import parse_netlist
from backsim.main import main
from conftest import TOP
from forward_faults import Circuit, Simulation, made_up

C17 = [f"{TOP}/examples/c17/c17.{kind}" for kind in ("bench", "timing")]
STAND_IN = str(Path(__file__).with_name("stand_in.py"))
PATTERNS = ("00101", "10111", "01010", "00000")
FIVE = "9: 1 /1, 2 /1, 6 /1, 19 /1, 22 /1, 23 /0, 11 /0, 16 /0"


def lines_of(text: str) -> Lines:
    return Lines(parse_netlist(text.encode(), "n"))


def names(text: str) -> list[set[str]]:
    lines = lines_of(text)
    return [{text_of(fault, lines) for fault in own.members} for own in collapse(lines, lines.faults())]


@pytest.mark.parametrize("name, uncollapsed, collapsed", [("c17", 34, 22), ("s27", 52, 32)])
def test_the_counts_of_the_field(name: str, uncollapsed: int, collapsed: int) -> None:
    lines = Lines(read_netlist(f"{TOP}/examples/{name}/{name}.bench"))
    assert len(lines.faults()) == uncollapsed
    assert len(collapse(lines, lines.faults())) == collapsed


@pytest.mark.parametrize("kind, pin, output", [("AND", 0, 0), ("NAND", 0, 1), ("OR", 1, 1), ("NOR", 1, 0)])
def test_a_pin_that_decides_is_the_output(kind: str, pin: int, output: int) -> None:
    classes = names(f"INPUT(a)\nINPUT(b)\nOUTPUT(y)\ny = {kind}(a, b)\n")
    assert {f"a /{pin}", f"b /{pin}", f"y /{output}"} in classes
    assert len(classes) == 4


def test_not_and_buff_hand_both_faults_on() -> None:
    assert names("INPUT(a)\nOUTPUT(z)\ny = NOT(a)\nz = BUFF(y)\n") == [{"a /0", "y /1", "z /1"}, {"a /1", "y /0", "z /0"}]
    assert names("INPUT(a)\nOUTPUT(y)\ny = NOR(a)\n") == [{"a /0", "y /1"}, {"a /1", "y /0"}]


@pytest.mark.parametrize("kind", ["XOR", "XNOR"])
def test_exclusive_or_has_no_equivalent_faults(kind: str) -> None:
    assert len(names(f"INPUT(a)\nINPUT(b)\nOUTPUT(y)\ny = {kind}(a, b)\n")) == 6


def test_a_flip_flop_divides_classes() -> None:
    assert len(names("INPUT(a)\nOUTPUT(q)\nq = DFF(a)\n")) == 4


def test_a_loop_that_hands_a_fault_round_is_one_class() -> None:
    assert names("a = NOT(b)\nb = NOT(a)\n") == [{"a /0", "b /1"}, {"a /1", "b /0"}]
    assert names("OUTPUT(b)\na = NOT(b)\nb = NOT(a)\n") == [{"b /0", "b->a /0", "a /1"}, {"b /1", "b->a /1", "a /0"}, {"b->(output) /0"},
                                                          {"b->(output) /1"}]


def test_branches_are_those_of_what_is_read_in_several_places() -> None:
    lines = lines_of("INPUT(a)\nINPUT(b)\nOUTPUT(a)\nOUTPUT(y)\ny = AND(a, b, b)\n")
    found = [text_of(Fault(site, "0"), lines) for site in lines.sites()]
    assert found == ["a /0", "a->y /0", "a->(output) /0", "b /0", "b->y(1) /0", "b->y(2) /0", "y /0"]


def test_only_outputs_in_the_fan_out_are_asked(write, tmp_path) -> None:
    netlist = write("n", "INPUT(a)\nINPUT(b)\nOUTPUT(y)\nOUTPUT(z)\ny = NOT(a)\nq = DFF(y)\nz = AND(q, b)\nn = NOT(b)\n")
    words = ["faults", netlist, write("t", "clock 3 10\n"), write("patterns", "01\n11\n"), "--period", 10, "--stems", "--uncollapsed"]
    assert main([*map(str, words), "--write", str(tmp_path / "bundle")]) == 0
    asked: dict[str, set[str]] = {}
    for line in (tmp_path / "bundle" / "1.script").read_text().splitlines():
        if line.startswith("stuck "):
            _, site, _, output, *_ = line.split()
            asked.setdefault(site, set()).add(output)
    # a and y reach z through the flip-flop q; n reaches nothing
    assert asked == {"a": {"y", "z"}, "b": {"z"}, "y": {"y", "z"}, "z": {"z"}, "q": {"z"}}


def test_lists_come_back(tmp_path: Path) -> None:
    lines = lines_of("INPUT(a->b)\nINPUT(c)\nOUTPUT(a->b)\nOUTPUT(y)\ny = AND(a->b, c, c)\nz/1 = NOT(c)\n")
    path = tmp_path / "list"
    path.write_text("# all\n" + "".join(f"{text_of(fault, lines)}\n" for fault in lines.faults()))
    assert read_faults(path, lines) == lines.faults()
    path.write_text("z/1/0\n z/1   /1 # a comment\n")
    assert read_faults(path, lines) == [Fault(Site("z/1"), "0"), Fault(Site("z/1"), "1")]


@pytest.mark.parametrize("line, cause", [
    ("a /2", "expected a fault"), ("a", "expected a fault"), ("b /0", "the netlist has no signal b"), ("a->z /0", "the netlist has no branch"),
    ("a->y /0", "may be each of a->y(0), a->y(1)"), ("a->y(2) /0", "no branch"), ("\xff /0", "no signal")])
def test_a_list_with_a_line_at_fault_is_refused(line: str, cause: str, tmp_path: Path) -> None:
    path = tmp_path / "list"
    path.write_bytes(b"a /0\n" + line.encode("latin-1") + b"\n")
    with pytest.raises(FormatError) as error:
        read_faults(path, lines_of("INPUT(a)\nOUTPUT(y)\ny = AND(a, a)\n"))
    assert cause in str(error.value) and str(error.value).startswith(f"{path}:2: ")


@pytest.fixture
def patterns(write):
    return write("patterns.txt", "".join(f"{pattern}\n" for pattern in PATTERNS))


_PROGRESS = re.compile(rb"[0-9]+ of [0-9]+ [a-z]+, [0-9]+ s(, (some|at least) [0-9]+ s left|, [0-9]+ patterns tried)?\n")


def without_progress(run: subprocess.CompletedProcess[bytes]) -> subprocess.CompletedProcess[bytes]:
    """The run without the lines that say every ten seconds how far it is, which a machine with other work may give."""
    run.stderr = _PROGRESS.sub(b"", run.stderr)
    return run


def asked(tools, patterns: Path, *words: object, how: str = "") -> subprocess.CompletedProcess[bytes]:
    jobs = () if "--jobs" in words else ("--jobs", 1)
    return without_progress(tools("faults", *C17, patterns, "--period", 10, *words, *jobs, env={"BACKSIM": STAND_IN, "STAND_IN": how}))


# the gates of c17, written down again, and what four patterns show, without delays
GATES = {"10": "1 3", "11": "3 6", "16": "2 11", "19": "11 7", "22": "10 16", "23": "16 19"}


def outputs_of(pattern: str, line: str = "", value: str = "") -> tuple[str, str]:
    values = dict(zip("12367", pattern))

    def held(name: str, own: str) -> str:
        return value if name == line else own

    values = {name: held(name, own) for name, own in values.items()}
    for gate, pins in GATES.items():
        seen = [held(f"{pin}->{gate}", values[pin]) for pin in pins.split()]
        values[gate] = held(gate, "0" if seen == ["1", "1"] else "1")
    return values["22"], values["23"]


def test_the_table_of_c17(tools, patterns, tmp_path) -> None:
    run = asked(tools, patterns, "--csv", tmp_path / "table.csv", "--left", tmp_path / "left")
    assert (run.returncode, run.stderr) == (0, b"")
    assert run.stdout.decode().splitlines()[-5:] == [
        "not shown: 3->10 /1, 11->16 /1", "collapsed: shown 20 of 22 faults, 90.90 %", "uncollapsed: shown 32 of 34 faults, 94.11 %",
        "confirmed by the program: 20 of 20 that are shown",
        "simulation alone says of 2 that no time shows them (--prove-left FILE asks the program)"]
    assert (tmp_path / "left").read_text() == "3->10 /1\n11->16 /1\n"
    rows = list(csv.DictReader((tmp_path / "table.csv").open()))
    assert len(rows) == 34
    for row in rows:
        line, value = row["fault"].split(" /")
        shown = [str(10 * number + 9) for number, pattern in enumerate(PATTERNS)
                 if outputs_of(pattern, line, value) != outputs_of(pattern)]
        assert row["time"] == (shown[0] if shown else ""), row


def test_without_collapsing_and_without_branches(tools, patterns) -> None:
    assert asked(tools, patterns, "--uncollapsed").stdout.decode().splitlines()[-3] == "shown 32 of 34 faults, 94.11 %"
    assert asked(tools, patterns, "--stems").stdout.decode().splitlines()[-2:] == ["uncollapsed: shown 22 of 22 faults, 100.00 %",
                                                                                 "confirmed by the program: 16 of 16 that are shown"]


def test_a_list_in_and_out(tools, patterns, tmp_path) -> None:
    assert asked(tools, patterns, "--write-list", tmp_path / "all").returncode == 0
    assert len((tmp_path / "all").read_text().splitlines()) == 22
    (tmp_path / "all").write_text("3->10 /1\n1 /0\n3->10 /0\n")
    run = asked(tools, patterns, "--list", tmp_path / "all", "--shown", tmp_path / "shown")
    assert run.stdout.decode().splitlines()[:4] == ["19: 1 /0", "not shown: 3->10 /1", "collapsed: shown 1 of 2 faults, 50.00 %",
                                                    "uncollapsed: shown 2 of 3 faults, 66.66 %"]
    assert (tmp_path / "shown").read_text() == "1 /0\n3->10 /0\n"


@pytest.mark.parametrize("how, cause", [
    ("leave 1", "a reply is missing"), ("leave 5", "a reply is missing"), ("leave 12", "a reply is missing"), ("leave 24", "a reply is missing"),
    ("cut 7", "the program ended without a reply"), ("cut 20", "the program ended without a reply"), ("empty", "the program ended without a reply")])
def test_replies_that_are_missing_are_said_with_status_1(how: str, cause: str, tools, patterns) -> None:
    run = asked(tools, patterns, "--jobs", 1, how=how)
    assert run.returncode == 1
    assert run.stdout == b"" and cause in run.stderr.decode() and run.stderr.count(b"\n") == 1


def test_a_refusal_is_said(tools, patterns) -> None:
    run = asked(tools, patterns, "--jobs", 2, how="refuse 20")
    assert (run.returncode, run.stdout) == (2, b"")
    assert run.stderr.decode() == "the script: it has more than 16 MiB\n"


def test_a_budget_is_said_with_status_1(tools, patterns) -> None:
    run = asked(tools, patterns, "--jobs", 1, how="budget 9")
    assert run.returncode == 1
    assert "that are shown are not confirmed by 500000 evaluations each, so simulation alone says it" in run.stderr.decode()


@pytest.mark.parametrize("words, cause", [
    (["--times", "9", "99"], "the time 99 is after the horizon, 39"), (["--times", "nine"], "`nine` is neither a time nor FROM:TO:STEP"),
    (["--times", "9:8:1"], "has no time"), (["--times", "9:19:0"], "has no time"), (["--budget", "500001"], "from 0 to 500000"), (["--jobs", "0"], "from 1 to")])
def test_bad_words_are_refused(words: list[str], cause: str, tools, patterns) -> None:
    run = asked(tools, patterns, *words)
    assert run.returncode == 2 and cause in run.stderr.decode() and run.stderr.count(b"\n") == 1 and run.stdout == b""


@pytest.fixture
def bundle(tools, patterns, tmp_path) -> Path:
    """A folder with the replies to all its scripts."""
    folder = tmp_path / "bundle"
    assert asked(tools, patterns, "--write", folder).returncode == 0
    with open(folder / "1.script") as script, open(folder / "1.replies", "w") as replies:
        subprocess.run([STAND_IN, "netlist.bench", "timing", "stimulus", "journal"], stdin=script, stdout=replies, cwd=folder, check=True)
    return folder


def test_replies_from_elsewhere(tools, patterns, bundle) -> None:
    run = asked(tools, patterns, "--read", bundle)
    assert run.returncode == 0
    simulated = asked(tools, patterns).stdout.decode().splitlines()
    assert run.stdout.decode().splitlines() == [*simulated[:-1], "asked of the program at all times: the 2 that none shows"]


def spoilt(text: list[str], how: str) -> list[str]:
    """The lines of replies, made bad: one reply left out, the file cut, empty, or with a refusal or another line in it."""
    stuck = [place for place, line in enumerate(text) if line.startswith("stuck ")]
    if how == "left out":
        return text[:stuck[3]] + text[stuck[4]:]
    if how == "last left out":
        return text[:stuck[-1]]
    return {"cut": text[:stuck[5] + 1], "empty": [], "refused": ["refused netlist line 3 cause 1\n"],
            "refused later": text[:stuck[2]] + ["refused script too long\n"], "past": text[:stuck[2]] + ["past 22 0 99\n"] + text[stuck[3]:],
            "twice": text + text[stuck[-1]:], "two swapped": text[:stuck[0]] + text[stuck[1]:stuck[2]] + text[stuck[0]:stuck[1]] + text[stuck[2]:]}[how]


@pytest.mark.parametrize("how", ["left out", "last left out", "cut", "empty", "refused", "refused later", "past", "twice", "two swapped"])
def test_bad_replies_from_elsewhere_are_refused(how: str, tools, patterns, bundle) -> None:
    path = bundle / "1.replies"
    path.write_text("".join(spoilt(path.read_text().splitlines(keepends=True), how)))
    run = asked(tools, patterns, "--read", bundle)
    assert run.returncode in (1, 2)
    assert run.stdout == b"" and run.stderr.count(b"\n") == 1


def test_a_session_takes_no_more_than_its_limit(patterns, monkeypatch, capsys) -> None:
    """With a small limit many sessions follow one another, and the table is the same."""
    monkeypatch.setenv("BACKSIM", STAND_IN)
    words = ["faults", *C17, str(patterns), "--period", "10", "--jobs", "1"]
    assert main(words) == 0
    table = capsys.readouterr().out
    sent: list[int] = []

    class Counted(asking.Conversation):
        def __init__(self, *given: object, **options: object) -> None:
            super().__init__(*given, **options)
            sent.append(0)

        def send(self, data: bytes) -> None:
            sent[-1] += len(data)
            super().send(data)

    monkeypatch.setattr(asking, "Conversation", Counted)
    monkeypatch.setattr(asking, "_MOST_AT_ONCE", 4)
    monkeypatch.setattr(asking, "SCRIPT_LIMIT", 200)
    assert main(words) == 0
    assert capsys.readouterr().out == table
    assert len(sent) > 3 and max(sent) <= 200


def test_a_folder_has_as_many_scripts_as_it_needs(patterns, monkeypatch, capsys, tmp_path) -> None:
    monkeypatch.setattr(bundle_of, "SIZE", 400)
    folder = tmp_path / "bundle"
    words = ["faults", *C17, str(patterns), "--period", "10"]
    assert main([*words, "--write", str(folder)]) == 0
    scripts = sorted(folder.glob("*.script"), key=lambda path: int(path.stem))
    assert len(scripts) > 2 and all(path.stat().st_size <= 400 for path in scripts)
    for path in scripts:
        with open(path) as script, open(path.with_suffix(".replies"), "w") as replies:
            subprocess.run([STAND_IN, "netlist.bench", "timing", "stimulus", "journal"], stdin=script, stdout=replies, cwd=folder, check=True)
    capsys.readouterr()
    assert main([*words, "--read", str(folder)]) == 0
    assert "uncollapsed: shown 32 of 34 faults" in capsys.readouterr().out
    (folder / "2.replies").unlink()
    assert main([*words, "--read", str(folder)]) == 2
    assert capsys.readouterr().err == f"{folder / '2.replies'}: No such file or directory\n"
    assert main([*words, "--write", str(folder)]) == 2


def test_a_folder_of_one_script_is_said_to_have_one(patterns, capsys, tmp_path) -> None:
    assert main(["faults", *C17, str(patterns), "--period", "10", "--write", str(tmp_path / "bundle")]) == 0
    assert capsys.readouterr().err == f"{tmp_path / 'bundle'}: 1 script\n"


def test_replies_of_another_call_are_refused(tools, patterns, bundle) -> None:
    run = asked(tools, patterns, "--read", bundle, "--stems")
    assert run.returncode == 1 and b"another call" in run.stderr


def times_of(run: subprocess.CompletedProcess[bytes], path: Path) -> dict[str, str]:
    assert run.returncode == 0, run.stderr
    return {row["fault"]: row["time"] for row in csv.DictReader(path.open())}


def text_in_field_form(circuit: Circuit, fault) -> str:
    (name, reader, place), value = fault
    if reader is None:
        return f"{name} /{value}"
    if reader == "":
        return f"{name}->(output) /{value}"
    is_twice = circuit.gates[reader][1].count(name) > 1
    return f"{name}->{reader}{f'({place})' if is_twice else ''} /{value}"


def compare(circuit: Circuit, count: int, tools, folder: Path, program: str, *words: str, every: int = 1) -> int:
    """Compares the command with the plain simulator, of so many faults one; gives how many of these are shown."""
    rest = circuit.longest() + 2
    period = 2 * rest + 2
    draw = random.Random(count)
    patterns = ["".join(draw.choice("01x" if number == 1 and place < 2 else "01") for place in range(len(circuit.inputs))) for number in range(count)]
    expected = Simulation(circuit).first_shown(patterns)
    chosen = [text_in_field_form(circuit, fault) for fault in expected][::every]
    files = {"n": circuit.netlist(), "t": circuit.timing(rest, period), "p": "\n".join(patterns), "list": "\n".join(chosen)}
    for name, text in files.items():
        (folder / name).write_text(text)
    table = folder / "table.csv"
    found = times_of(tools("faults", *(folder / name for name in "ntp"), "--period", period, "--list", folder / "list", "--csv", table, *words,
                           env={"BACKSIM": program}), table)
    times = {text_in_field_form(circuit, fault): "" if number is None else str((number + 1) * period - 1)
             for fault, number in expected.items()}
    assert found == {fault: times[fault] for fault in chosen}
    return sum(time != "" for time in found.values())


@pytest.mark.parametrize("seed", range(2))
def test_small_circuits_against_a_forward_fault_simulation(seed: int, tools, tmp_path) -> None:
    shown = compare(made_up(seed, 4, 14, 3, 3), 5, tools, tmp_path, STAND_IN, "--jobs", "2", *(["--uncollapsed"] if seed % 2 else []))
    assert shown > 5


def of_file(name: str) -> Circuit:
    """A circuit of the examples, its lines taken apart here again."""
    ports: dict[str, list[str]] = {"INPUT": [], "OUTPUT": []}
    gates: dict[str, tuple[str, list[str]]] = {}
    for line in (TOP / "examples" / name / f"{name}.bench").read_text().splitlines():
        if found := re.fullmatch(r"(INPUT|OUTPUT)\((.*)\)", line):
            ports[found[1]].append(found[2])
        elif found := re.fullmatch(r"(\S+) = (\w+)\((.*)\)", line):
            gates[found[1]] = (found[2], found[3].split(", "))
    # flip-flops first, then each gate after what it reads
    made = {own: gate for own, gate in gates.items() if gate[0] == "DFF"}
    while len(made) < len(gates):
        made |= {own: gate for own, gate in gates.items() if own not in made and all(pin in made or pin in ports["INPUT"] for pin in gate[1])}
    return Circuit(ports["INPUT"], ports["OUTPUT"], made, dict.fromkeys(made, 1), {own: "0" for own, (kind, _) in made.items() if kind == "DFF"})


@pytest.mark.parametrize("words", [[], ["--uncollapsed"]])
@pytest.mark.parametrize("name", ["c17", "s27"])
def test_circuits_of_the_field_against_a_forward_fault_simulation(name: str, words: list[str], tools, tmp_path) -> None:
    assert compare(of_file(name), 12, tools, tmp_path, STAND_IN, *words) > 25


def test_gates_alone_against_a_forward_fault_simulation(tools, tmp_path, program) -> None:
    # every 7th of the faults of stems and branches, through more patterns than a block of the simulation has
    assert compare(made_up(4, 30, 500, 0, 20, exclusive=2), 300, tools, tmp_path, program, every=7) > 100


def test_a_thousand_gates_against_a_forward_fault_simulation(tools, tmp_path, program) -> None:
    # every 37th of the 5,000 faults, so that the test takes seconds
    assert compare(made_up(1, 32, 1000, 24, 24, exclusive=6), 4, tools, tmp_path, program, every=37) > 50


def test_the_guide_has_these_replies(tools, tmp_path, program) -> None:
    """The commands of the guide's section on a multiplier, and what the page shows of their output."""
    page = (TOP / "docs" / "use" / "GUIDE.md").read_text()
    subprocess.run([TOP / "bench" / "faults" / "circuits.py", "multiplier", "16", tmp_path], check=True)
    circuit = tmp_path / "netlist.bench", tmp_path / "timing"
    made = tools("patterns", *circuit, "--output", tmp_path / "random")
    fewer = tools("compact", *circuit, tmp_path / "random", "--period", 90, "--output", tmp_path / "few")
    table = tools("faults", *circuit, tmp_path / "few", "--period", 90, "--left", tmp_path / "left", env={"BACKSIM": program})
    assert (made.returncode, fewer.returncode, table.returncode) == (1, 0, 0)
    for said in (made.stderr, fewer.stderr):
        assert said.decode().splitlines()[-1] + "\n" in page
    assert "".join(table.stdout.decode().splitlines(keepends=True)[-5:]) in page
    # a tester's failures where g786 alone sees a 1 of g700, from simulation, since the page says which fault was there
    (tmp_path / "one").write_text("g700->g786 /1\n")
    tools("faults", *circuit, tmp_path / "few", "--period", 90, "--list", tmp_path / "one", "--dictionary", tmp_path / "all", env={"BACKSIM": program})
    rows = [f"{(int(row['time']) + 1) // 90} {row['outputs']}\n" for row in csv.DictReader((tmp_path / "all").open())]
    assert "".join(rows[:3]) in page
    (tmp_path / "failures").write_text("".join(rows))
    best = tools("diagnose", *circuit, tmp_path / "few", tmp_path / "failures", "--period", 90, "--by-pattern", "--most", 3, env={"BACKSIM": program})
    assert best.returncode == 0 and best.stdout.decode() in page


def test_a_closed_pipe_ends_quietly(patterns) -> None:
    words = f"-m backsim faults {' '.join(C17)} {patterns} --period 10 | head -1"
    environment = os.environ | {"PYTHONPATH": str(TOP / "python"), "BACKSIM": STAND_IN}
    run = subprocess.run(f"python3 {words}", shell=True, env=environment, capture_output=True)
    assert (run.stdout.decode(), run.stderr) == (f"{FIVE}\n", b"")
