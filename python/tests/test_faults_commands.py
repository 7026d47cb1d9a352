"""The commands around fault coverage: which faults explain failures, fewer patterns, and patterns that show faults."""
from __future__ import annotations

import os
import random
import re
import signal
import subprocess
import sys

import pytest
from backsim.command_line import bars
from backsim.main import main
from conftest import TOP
from forward_faults import Simulation, made_up
from processes import PATIENCE, ticks_of, wait_while_running
from test_faults import C17, PATTERNS, STAND_IN, outputs_of, without_progress
from test_faults_search import LINES

S27 = [f"{TOP}/examples/s27/s27.{kind}" for kind in ("bench", "timing")]


@pytest.fixture
def patterns(write):
    return write("patterns.txt", "".join(f"{pattern}\n" for pattern in PATTERNS))


def failures_of(line: str, value: str) -> dict[int, list[str]]:
    """Which outputs of c17 fail with which pattern, counted from 1, where the line is stuck."""
    found = {}
    for number, pattern in enumerate(PATTERNS, 1):
        triples = zip(("22", "23"), outputs_of(pattern, line, value), outputs_of(pattern))
        wrong = [name for name, bad, good in triples if bad != good]
        if wrong:
            found[number] = wrong
    return found


@pytest.mark.parametrize("line, value", [("16->23", "1"), ("11", "0"), ("3", "1"), ("22", "0")])
def test_the_fault_that_was_there_is_among_the_best(line: str, value: str, tools, patterns, write) -> None:
    failed = failures_of(line, value)
    path = write("failures", "# what the tester saw\n" + "".join(f"{number} {' '.join(names)}\n" for number, names in failed.items()))
    run = tools("diagnose", *C17, patterns, path, "--period", 10, "--by-pattern", "--most", 30, env={"BACKSIM": STAND_IN})
    assert run.returncode == 0, run.stderr
    rows = run.stdout.decode().splitlines()
    total = sum(map(len, failed.values()))
    # the faults whose failures are the same, worked out one by one
    same = {f"{other} /{stuck}" for other in LINES for stuck in "01" if failures_of(other, stuck) == failed}
    best = {name for row in rows if f"explains {total} of {total} failures (100.00 %), gives 0 others" in row
            for name in [row.split(". ")[1].split(":")[0], *row.partition("equivalent: ")[2].split(", ")] if name}
    assert best == same
    assert all("confirmed by the program" in row for row in rows)


def test_two_faults_at_once_are_explained_in_part(tools, patterns, write) -> None:
    path = write("failures", "9 23\n19 22\n")
    run = tools("diagnose", *C17, patterns, path, "--period", 10, "--most", 2, env={"BACKSIM": STAND_IN})
    assert run.returncode == 1
    assert [row.split(": ")[1].split(",")[0] for row in run.stdout.decode().splitlines()] == ["explains 1 of 2 failures (50.00 %)"] * 2
    assert b"more that explain a failure (--most)" in run.stderr


@pytest.mark.parametrize("text, cause", [
    ("9\n", "1: expected a number and the outputs that failed"), ("nine 22\n", "1: expected a number"), ("\n5 22\n", "2: the tester does not look at 5"),
    ("9 24\n", "1: the netlist has no output 24"), ("9 10\n", "1: the netlist has no output 10"), ("# none\n", " there is no failure in the file")])
def test_bad_failures_are_refused(text: str, cause: str, tools, patterns, write) -> None:
    path = write("failures", text)
    run = tools("diagnose", *C17, patterns, path, "--period", 10, env={"BACKSIM": STAND_IN})
    assert (run.returncode, run.stdout) == (2, b"")
    assert run.stderr.decode().startswith(f"{path}:{cause}") and run.stderr.count(b"\n") == 1


def test_fewer_patterns_show_the_same_faults(tools, tmp_path) -> None:
    circuit = made_up(5, 12, 120, 0, 12)
    draw = random.Random(5)
    words = ["".join(draw.choice("01") for _ in circuit.inputs) for _ in range(60)]
    for name, text in {"n": circuit.netlist(), "t": circuit.timing(1, 1), "p": "".join(f"{word}\n" for word in words)}.items():
        (tmp_path / name).write_text(text)
    run = without_progress(tools("compact", *(tmp_path / name for name in "ntp"), "--period", 100, "--output", tmp_path / "fewer"))
    assert (run.returncode, run.stdout) == (0, b"")
    fewer = (tmp_path / "fewer").read_text().split()
    assert len(fewer) < 30 and run.stderr.decode().startswith(f"{len(fewer)} of 60 patterns are left")

    def shown(some: list[str]) -> set[object]:
        return {fault for fault, first in Simulation(circuit).first_shown(some).items() if first is not None}

    every = shown(words)
    assert shown(fewer) == every
    # none of them is needless
    assert all(shown(fewer[:place] + fewer[place + 1:]) != every for place in range(len(fewer)))


def test_random_patterns_reach_a_coverage(tools, tmp_path) -> None:
    run = tools("patterns", *C17, "--output", tmp_path / "all")
    words = (tmp_path / "all").read_text().split()
    assert (run.returncode, run.stdout) == (0, b"")
    assert all(any(outputs_of(word, line, value) != outputs_of(word) for word in words) for line in LINES for value in "01")
    run = tools("patterns", *C17, "--output", tmp_path / "few", "--coverage", 50, "--seed", 4)
    assert run.returncode == 0 and 0 < len((tmp_path / "few").read_text().split()) < len(words)


def test_a_random_sequence_for_flip_flops(tools, tmp_path) -> None:
    circuit = made_up(1, 8, 60, 6, 8, exclusive=6)
    rest = circuit.longest() + 2
    period = 2 * rest + 2
    (tmp_path / "n").write_text(circuit.netlist())
    (tmp_path / "t").write_text(circuit.timing(rest, period))
    run = tools("patterns", tmp_path / "n", tmp_path / "t", "--period", period, "--idle", 100, "--output", tmp_path / "p", "--uncollapsed")
    words = (tmp_path / "p").read_text().split()
    first = Simulation(circuit).first_shown(words)
    shown = sum(number is not None for number in first.values())
    said = run.stderr.decode().splitlines()[-1]
    assert said.startswith(f"{len(words)} patterns of ") and f" show {shown} of {len(first)} faults" in said
    assert shown > len(first) // 3 and len(words) - 1 in first.values()


def test_a_search_tells_what_it_has_tried(write, tmp_path, monkeypatch, capsys) -> None:
    """How many faults are shown says nothing of the time left: here 5 of 8 are at once, and no pattern shows the others."""
    monkeypatch.setattr(bars, "_SECONDS_OF_LINES", 0.02)
    words = [write("n", "INPUT(a)\nINPUT(b)\nOUTPUT(y)\nc = NOT(a)\nd = AND(a, c)\ny = OR(d, b)\n"), write("t", ""), "-o", tmp_path / "p"]
    assert main(["patterns", *map(str, words), "--idle", "200000", "--most", "200000"]) == 1
    *told, last = capsys.readouterr().err.splitlines()
    tried = [re.fullmatch("[05] of 8 shown, [0-9]+ s, ([0-9]+) patterns tried", line) for line in told]
    assert tried and all(tried) and last == f"{len((tmp_path / 'p').read_text().split())} patterns of 200000 show 5 of 8 faults, 62.50 %"


def test_a_sequence_ends_by_the_last_time_that_there_is(tools, write) -> None:
    netlist = write("n", "INPUT(a)\nOUTPUT(q)\nq = DFF(a)\n")
    # 25 patterns of 40000 end by 1000000, and both values of a show all 4 faults, since a flip-flop makes none one
    run = tools("patterns", netlist, write("t", "clock 20000 40000\n"), "--period", 40000)
    assert run.returncode == 0 and 2 <= run.stdout.count(b"\n") <= 25
    assert run.stderr.decode().splitlines()[-1].endswith(" of 25 show 4 of 4 faults, 100.00 %")
    # one ends by then, and its value of a shows 2
    run = tools("patterns", netlist, write("t", "clock 700000 400000\n"), "--period", 400000, "--first", 600000)
    assert run.returncode == 1 and run.stdout in (b"0\n", b"1\n")
    assert run.stderr.decode().splitlines()[-2:] == [
        "1 pattern of 1 shows 2 of 4 faults, 50.00 %",
        "no further pattern ends by 1000000, the last time that there is, so none was tried: take a shorter period"]


@pytest.mark.parametrize("number", [signal.SIGINT, signal.SIGTERM])
def test_patterns_of_an_interrupted_search_are_kept_and_marked(number, tools, tmp_path) -> None:
    # what no pattern can show keeps the search going
    (tmp_path / "n").write_text("INPUT(a)\nINPUT(b)\nOUTPUT(y)\nc = NOT(a)\nd = AND(a, c)\ny = OR(d, b)\n")
    (tmp_path / "t").write_text("default 1\n")
    words = ["patterns", *map(str, (tmp_path / "n", tmp_path / "t")), "--output", str(tmp_path / "p"), "--idle", "10000000", "--most", "10000000"]
    running = subprocess.Popen([sys.executable, "-m", "backsim", *words], env=os.environ | {"PYTHONPATH": str(TOP / "python")},
                               stdout=subprocess.PIPE, stderr=subprocess.PIPE, text=True)
    # of this processor time what comes before the search takes a part
    wait_while_running(running, lambda: ticks_of(running.pid) >= 200, "the search goes on")
    running.send_signal(number)
    out, err = running.communicate(timeout=PATIENCE)
    assert (running.returncode, out) == (130, "") and "Traceback" not in err and " faults, " in err.splitlines()[-1]
    first, *kept = (tmp_path / "p").read_text().splitlines()
    assert first == "# partial: the command was interrupted"
    assert kept and all(len(word) == 2 and set(word) <= {"0", "1"} for word in kept)
    run = tools("faults", tmp_path / "n", tmp_path / "t", tmp_path / "p", "--period", 10, env={"BACKSIM": STAND_IN})
    assert (run.returncode, run.stdout) == (2, b"")
    assert run.stderr.decode().startswith(f"{tmp_path / 'p'}:1: an interrupted command left this file") and run.stderr.count(b"\n") == 1
    (tmp_path / "p").write_text("".join(f"{word}\n" for word in kept))
    assert tools("faults", tmp_path / "n", tmp_path / "t", tmp_path / "p", "--period", 10, env={"BACKSIM": STAND_IN}).returncode == 0


@pytest.mark.parametrize("words, cause", [
    (["patterns", *S27, "--period", "2", "--first", "1000000"], "no pattern of --period 2 from --first 1000000 on ends by 1000000"),
    (["patterns", *S27], "with flip-flops --period P is wanted"), (["patterns", *C17, "--first", "5"], "c17.bench: without flip-flops patterns have no times"),
    (["patterns", *C17, "--period", "5"], "so --period and --first would do nothing"), (["patterns", *C17, "--coverage", "101"], "from 1 to 100"),
    (["compact", *S27, "s27.p", "--period", "20"], "the circuit has flip-flops"),
    (["compact", *C17, "c17.p", "--period", "10", "--times", "9"], "backsim-tools compact: patterns and the usual looks are wanted"),
    (["compact", *C17, "c17.p"], "backsim-tools compact: patterns want --period P, "),
    (["patterns", *C17, "--list", "slow"], "the list has transition faults")])
def test_words_that_do_not_fit_are_refused(words: list[str], cause: str, tools, tmp_path) -> None:
    (tmp_path / "s27.p").write_text("0000\n")
    (tmp_path / "c17.p").write_text("00000\n")
    (tmp_path / "slow").write_text("1 /str\n")
    run = tools(*words, "--output", tmp_path / "made", cwd=tmp_path)
    assert (run.returncode, run.stdout) == (2, b"")
    assert cause in run.stderr.decode() and run.stderr.count(b"\n") == 1 and not (tmp_path / "made").exists()
