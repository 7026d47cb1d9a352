"""What finding by simulation and confirming by the program say of one another, and what is left of work that is interrupted."""
from __future__ import annotations

import csv
import os
import random
import re
import signal
import subprocess
import sys
from pathlib import Path
from types import ModuleType

import pytest
from backsim.commands import faults as faults_command
from backsim.faults import confirming, late, portions
from backsim.faults.forecast import Forecast
from backsim.faults.plan import Plan
from backsim.main import main
from conftest import TOP
from forward_faults import made_up
from processes import PATIENCE, children_of, is_there, ticks_of, wait_while_running
from test_faults import C17, GATES, PATTERNS, STAND_IN, outputs_of, without_progress

LINES = ["1", "2", "3", "3->10", "3->11", "6", "7", "10", "11", "11->16", "11->19", "16", "16->22", "16->23", "19", "22", "23"]
CHAIN = "INPUT(a)\nOUTPUT(y)\nb = NOT(a)\nc = NOT(b)\nd = NOT(c)\ny = NOT(d)\n"


@pytest.fixture
def patterns(write):
    return write("patterns.txt", "".join(f"{pattern}\n" for pattern in PATTERNS))


def faults(tools, *words: object, program: str = STAND_IN):
    return without_progress(tools("faults", *words, "--jobs", "1", env={"BACKSIM": program}))


def value_of(line: str, pattern: str) -> str:
    """The value of a line of c17 without a fault."""
    values = dict(zip("12367", pattern))
    for gate, pins in GATES.items():
        values[gate] = "0" if all(values[pin] == "1" for pin in pins.split()) else "1"
    return values[line.split("->")[0]]


def test_a_slow_line_is_shown_where_it_should_have_changed(tools, patterns, tmp_path) -> None:
    run = faults(tools, *C17, patterns, "--period", 10, "--transition", "--csv", tmp_path / "table")
    assert (run.returncode, run.stderr) == (0, b"")
    rows = {row["fault"]: row for row in csv.DictReader((tmp_path / "table").open())}
    expected = {}
    for line in LINES:
        for word, held in (("str", "0"), ("stf", "1")):
            shown = [number for number in range(1, len(PATTERNS)) if value_of(line, PATTERNS[number - 1]) == held
                     and outputs_of(PATTERNS[number], line, held) != outputs_of(PATTERNS[number])]
            expected[f"{line} /{word}"] = str(10 * shown[0] + 9) if shown else ""
    assert {fault: row["time"] for fault, row in rows.items()} == expected
    assert all((row["confirmed"] == "yes") == (row["time"] != "") for row in rows.values())


def test_a_dictionary_has_each_time_and_output(tools, patterns, tmp_path) -> None:
    run = faults(tools, *C17, patterns, "--period", 10, "--uncollapsed", "--dictionary", tmp_path / "all")
    assert (run.returncode, run.stderr) == (0, b"")
    found = {(row["fault"], row["time"]): row["outputs"] for row in csv.DictReader((tmp_path / "all").open())}
    expected = {}
    for line in LINES:
        for value in "01":
            for number, pattern in enumerate(PATTERNS):
                pairs = zip(("22", "23"), outputs_of(pattern, line, value), outputs_of(pattern))
                wrong = " ".join(name for name, bad, good in pairs if bad != good)
                if wrong:
                    expected[f"{line} /{value}", str(10 * number + 9)] = wrong
    assert found == expected


def test_faults_that_several_times_show_are_counted(tools, patterns, tmp_path) -> None:
    run = faults(tools, *C17, patterns, "--period", 10, "--uncollapsed", "--drop", 2, "--csv", tmp_path / "table")
    counts = {f"{line} /{value}": sum(outputs_of(pattern, line, value) != outputs_of(pattern) for pattern in PATTERNS)
              for line in LINES for value in "01"}
    assert {row["fault"]: row["times"] for row in csv.DictReader((tmp_path / "table").open())} == {
        fault: str(min(2, count)) for fault, count in counts.items()}
    often = sum(count >= 2 for count in counts.values())
    assert f"shown at 2 times or more: {often} of 34 faults" in run.stdout.decode()


def test_what_has_not_settled_is_said_and_asked_again(tools, write) -> None:
    # y follows a by 4 units, and the tester looks after 2: what pattern k shows is seen with pattern k + 1 or not at all
    files = write("n", CHAIN), write("t", "default 1\n"), write("p", "0\n1\n1\n")
    run = faults(tools, *files, "--period", 3)
    assert run.returncode == 0
    first, second = run.stderr.decode().splitlines()
    assert first == "outputs may not have settled at 2 of 3 looks: the longest path to them is 4, and a look comes 2 after a change"
    assert second == "the program does not confirm 2 of 2; each of these is asked for at all times"
    # at 2 y is x; at 5 it is 0, after the pattern 0; at 8 it is 1
    assert run.stdout.decode().splitlines()[:2] == ["5: y /1", "8: y /0"]


def test_who_simulates_says_what_has_not_settled(tools, write) -> None:
    """The chain of the test above, by the commands that choose patterns and explain failures."""
    files = write("n", CHAIN), write("t", "default 1\n"), write("p", "0\n1\n1\n")
    said = "outputs may not have settled at 2 of 3 looks: the longest path to them is 4, and a look comes 2 after a change"
    for command in (["compact", *files], ["diagnose", *files, write("failures", "2 y\n"), "--by-pattern"]):
        assert tools(*command, "--period", 3).stderr.decode().splitlines().count(said) == 1
        assert said not in tools(*command, "--period", 5).stderr.decode()


def test_a_clock_that_from_sdf_shifted_is_the_one_that_it_comes_of(tools, write) -> None:
    """q takes a at 10, 20 and 30, and shows it 4 later; r takes 3 after these edges what q had before them. So r is 0 at 19, 1 at 29, where a
    was 1 at 10, and 0 at 39."""
    files = (write("n", "INPUT(a)\nOUTPUT(r)\nq = DFF(a)\nr = DFF(q)\n"),
             write("t", "version 2\nclock clk 10 10\nclock clk+3 13 10\nclocked q clk\nclocked r clk+3\ndelay q 4\ninit q 0\ninit r 0\n"),
             write("s", "horizon 40\nset a 0 1\nset a 15 0\n"))
    run = faults(tools, *files, "--times", "19:39:10")
    assert (run.returncode, run.stderr) == (0, b"")
    lines = run.stdout.decode().splitlines()
    assert [sorted(line.replace(":", ",").split(", ")) for line in lines[:3]] == [["19", "q /1", "r /1"], ["29", "a /0", "q /0", "r /0"], ["39", "a /1"]]
    assert "confirmed by the program: 6 of 6 that are shown" in lines


def test_what_simulation_does_not_show_is_asked_of_the_program(tools, write, tmp_path) -> None:
    # settled, y is never 1; but at each change of a it is, for two units, and then the tester looks
    netlist = "INPUT(a)\nOUTPUT(y)\nb = NOT(a)\nc = BUFF(b)\ny = AND(a, c)\n"
    files = write("n", netlist), write("t", "default 1\n"), write("s", "horizon 40\nset a 0 0\nset a 20 1\n")
    words = *files, "--times", 22, "--list", write("list", "y /0\n")
    run = faults(tools, *words)
    assert run.stdout.decode().splitlines()[-1] == "simulation alone says of 1 that no time shows them (--prove-left FILE asks the program)"
    run = faults(tools, *words, "--prove-left", tmp_path / "kept")
    assert run.returncode == 0
    assert run.stderr.decode().splitlines()[-1] == "the program shows 1 that simulation does not"
    assert run.stdout.decode().splitlines()[0] == "22: y /0"
    assert (tmp_path / "kept").read_text().splitlines()[1:] == ["y /0\tshown 22 y"]


def test_proofs_are_taken_up_where_they_were(tools, patterns, tmp_path) -> None:
    kept = tmp_path / "kept"
    words = *C17, patterns, "--period", 10, "--prove-left", kept
    whole = faults(tools, *words)
    assert whole.stdout.decode().splitlines()[-1] == "asked of the program at all times: the 2 that none shows"
    text = kept.read_text()
    assert sorted(text.splitlines()[1:]) == ["11->16 /1\tnot shown", "3->10 /1\tnot shown"]
    # one line is there, and one was cut while it was written
    kept.write_text("".join(text.splitlines(keepends=True)[:2]) + "3->1")
    again = faults(tools, *words)
    assert (again.returncode, again.stdout) == (0, whole.stdout)
    assert sorted(kept.read_text().splitlines()) == sorted(text.splitlines())
    # a file of other faults or times is refused, and stays
    other = faults(tools, *C17, patterns, "--period", 20, "--prove-left", kept)
    assert other.returncode == 2 and other.stderr.decode().startswith(f"{kept}:1: ") and other.stdout == b""
    kept.write_text(text.replace("not shown", "shown 99 22"))
    bad = faults(tools, *words)
    assert bad.returncode == 2 and bad.stderr.decode().startswith(f"{kept}:2: ") and bad.stderr.count(b"\n") == 1


def test_portions_with_few_branches_say_the_same(patterns, monkeypatch, capsys, tmp_path) -> None:
    monkeypatch.setenv("BACKSIM", STAND_IN)
    words = ["faults", *C17, str(patterns), "--period", "10", "--jobs", "2"]
    assert main([*words, "--prove-left", str(tmp_path / "whole")]) == 0
    table = capsys.readouterr().out
    made: list[int] = []

    class Counted(Plan):
        def part(self, classes):
            part = super().part(classes)
            made.append(len(part.made.signals))
            return part

    monkeypatch.setattr(faults_command, "Plan", Counted)
    monkeypatch.setattr(portions, "_LEAST_BRANCHES", 2)
    assert main([*words, "--prove-left", str(tmp_path / "parts")]) == 0
    assert capsys.readouterr().out == table
    assert len(made) > 2 and max(made) == 2
    assert sorted((tmp_path / "parts").read_text().splitlines()) == sorted((tmp_path / "whole").read_text().splitlines())


def test_a_budget_that_a_period_needs_confirms_late_faults_and_a_smaller_one_not(tools, write, tmp_path, program) -> None:
    circuit = made_up(1, 8, 60, 6, 8, exclusive=6)
    rest = circuit.longest() + 2
    draw = random.Random(2)
    words = [write("n", circuit.netlist()), write("t", circuit.timing(rest, 2 * rest + 2)),
             write("p", "".join("".join(draw.choice("01") for _ in range(8)) + "\n" for _ in range(60))), "--period", 2 * rest + 2]
    rows = {}
    for budget in (500_000, 150, 10):
        run = faults(tools, *words, "--budget", budget, "--csv", tmp_path / "table", program=program)
        rows[budget] = list(csv.DictReader((tmp_path / "table").open()))
        shown = {row["class"] for row in rows[budget] if row["time"]}
        not_confirmed = {row["class"] for row in rows[budget] if row["time"] and row["confirmed"] == "no"}
        if budget > 10:
            # a period takes at most an evaluation of each gate and each branch, which are fewer
            assert (run.returncode, run.stderr, not_confirmed) == (0, b"", set())
        else:
            said = f"{len(not_confirmed)} that are shown are not confirmed by 10 evaluations each, so simulation alone says it (--budget)\n"
            assert (run.returncode, run.stderr.decode()) == (1, said)
            assert 0 < len(not_confirmed) < len(shown)
    assert [row["time"] for row in rows[10]] == [row["time"] for row in rows[150]] == [row["time"] for row in rows[500_000]]


@pytest.mark.parametrize("ways, is_confirmed", [([], True), ([confirming], True), ([confirming, late], False)])
def test_after_budgets_in_turn_later_faults_are_asked_otherwise_and_then_not(ways: list[ModuleType], is_confirmed: bool, write, monkeypatch, capsys) -> None:
    """With flip-flops there are two ways to ask, and one is not gone on with once so many answers in turn were those of a budget. Either
    confirms all alone. Without flip-flops all is asked."""
    monkeypatch.setenv("BACKSIM", STAND_IN)
    for way in ways:
        monkeypatch.setattr(way, "_IN_VAIN", 0)
    s27 = [f"{TOP}/examples/s27/s27.{kind}" for kind in ("bench", "timing")]
    assert main(["faults", *s27, str(write("p", "0000\n1111\n0101\n1010\n")), "--period", "20"]) == (0 if is_confirmed else 1)
    out, err = capsys.readouterr()
    confirmed, shown = re.findall(r"confirmed by the program: ([0-9]+) of ([0-9]+)", out)[0]
    assert int(shown) > 5 and confirmed == (shown if is_confirmed else "0")
    assert (f"{shown} that are shown are not confirmed" in err) == (not is_confirmed)
    assert main(["faults", *C17, str(write("q", "00101\n10111\n")), "--period", "10"]) == 0


def test_the_time_left_is_that_of_the_last_questions_of_each_kind() -> None:
    forecast = Forecast(jobs=2)
    forecast.expect("single", 10)
    forecast.expect("window", 8)
    assert forecast.said() == ""
    # half a second for each of the six that are left, by two sessions
    forecast.took("single", 4, 2.0)
    assert forecast.said() == "at least 2 s left"
    # and 30 s for each of the six windows
    forecast.took("window", 2, 60.0)
    assert forecast.said() == "some 92 s left"
    # one that is asked again in two parts; the kinds that are left take then 3 s, and six times 45 s or some more, since the first counts less
    forecast.took("window", 0, 30.0)
    assert 136 < float(forecast.said().split()[1]) < 145
    forecast.expect("window", -6)
    assert forecast.said() == "some 2 s left"


def test_gates_in_a_cycle_are_asked_for_without_simulation(tools, write) -> None:
    files = write("n", "INPUT(s)\nINPUT(r)\nOUTPUT(q)\nq = NOR(r, p)\np = NOR(s, q)\n"), write("t", "default 1\n"), write("p", "10\n01\n")
    run = faults(tools, *files, "--period", 10)
    assert run.returncode == 0
    assert b"make a cycle, so nothing is simulated" in run.stderr
    # 10 sets q, and 01 resets it; with r held at 0 it stays, and without s it is x until it is reset
    assert run.stdout.decode().splitlines()[:3] == ["9: q /0, q->(output) /0", "19: r /0, q /1, q->(output) /1", "not shown: s /0, p /0, q->p /0"]
    assert run.stdout.decode().splitlines()[-2:] == ["confirmed by the program: 5 of 5 that are shown",
                                                     "asked of the program at all times: the 3 that none shows"]


def test_x_in_flip_flops_is_said(tools, write) -> None:
    netlist = "INPUT(a)\nOUTPUT(y)\nq = DFF(a)\nr = DFF(r)\ny = AND(q, r)\n"
    run = faults(tools, write("n", netlist), write("t", "clock 5 10\n"), write("p", "0\n1\n"), "--period", 10)
    assert run.stderr.decode() == "1 of 2 flip-flops are still x at the last look, and x shows no fault\n"


@pytest.fixture
def long_work(write):
    """Words of a command that has much to ask."""
    circuit = made_up(3, 24, 900, 0, 20)
    return ["faults", write("n", circuit.netlist()), write("t", circuit.timing(1, 1)), write("p", "01" * 12 + "\n" + "10" * 12 + "\n" + "0011" * 6 + "\n"),
            "--period", circuit.longest() + 2]


@pytest.mark.parametrize("number", [signal.SIGINT, signal.SIGTERM])
def test_an_interrupt_leaves_what_is_known(number, long_work, tmp_path, program) -> None:
    files = {name: tmp_path / name for name in ("kept", "table", "shown", "left")}
    words = [*map(str, long_work), "--prove-left", str(files["kept"]), "--csv", str(files["table"]), "--shown", str(files["shown"]),
             "--left", str(files["left"]), "--jobs", "2"]
    environment = os.environ | {"PYTHONPATH": str(TOP / "python"), "BACKSIM": program}
    running = subprocess.Popen([sys.executable, "-m", "backsim", *words], env=environment, stdout=subprocess.PIPE, stderr=subprocess.PIPE, text=True)
    wait_while_running(running, lambda: files["kept"].exists() and files["kept"].read_text().count("\n") >= 4, "some faults are proved")
    children: list[int] = []

    def are_two() -> bool:
        children[:] = children_of(running.pid)
        return len(children) == 2

    # one process may have ended, and the next not begun
    wait_while_running(running, are_two, "two processes are asked")
    running.send_signal(number)
    out, err = running.communicate(timeout=PATIENCE)
    assert running.returncode == 130 and "Traceback" not in err
    assert not any(map(is_there, children))
    lines = out.splitlines()
    assert lines[0].startswith("partial: ")
    assert any(line.startswith("simulation alone says of ") for line in lines)
    mark = "# partial: the command was interrupted"
    assert files["shown"].read_text().splitlines()[0] == files["left"].read_text().splitlines()[0] == mark
    assert files["table"].read_text().splitlines()[-1] == mark
    # the lists are refused as they are, and the proofs go on
    again = subprocess.run([sys.executable, "-m", "backsim", *map(str, long_work), "--list", str(files["left"])], env=environment, capture_output=True,
                           text=True)
    assert again.returncode == 2 and again.stdout == "" and again.stderr.startswith(f"{files['left']}:1: an interrupted command left this file")
    assert files["kept"].read_text().endswith("\n")


@pytest.mark.parametrize("number", [signal.SIGINT, signal.SIGTERM])
def test_an_interrupt_while_processes_simulate_leaves_what_is_known(number, write, tmp_path) -> None:
    circuit = made_up(1, 32, 1000, 24, 24, exclusive=6)
    rest = circuit.longest() + 2
    draw = random.Random(1)
    patterns = "".join("".join(draw.choice("01") for _ in range(32)) + "\n" for _ in range(2000))
    files = {name: tmp_path / name for name in ("csv", "dictionary", "shown", "left")}
    words = [write("n", circuit.netlist()), write("t", circuit.timing(rest, 2 * rest + 2)), write("p", patterns), "--period", 2 * rest + 2,
             "--jobs", 3, *(word for name, path in files.items() for word in (f"--{name}", path))]
    environment = os.environ | {"PYTHONPATH": str(TOP / "python"), "BACKSIM": STAND_IN}
    # a process group of its own: a terminal sends what is typed to all processes of one
    running = subprocess.Popen([sys.executable, "-m", "backsim", "faults", *map(str, words)], env=environment, stdout=subprocess.PIPE,
                               stderr=subprocess.PIPE, text=True, start_new_session=True)
    wait_while_running(running, lambda: len(children_of(running.pid)) == 3, "three processes simulate")
    children = children_of(running.pid)
    # what is found is taken by the process that was started, which has nothing else to do now
    before = ticks_of(running.pid)
    wait_while_running(running, lambda: ticks_of(running.pid) >= before + 30, "much is found")
    os.killpg(running.pid, number)
    out, err = running.communicate(timeout=PATIENCE)
    assert running.returncode == 130 and "Traceback" not in err
    assert not any(map(is_there, children))
    assert out.splitlines()[0].startswith("partial: ")
    mark = "# partial: the command was interrupted"
    shown, left = (files[name].read_text().splitlines() for name in ("shown", "left"))
    assert shown[0] == left[0] == mark and len(shown) > 100 and len(left) > 1
    for name in ("csv", "dictionary"):
        assert files[name].read_text().splitlines()[-1] == mark
    rows = [row for row in csv.DictReader(files["csv"].open()) if row["fault"] != mark]
    assert sorted(row["fault"] for row in rows if row["time"]) == sorted(shown[1:])
    assert {row["confirmed"] for row in rows} == {"no"}


def test_what_was_not_simulated_yet_is_told_apart(patterns, monkeypatch, capsys) -> None:
    """The one fault that was found is told, and nothing is said of the 21 other classes of c17."""
    monkeypatch.setenv("BACKSIM", STAND_IN)
    take = faults_command._Search._take

    def once(self: object, detection: object) -> None:
        take(self, detection)
        raise KeyboardInterrupt

    monkeypatch.setattr(faults_command._Search, "_take", once)
    assert main(["faults", *C17, str(patterns), "--period", "10", "--jobs", "1"]) == 130
    table = capsys.readouterr().out.splitlines()
    assert table[0].startswith("partial: ") and table[2:4] == ["not shown:", "collapsed: shown 1 of 22 faults, 4.54 %"]
    assert table[5:] == ["confirmed by the program: 0 of 1 that are shown", "nothing is known yet of 21"]


@pytest.mark.parametrize("netlist, told", [
    # a cycle, so each of the 8 classes of 12 faults is asked for, and none was when the interrupt came
    ("INPUT(s)\nINPUT(r)\nOUTPUT(q)\np = NOR(s, q)\nq = NOR(r, p)\n", "nothing is known yet of 8"),
    # a look comes 2 after a change, and the path takes 4: so the program confirms none of both classes that simulation shows
    (CHAIN, "nothing is known yet of 2")])
def test_what_was_not_asked_yet_is_told_apart(netlist: str, told: str, write, monkeypatch, capsys, program) -> None:
    def interrupted(*_: object) -> None:
        raise KeyboardInterrupt

    monkeypatch.setattr(faults_command, "solve_all", interrupted)
    monkeypatch.setenv("BACKSIM", program)
    letters = netlist.count("INPUT")
    words = ["faults", write("n", netlist), write("t", ""), write("p", "".join(f"{letter * letters}\n" for letter in "01")), "--period", 3]
    assert main([*map(str, words), "--jobs", "1"]) == 130
    table = capsys.readouterr().out.splitlines()
    assert table[0].startswith("partial: ") and table[1] == "not shown:" and table[-1] == told
    assert not any(line.startswith(("simulation alone", "asked of the program")) for line in table)


@pytest.mark.parametrize("words, cause", [
    (["--list", "empty", "--stems"], "--list and --stems do not go together"),
    (["--list", "empty", "--transition"], "--list and --transition do not go together"),
    (["--drop", "0"], "from 1 to"), (["--transition", "--read", "folder"], "--write and --read are for stuck-at faults alone"),
    (["--write", "folder"], "--write and --csv do not go together"), (["--write-list", "list"], "--write-list and --csv do not go together"),
    (["--read", "folder", "--dictionary", "rows"], "--read and --dictionary do not go together"),
    (["--list", "empty"], "the list has no fault"), (["--times", "99"], "the time 99 is after the horizon, 39")])
def test_bad_words_are_said_in_one_line(words: list[str], cause: str, tools, patterns, tmp_path) -> None:
    (tmp_path / "empty").write_text("# nothing\n")
    table = tmp_path / "table"
    run = tools("faults", *C17, patterns, "--period", 10, "--csv", table, *words, cwd=tmp_path, env={"BACKSIM": STAND_IN})
    assert run.returncode == 2 and cause in run.stderr.decode() and run.stderr.count(b"\n") == 1 and run.stdout == b""
    assert not any((tmp_path / name).exists() for name in ("table", "folder", "list", "rows"))


@pytest.mark.parametrize("words, cause", [
    (["--prove-left", "nowhere/kept"], "nowhere/kept: it can't be written: No such file or directory"),
    (["--prove-left", "/dev/full"], "/dev/full: it is no regular file, which --prove-left wants, to go on with what it keeps"),
    (["--prove-left", "one", "--left", "one"], "one: two of the files that the command is told to write are this one")])
def test_a_file_of_proofs_that_can_not_be_is_said_before_the_work(words: list[str], cause: str, tools, patterns, tmp_path) -> None:
    run = tools("faults", *C17, patterns, "--period", 10, *words, cwd=tmp_path, env={"BACKSIM": "/bin/false"})
    assert (run.returncode, run.stdout.decode(), run.stderr.decode()) == (2, "", f"{cause}\n")
    assert [path.name for path in tmp_path.iterdir()] == [Path(patterns).name]


def test_patterns_of_another_number_of_inputs_are_refused(tools, write) -> None:
    path = write("p", "0101\n")
    run = faults(tools, *C17, path, "--period", 10)
    assert (run.returncode, run.stdout) == (2, b"")
    assert run.stderr.decode() == f"{path}:1: the pattern has 4 letters, and there are 5 inputs\n"


def test_transition_faults_want_no_flip_flops(tools, write) -> None:
    netlist = write("n", "INPUT(a)\nOUTPUT(q)\nq = DFF(a)\n")
    run = faults(tools, netlist, write("t", "clock 5 10\n"), write("p", "0\n1\n"), "--period", 10, "--transition")
    assert (run.returncode, run.stdout) == (2, b"")
    assert run.stderr.decode().startswith(f"{netlist}: transition faults are for circuits without flip-flops")
