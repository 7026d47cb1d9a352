"""The commands `draw`, `why` and `journal --profile`, as a user calls them, and on bad files and words."""
from __future__ import annotations

import importlib.util
import re
import shutil
import sys
from collections.abc import Callable
from pathlib import Path

import pytest
from backsim.main import main
from conftest import TOP

EXAMPLES = TOP / "examples"
PROOF = EXAMPLES / "c17" / "c17.proof"
REPLIES = EXAMPLES / "pulse" / "pulse.replies"
DUMP = EXAMPLES / "pulse" / "pulse.vcd"
JOURNAL = EXAMPLES / "pulse" / "pulse.journal"
X_PROOF = "why G17 4 x\ncell 13 1 2 x\ncell 15 1 2 x\ncell 16 2 3 x\ncell 8 3 4 x\ncell 4 4 5 x\nend\n"
needs_matplotlib = pytest.mark.skipif(importlib.util.find_spec("matplotlib") is None, reason="matplotlib is missing (Debian's package python3-matplotlib)")
needs_dot = pytest.mark.skipif(shutil.which("dot") is None, reason="the program dot is missing (Debian's package graphviz)")


@pytest.fixture
def matplotlib() -> None:
    pytest.importorskip("matplotlib", reason="matplotlib is missing (Debian's package python3-matplotlib)")


@pytest.fixture(autouse=True)
def no_program(monkeypatch) -> None:
    """No test starts the launcher, which would build the program."""
    monkeypatch.setenv("BACKSIM", "/nowhere/backsim")


@needs_dot
@pytest.mark.parametrize("form", ["svg", "png", "dot"])
def test_why_of_a_proof(example, tmp_path, form: str) -> None:
    path = tmp_path / f"why.{form}"
    assert main(["why", *example("c17"), "--proof", str(PROOF), "-o", str(path)]) == 0
    assert path.read_bytes().startswith({"svg": b"<?xml", "png": b"\x89PNG", "dot": b"digraph why {"}[form])


def boxes(path: Path) -> int:
    """How many cells a picture in graphviz's language has."""
    return len(re.findall(r"^  n\d+ \[label=", path.read_text(), re.M))


def test_why_draws_the_nearest(example, capsys, tmp_path) -> None:
    path = tmp_path / "why.dot"
    assert main(["why", *example("c17"), "--proof", str(PROOF), "--most", "3", "-o", str(path)]) == 0
    assert capsys.readouterr().err == "3 of 5 cells are drawn; --most draws more\n"
    assert boxes(path) == 3 and "more not drawn" in path.read_text()


def test_why_writes_a_page(example, tmp_path) -> None:
    path = tmp_path / "why.html"
    assert main(["why", *example("c17"), "--proof", str(PROOF), "--html", str(path)]) == 0
    text = path.read_text(encoding="utf-8")
    assert text.startswith("<!DOCTYPE html>") and "<title>Why 23 is 0 at 3</title>" in text


def test_why_chooses_a_proof_of_replies(example, write, capsys) -> None:
    other = "at 23 3 0\nwhy 16 2 1\ncell 9 1 11 1\nend\n"
    replies = str(write("replies", PROOF.read_text() + other))
    assert main(["why", *example("c17"), "16", "2", "--proof", replies]) == 0
    assert capsys.readouterr().out.startswith("16 is 1 at 2\n")
    assert main(["why", *example("c17"), "--proof", replies]) == 2
    assert capsys.readouterr().err == f"{replies}: name one explanation by NAME and TIME; there are 23 3, 16 2\n"


def test_a_proof_that_does_not_follow_is_told_by_its_line(example, write, capsys) -> None:
    replies = str(write("replies", "at 22 3 0\n" + PROOF.read_text().replace("cell 9 1 11 1", "cell 9 1 12 1")))
    assert main(["why", *example("c17"), "--proof", replies]) == 2
    assert capsys.readouterr().err == f"{replies}:4: this does not follow: 16 has the value 1 from 1 on and below 11\n"


def test_only_the_way_of_the_x(example, write, tmp_path) -> None:
    proof, path = str(write("proof", X_PROOF)), tmp_path / "why.dot"
    counts = []
    for words in ([], ["--all"]):
        assert main(["why", *example("s27"), "--proof", proof, *words, "-o", str(path)]) == 0
        counts.append(boxes(path))
    assert counts == [7, 9]


def test_why_asks_a_session(example, program, monkeypatch, capsys, tmp_path) -> None:
    monkeypatch.setenv("BACKSIM", program)
    assert main(["why", *example("s27"), "G17", "4", "--html", str(tmp_path / "why.html")]) == 0
    assert main(["why", *example("s27"), "G17", "4", "-o", str(tmp_path / "why.dot")]) == 0
    assert boxes(tmp_path / "why.dot") == 7
    assert main(["why", *example("s27"), "G99", "4"]) == 2
    assert "there is no signal G99; near it: G9" in capsys.readouterr().err
    assert main(["why", *example("s27"), "G17", "31"]) == 2
    assert "the time 31 is after the horizon, 30" in capsys.readouterr().err
    assert main(["why", *example("s27"), "G17", "16", "--budget", "3"]) == 1
    assert capsys.readouterr().err == "3 evaluations did not suffice for G17 at 16; --budget allows more\n"


FAKE = f"""#!{sys.executable}
import sys
REPLIES = {{"stats": "stats batches 0 fills 0 evictions 0 cells 0", "why G17 4": {X_PROOF!r}.strip(), "why G99 4": "unknown G99",
           "why G17 31": "past G17 31 32", "why G17 16 3": "budget G17 3"}}
for line in sys.stdin:
    if line.strip() != "go":
        print(REPLIES[line.strip()], flush=True)
"""


def test_why_and_each_answer_of_a_session(example, write, monkeypatch, capsys) -> None:
    """A program of a few lines answers, so that this is tried where the program is not built."""
    fake = write("fake", FAKE)
    fake.chmod(0o755)
    monkeypatch.setenv("BACKSIM", str(fake))
    assert main(["why", *example("s27"), "G17", "4"]) == 0
    assert capsys.readouterr().out.startswith("G17 is x at 4\n")
    netlist, timing, stimulus = example("s27")
    for words, status, said in ((["G99", "4"], 2, f"{netlist}: there is no signal G99; near it: G9"),
                                (["G17", "31"], 2, f"{stimulus}: the time 31 is after the horizon, 30"),
                                (["G17", "16", "--budget", "3"], 1, "3 evaluations did not suffice for G17 at 16")):
        assert main(["why", *example("s27"), *words]) == status
        error = capsys.readouterr().err
        assert error.startswith(said) and error.count("\n") == 1


def test_draw_of_replies_a_dump_and_a_session(example, matplotlib, tmp_path, program, monkeypatch) -> None:
    monkeypatch.setenv("BACKSIM", program)
    for place, words in enumerate((["--replies", str(REPLIES), "--mark", "12"], ["--vcd", str(DUMP), "--scope", "top", "p*"],
                                   [*example("pulse"), "pulse", "c*", "--from", "5", "--to", "20", "--title", "pulse"])):
        path = tmp_path / f"{place}.svg"
        assert main(["draw", *words, "-o", str(path)]) == 0
        assert b"<svg" in path.read_bytes()


def test_draw_of_files_alone(matplotlib, tmp_path) -> None:
    for words in (["--replies", str(REPLIES)], ["--vcd", str(DUMP), "pulse"]):
        path = tmp_path / "waves.png"
        assert main(["draw", *words, "-o", str(path)]) == 0
        assert path.read_bytes().startswith(b"\x89PNG")


def test_the_profile_and_its_picture(example, matplotlib, tmp_path, capsys) -> None:
    netlist, timing, stimulus = example("pulse")
    words = ["--netlist", netlist, "--timing", timing, "--stimulus", stimulus, "--script", str(EXAMPLES / "pulse" / "pulse.script")]
    assert main(["journal", str(JOURNAL), "--profile", *words, "--picture", str(tmp_path / "profile.svg")]) == 0
    lines = capsys.readouterr().out.splitlines()
    assert ["4", "13", "13", "13", "35", "wave", "caught", "0", "41"] in [line.split() for line in lines]
    assert b"<svg" in (tmp_path / "profile.svg").read_bytes()


# Bad files: what is made of them, and a part of what must be said.
BAD = {
    "empty": b"",
    "no text": bytes(range(256)) * 4,
    "cut": b"wave a 0 9\n0 1",
    "cut inside": b"wave a 0 9\n0 1\n",
    "another format": b"horizon 5\nset a 0 1\n",
    "a netlist": b"INPUT(a)\nb = NOT(a)\n",
    "a refusal": b"refused netlist line 5 cause 2\n",
    "a blank line": b"wave a 0 2\n0 1\nend\n\n",
    "times that fall": b"wave a 0 9\n5 1\n0 1\nend\n",
    "html": b"<html><body>404</body></html>\n",
}


def bad_file(tmp_path: Path, kind: str) -> str:
    path = tmp_path / "bad"
    if kind == "a folder":
        path.mkdir()
    elif kind != "missing":
        path.write_bytes(BAD[kind])
    return str(path)


COMMANDS: dict[str, Callable[[str, list[str], list[str]], list[str]]] = {
    "draw --replies": lambda bad, files, out: ["draw", "--replies", bad, *out],
    "draw --vcd": lambda bad, files, out: ["draw", "--vcd", bad, *out],
    "draw netlist": lambda bad, files, out: ["draw", bad, *files[1:], "a*", *out],
    "why --proof": lambda bad, files, out: ["why", *files, "--proof", bad, *out],
    "why netlist": lambda bad, files, out: ["why", bad, *files[1:], "--proof", str(PROOF), *out],
    "why timing": lambda bad, files, out: ["why", files[0], bad, files[2], "--proof", str(PROOF), *out],
    "why stimulus": lambda bad, files, out: ["why", *files[:2], bad, "--proof", str(PROOF), *out],
    "profile": lambda bad, files, out: ["journal", bad, "--profile"],
    "profile netlist": lambda bad, files, out: ["journal", str(JOURNAL), "--profile", "--netlist", bad],
}
# What is a good file for one of the words.
GOOD = {("why timing", "empty"), ("draw netlist", "a netlist")}


@pytest.mark.parametrize("command", COMMANDS)
@pytest.mark.parametrize("kind", [*BAD, "missing", "a folder"])
def test_bad_files_are_one_line(example, tmp_path, capsys, command: str, kind: str) -> None:
    words = COMMANDS[command](bad_file(tmp_path, kind), example("c17"), ["-o", str(tmp_path / "out.svg")])
    if (command, kind) in GOOD:
        return
    assert main(words) == 2
    said = capsys.readouterr()
    assert said.out == "" and said.err.count("\n") == 1
    assert not (tmp_path / "out.svg").exists()


@pytest.mark.parametrize("words, part", [
    (["draw", "-o", "w.svg"], "say NETLIST TIMING STIMULUS"),
    (["draw", "--replies", str(REPLIES), "-o", "w.jpg"], "must end in .svg or .png"),
    (["draw", "--replies", str(REPLIES), "nothing", "-o", "w.svg"], "no wave of nothing"),
    (["draw", "--replies", str(REPLIES), "--scope", "top", "-o", "w.svg"], "--scope goes with --vcd"),
    (["draw", "--replies", str(REPLIES), "--from", "9", "--to", "9", "-o", "w.svg"], "there is no time to draw"),
    (["draw", "--vcd", str(DUMP), "--scope", "here", "-o", "w.svg"], "the scopes are: top"),
    pytest.param(["draw", "--replies", str(REPLIES), "-o", "/nowhere/w.svg"], "it can't be written", marks=needs_matplotlib),
    (["why", "-o", "w.svg"], "required"),
    (["journal", str(JOURNAL), "--profile", "--picture", "p.jpg"], "must end in .svg or .png"),
    (["journal", str(JOURNAL), "--profile", "--timing", "t"], "go together"),
    (["journal", str(JOURNAL), "--profile", "--most", "0"], "from 1 on"),
])
def test_bad_words_are_one_line(words: list[str], part: str, capsys, tmp_path, monkeypatch) -> None:
    monkeypatch.chdir(tmp_path)
    try:
        status = main(words)
    except SystemExit as ended:
        status = ended.code
    said = capsys.readouterr()
    assert status == 2 and said.err.count("\n") == 1 and part in said.err


@pytest.mark.parametrize("words, part", [
    ([], "say NAME and TIME"), (["23"], "say NAME and TIME"), (["23", "3", "--most", "0"], "from 1 to"),
    (["23", "3", "-o", "w.pdf"], "must end in .svg, .png or .dot"), (["23", "3", "--proof", str(REPLIES)], "no reply to a `why` line"),
    (["22", "3", "--proof", str(PROOF)], "there are 23 3"), (["23", "x"], "a time is wanted, a number of units"),
])
def test_bad_words_of_why_are_one_line(example, words: list[str], part: str, capsys) -> None:
    try:
        status = main(["why", *example("c17"), *words])
    except SystemExit as ended:
        status = ended.code
    said = capsys.readouterr()
    assert status == 2 and said.err.count("\n") == 1 and part in said.err


def test_without_matplotlib_the_package_is_named(tools, tmp_path) -> None:
    (tmp_path / "matplotlib.py").write_text("raise ImportError\n")
    done = tools("draw", "--replies", REPLIES, "-o", tmp_path / "w.svg", env={"PYTHONPATH": f"{tmp_path}:{TOP / 'python'}"})
    assert done.returncode == 2
    assert done.stderr == b"matplotlib is not there: install Debian's package python3-matplotlib, or `pip install 'backsim[pictures]'`\n"


@needs_dot
def test_a_journal_of_another_netlist(example, capsys) -> None:
    assert main(["journal", str(EXAMPLES / "s27" / "s27.journal"), "--profile", "--netlist", example("pulse")[0]]) == 2
    assert "it is of another netlist" in capsys.readouterr().err
