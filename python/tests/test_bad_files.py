"""Every command on a table of bad files, in the place of each file that it reads: it says what is wrong in one line with the file's
name, with status 2, and never ends in a traceback. Some of the files are right for some commands, as an empty netlist is; then the
command may end well."""
from __future__ import annotations

import io
import json
import os
import re
import sys
from pathlib import Path

import pytest
from backsim import commands
from backsim.main import main
from backsim.view.server import Pages
from conftest import TOP

C17 = TOP / "examples" / "c17"
VARIABLES = "".join(f"$var wire 1 {code} {name} $end\n" for code, name in zip("!%&*+(", ("1", "2", "3", "6", "7", "22")))
VCD = f"$timescale 1 ns $end\n$scope module top $end\n{VARIABLES}$upscope $end\n$enddefinitions $end\n#0\n0!\n1%\n0&\n0*\n0+\n1(\n#5\n1!\n"
MODULE = {"creator": "Yosys", "modules": {"top": {
    "attributes": {"top": "1"}, "netnames": {"a": {"bits": [2], "attributes": {}}, "y": {"bits": [3], "attributes": {}}},
    "ports": {"a": {"direction": "input", "bits": [2]}, "y": {"direction": "output", "bits": [3]}},
    "cells": {"not": {"type": "$_NOT_", "parameters": {}, "attributes": {}, "port_directions": {"A": "input", "Y": "output"},
                      "connections": {"A": [2], "Y": [3]}}}}}}
SDF = """(DELAYFILE (SDFVERSION "3.0") (DESIGN "c17") (TIMESCALE 1ns)
 (CELL (CELLTYPE "NAND2") (INSTANCE 22) (DELAY (ABSOLUTE (IOPATH A Y (1:2:3) (1:2:3)) (IOPATH B Y (2) (2))))))
"""
VIEW = {"format": "backsim view 1", "files": [str(C17 / f"c17.{end}") for end in ("bench", "timing", "stim")],
        "rows": [{"name": "22"}], "start": 0, "stop": 11}
MISSING, FOLDER, UNREADABLE, LOOP, PART = "missing", "folder", "unreadable", "loop", "not a folder"


def good_files() -> dict[str, bytes]:
    """A file of each kind that the commands read."""
    kinds = {"netlist": "bench", "timing": "timing", "stimulus": "stim", "script": "script", "replies": "replies", "journal": "journal",
             "proof": "proof"}
    files = {kind: (C17 / f"c17.{end}").read_bytes() for kind, end in kinds.items()}
    files |= {"vcd": VCD.encode(), "patterns": b"00101\n10111\n", "faults": b"10 /0\n", "sdf": SDF.encode()}
    files |= {"failures": b"9 22\n", "view": json.dumps(VIEW).encode()}
    files |= {"script": b"at 1 3\nwave 1 0 5\n", "blif": b".model c17\n.inputs 1 2 3 6 7\n.outputs 22 23\n.end\n", "json": json.dumps(MODULE).encode()}
    return files


GOOD = good_files()
# what is wrong with every file, of whatever kind: nothing there, no file, or no text
ALWAYS = {
    "missing": MISSING, "a folder": FOLDER, "a loop of links": LOOP, "below a file": PART,
    "bytes that are no text": bytes(range(128, 256)) + b"\n", "a program": b"\x7fELF\x02\x01\x01" + bytes(60) + b"\n\x00\xff\n",
    "UTF-16": "INPUT(a)\nhorizon 5\n".encode("utf-16"), "a zip archive": b"PK\x03\x04\x14\x00\x00\x00\x08\x00\xff\xfe\n" * 3,
    "JSON": json.dumps({"creator": "someone", "modules": [1, 2]}, indent=1).encode(),
    "HTML": b"<!DOCTYPE html>\n<html><body>404 Not Found</body></html>\n", "a byte zero": b"\x00",
    "one long line": b"x" * 200_000, "prose": b"This is no file of any form that is read here.\n",
    "BLIF": b".model counter\n.inputs a\n.outputs y\n.names a y\n1 1\n.end\n",
    "Verilog": b"module top(input a, output y);\n  assign y = ~a;\nendmodule\n",
    "EVCD": b"$scope module top $end\n$var port 1 <0 a $end\n$upscope $end\n$enddefinitions $end\n#0\npD 6 0 <0\n",
    "a number of many digits": b"9" * 5000 + b"\n",
}
SOMETIMES = {
    "empty": b"", "a blank line": b"\n", "only blanks": b"   \t\r\n", "no line feed": b"end", "only a comment": b"# nothing",
    **{f"a {kind} file": text for kind, text in GOOD.items()},
    **{f"a {kind} file cut in a line": text.rstrip()[:-3] for kind, text in GOOD.items()},
    **{f"a {kind} file with a blank line in it": text.replace(b"\n", b"\n\n", 2) for kind, text in GOOD.items()},
}
# the words of each command; {kind} is a file of this kind, {out} a file to write, {folder} a folder to make
COMMANDS: dict[str, list[list[str]]] = {
    "settled": [["{netlist}", "{timing}", "{stimulus}"]],
    "split": [["{script}", "2", "{folder}"]],
    "names": [["{netlist}", "{journal}"], ["{netlist}", "{proof}"]],
    "journal": [["{journal}"], ["{journal}", "--profile", "--netlist", "{netlist}", "--script", "{script}"]],
    "normalise": [["{netlist}"]],
    "to-verilog": [["{netlist}", "{timing}", "{stimulus}", "{script}"]],
    "to-vcd": [["{replies}"]],
    "from-vcd": [["{netlist}", "{vcd}", "top"], ["{netlist}", "{vcd}", "top", "--script", "{script}"]],
    "from-patterns": [["{netlist}", "{patterns}", "--period", "10"]],
    "from-blif": [["{netlist}", "{blif}", "{vcd}", "top"]],
    "from-json": [["{json}", "{out}.bench", "{out}.timing"], ["{json}", "{out}.bench", "{out}.timing", "--vcd", "{vcd}", "--scope", "top"]],
    "from-sdf": [["{netlist}", "{sdf}"]],
    "faults": [["{netlist}", "{timing}", "{patterns}", "--period", "10", "--list", "{faults}", "--write", "{folder}"]],
    "patterns": [["{netlist}", "{timing}", "--list", "{faults}", "--jobs", "1", "-o", "{out}"]],
    "compact": [["{netlist}", "{timing}", "{patterns}", "--period", "10", "--list", "{faults}", "--jobs", "1", "-o", "{out}"]],
    "why": [["{netlist}", "{timing}", "{stimulus}", "--proof", "{proof}", "--html", "{out}.html"]],
    "draw": [["--replies", "{replies}", "-o", "{out}.svg"], ["--vcd", "{vcd}", "--scope", "top", "-o", "{out}.svg"]],
}
# those that start the program, of which the table tries fewer files
WITH_PROGRAM: dict[str, list[list[str]]] = {
    "run": [["{netlist}", "{timing}", "{stimulus}", "{script}"], ["{netlist}", "{timing}", "{stimulus}", "{script}", "--jobs", "2"]],
    "compare": [["{netlist}", "{timing}", "{vcd}", "top"]],
    "ask": [["{netlist}", "{timing}", "{stimulus}"]],
    "diagnose": [["{netlist}", "{timing}", "{patterns}", "{failures}", "--period", "10", "--list", "{faults}", "--jobs", "1"]],
    "view": [["{netlist}", "{timing}", "{stimulus}", "--no-browser"], ["{view}", "--no-browser"]],
}
# what `ask` is asked
QUESTIONS = "at 22 5\nwhy 22 5\nnames\n"
# files that a command may take although it is of another kind, or rightly takes
ACCEPTS_ANY = {("run", "script"), ("split", "script"), ("names", "journal"), ("names", "proof"), ("journal", "script")}


def laid(path: Path, content: str | bytes) -> Path:
    """The path with the bad file at it."""
    if isinstance(content, bytes):
        path.write_bytes(content)
    elif content == FOLDER:
        path.mkdir()
    elif content == LOOP:
        path.symlink_to(path)
    elif content == PART:
        path.write_text("")
        path = path / "below"
    return path


def kinds_of(words: list[str]) -> list[str]:
    return [word[1:-1] for word in words if word[1:-1] in GOOD]


def cases(commands_of: dict[str, list[list[str]]]) -> list[object]:
    return [pytest.param(name, words, kind, id=f"{name} {place}: {kind}") for name, lists in commands_of.items()
            for place, words in enumerate(lists) for kind in kinds_of(words)]


def ended(name: str, words: list[str], bad: str, content: str | bytes, folder: Path) -> tuple[int, Path]:
    """Runs the command with the bad file in the place of its kind; gives the status and the file's path."""
    folder.mkdir()
    paths = {kind: laid(folder / kind, content if kind == bad else GOOD[kind]) for kind in set(kinds_of(words))}
    given = [word.format(**paths, out=folder / "out", folder=folder / "made") for word in words]
    try:
        return main([name, *given]), paths.get(bad, folder)
    except SystemExit as end:
        return end.code, paths.get(bad, folder)


def check(status: int, said: str, path: Path, what: str, is_bad: bool) -> None:
    assert "Traceback" not in said, what
    assert status in ((2,) if is_bad else (0, 1, 2)), f"{what}: status {status}: {said}"
    if status == 2:
        assert said.count("\n") == 1 and said.endswith("\n"), f"{what}: {said}"
        # where two files do not fit one another, either may be named; and a file of another kind may want other words
        place = re.escape(str(path)) if is_bad else f"{re.escape(str(path.parent))}/[\\w ]+|backsim-tools [\\w-]+"
        assert re.match(f"({place})(:[0-9]+)?: ", said), f"{what}: {said}"


@pytest.mark.parametrize("name, words, kind", cases(COMMANDS))
def test_bad_files(name: str, words: list[str], kind: str, tmp_path: Path, capfd) -> None:
    if name == "draw":
        pytest.importorskip("matplotlib")
    for number, (what, content) in enumerate((ALWAYS | SOMETIMES).items()):
        status, path = ended(name, words, kind, content, tmp_path / str(number))
        is_bad = what in ALWAYS and what.lower() != kind and ((name, kind) not in ACCEPTS_ANY or isinstance(content, str))
        check(status, capfd.readouterr().err, path, what, is_bad)


def prepare(monkeypatch: pytest.MonkeyPatch, program: str) -> None:
    """Has commands find the program, `ask` read the questions, and `view` end where it would answer its page until a signal comes."""
    monkeypatch.setenv("BACKSIM", program)
    monkeypatch.setattr(sys, "stdin", io.TextIOWrapper(io.BytesIO(QUESTIONS.encode())))
    monkeypatch.setattr(Pages, "serve_forever", lambda pages: None)


@pytest.mark.parametrize("name, words, kind", cases(WITH_PROGRAM))
def test_bad_files_of_commands_that_start_the_program(name: str, words: list[str], kind: str, tmp_path: Path, capfd, program: str,
                                                      monkeypatch) -> None:
    tried = ALWAYS | {what: SOMETIMES[what] for what in ("empty", "a blank line", f"a {kind} file cut in a line")}
    for number, (what, content) in enumerate(tried.items()):
        prepare(monkeypatch, program)
        status, path = ended(name, words, kind, content, tmp_path / str(number))
        # where the program can't open a file, its own status is told
        status = 2 if status in (3, 5) else status
        is_bad = what in ALWAYS and ((name, kind) not in ACCEPTS_ANY or isinstance(content, str))
        check(status, capfd.readouterr().err, path, what, is_bad)


def good(commands_of: dict[str, list[list[str]]]) -> list[object]:
    return [pytest.param(name, words, id=f"{name} {place}") for name, lists in commands_of.items() for place, words in enumerate(lists)]


@pytest.mark.parametrize("name, words", good(COMMANDS))
def test_good_files(name: str, words: list[str], tmp_path: Path, capfd) -> None:
    """The table stands on files that the commands take."""
    if name == "draw":
        pytest.importorskip("matplotlib")
    status, _ = ended(name, words, "", b"", tmp_path / "good")
    assert status == 0, capfd.readouterr().err


@pytest.mark.parametrize("name, words", good(WITH_PROGRAM))
def test_good_files_of_commands_that_start_the_program(name: str, words: list[str], tmp_path: Path, capfd, program: str, monkeypatch) -> None:
    prepare(monkeypatch, program)
    status, _ = ended(name, words, "", b"", tmp_path / "good")
    assert status == 0, capfd.readouterr().err


@pytest.mark.skipif(os.geteuid() == 0, reason="whoever may read everything")
def test_a_file_that_may_not_be_read(tmp_path: Path, capsys) -> None:
    path = tmp_path / "journal"
    path.write_text("")
    path.chmod(0)
    assert main(["journal", str(path)]) == 2
    assert capsys.readouterr().err == f"{path}: Permission denied\n"


def test_every_command_is_tried() -> None:
    # join has a table of its own in test_running
    assert set(commands.listed()) <= {*COMMANDS, *WITH_PROGRAM, "join"}
