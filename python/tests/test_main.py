"""The commands' common manners."""
from __future__ import annotations

import subprocess
import sys

import backsim
import pytest
from backsim import commands
from backsim.main import main
from conftest import TOP


def test_every_command_is_listed(capsys) -> None:
    assert main(["--help"]) == 0
    text = capsys.readouterr().out
    assert text.startswith("usage: backsim-tools COMMAND")
    for name in commands.listed():
        assert f"\n  {name} " in text


@pytest.mark.parametrize("name", commands.listed())
def test_help_of_a_command_has_an_example(name: str, capsys) -> None:
    with pytest.raises(SystemExit) as ended:
        main([name, "--help"])
    assert ended.value.code == 0
    text = capsys.readouterr().out
    assert "example:" in text and f"backsim-tools {name}" in text.split("example:")[1]


@pytest.mark.parametrize("words", [[], ["nothing"], ["-v"], *([name] for name in commands.listed()),
                                   *([name, "--nothing"] for name in commands.listed())])
def test_bad_use_is_one_line_with_status_2(words: list[str], capsys) -> None:
    try:
        status = main(words)
    except SystemExit as ended:
        status = ended.code
    said = capsys.readouterr()
    assert status == 2
    assert said.out == ""
    assert said.err.count("\n") == 1 and said.err.endswith("\n")


def test_a_reader_that_goes_away_ends_a_command_quietly(tmp_path) -> None:
    journal = tmp_path / "journal"
    section = "".join(f"claim 1 0 {time}\nfill 1 0 {time} {time} {time + 1} 1\n" for time in range(20_000))
    journal.write_text(f"journal shards 1 cells 65536\nbatch 1\nshard 0\n{section}end\n")
    netlist = tmp_path / "netlist"
    netlist.write_text("INPUT(a)\n")
    command = f"'{sys.executable}' -m backsim names '{netlist}' '{journal}'; echo $? >&2"
    run = subprocess.run(f"({command}) | head -2", shell=True, capture_output=True, text=True, cwd=TOP / "python")
    assert run.stdout == "journal shards 1 cells 65536\nbatch 1\n"
    assert run.stderr == "141\n"


def test_the_launcher_runs_the_package_of_the_checkout(tmp_path) -> None:
    run = subprocess.run([TOP / "backsim-tools", "journal", TOP / "examples/c17/c17.journal"], cwd=tmp_path, capture_output=True, text=True)
    assert (run.returncode, run.stdout, run.stderr) == (0, "legal: 15 entries in 2 sections\n", "")


def test_every_name_of_the_package_is_found() -> None:
    assert {name: getattr(backsim, name).__name__ for name in backsim.__all__ if name != "Answer"} == {
        name: name for name in backsim.__all__ if name != "Answer"}
    assert backsim.values.Wave is backsim.Wave
    all_names: dict[str, object] = {}
    exec("from backsim import *", all_names)
    assert {"Wave", "Session", "read_netlist"} < set(backsim.__all__) <= set(dir(backsim)) & set(all_names)
    with pytest.raises(AttributeError):
        backsim.nothing


def test_a_run_begins_before_what_reads_replies_is_imported() -> None:
    words = [sys.executable, "-c", "import backsim.commands.run, sys; print(*sys.modules)"]
    imported = subprocess.run(words, capture_output=True, text=True, cwd=TOP / "python").stdout.split()
    assert "backsim.scripts.running" in imported
    assert {"dataclasses", "backsim.values", "backsim.formats.script", "backsim.formats.replies"}.isdisjoint(imported)
