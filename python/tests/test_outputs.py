"""What commands do with outputs that are closed, full or gone, with files that can't be written whole, and when they are ended."""
from __future__ import annotations

import os
import pty
import re
import resource
import signal
import subprocess
import sys
from pathlib import Path

import pytest
from backsim import commands
from backsim.command_line.streams import plain
from conftest import TOP, read_all
from processes import PATIENCE, is_there, wait_while_running

C17 = [str(TOP / "examples" / "c17" / f"c17.{kind}") for kind in ("bench", "timing", "stim")]
C17_SCRIPT, C17_REPLIES, C17_PROOF, C17_JOURNAL = (str(TOP / "examples" / "c17" / f"c17.{kind}")
                                                   for kind in ("script", "replies", "proof", "journal"))
PATTERNS = "01010\n11111\n"
VCD = """$timescale 1 ns $end
$scope module top $end
$var wire 1 ! 1 $end
$var wire 1 " 2 $end
$var wire 1 # 3 $end
$var wire 1 $ 6 $end
$var wire 1 % 7 $end
$var wire 1 & 22 $end
$upscope $end
$enddefinitions $end
#0
0!
0"
0#
0$
0%
0&
#10
1!
"""
# words of commands that write to standard output; of others their help is taken
WORDS = {
    "run": [*C17, C17_SCRIPT], "journal": [C17_JOURNAL], "names": [C17[0], C17_JOURNAL], "normalise": [C17[0]], "settled": C17,
    "why": [*C17, "--proof", C17_PROOF], "to-vcd": [C17_REPLIES], "to-verilog": [*C17, "SCRIPT"],
    "faults": [*C17[:2], "PATTERNS", "--period", "5"], "from-patterns": [C17[0], "PATTERNS", "--period", "5"], "from-vcd": [C17[0], "VCD", "top"], "join": ["PARTS"],
    "compare": [*C17[:2], "VCD", "top"], "diagnose": [*C17[:2], "PATTERNS", "FAILURES", "--period", "5", "--most", "1000"], "ask": C17,
    "patterns": C17[:2], "compact": [*C17[:2], "PATTERNS", "--period", "5"],
}
# what is asked on standard input, and what commands say on standard error where all is well
INPUT = "why 22 5\nnames\n"
SAID = {"patterns": r"[0-9]+ patterns? of [0-9]+ shows? .*\n", "compact": r"[0-9]+ of 2 patterns (is|are) left, .*\n"}


def words_of(name: str, folder: Path) -> list[str]:
    """The words of a command, with the files that it reads."""
    (folder / "PATTERNS").write_text(PATTERNS)
    (folder / "VCD").write_text(VCD)
    (folder / "SCRIPT").write_text("wave 22 0 11\nat 23 4\n")
    # the output 22, which is 1 after both patterns, is seen as 0
    (folder / "FAILURES").write_text("4 22\n9 22\n")
    (folder / "PARTS").mkdir()
    (folder / "PARTS" / "1.script").write_text("at 1 0\n" * 2000)
    (folder / "PARTS" / "1.replies").write_text("at 1 0 0\n" * 2000)
    return [sys.executable, "-m", "backsim", name, *WORDS.get(name, ["--help"])]


@pytest.mark.parametrize("name", commands.listed())
@pytest.mark.parametrize("how, buffer", [(">&-", ""), (">/dev/full", ""), (">/dev/full", "1"), ("| head -1 >first", "")])
def test_an_output_that_takes_nothing(name: str, how: str, buffer: str, program: str, tmp_path) -> None:
    words = words_of(name, tmp_path)
    given = os.environ | {"PYTHONPATH": str(TOP / "python"), "PYTHONUNBUFFERED": buffer, "BACKSIM": program}
    # of a pipeline the status is that of the command before
    run = subprocess.run(["bash", "-o", "pipefail", "-c", f'"$@" {how}', "bash", *words], cwd=tmp_path, env=given, input=INPUT,
                         stdout=subprocess.PIPE, stderr=subprocess.PIPE, text=True, timeout=PATIENCE)
    assert "Traceback" not in run.stderr and run.stdout == ""
    said = re.sub(f"(?m)^{SAID[name]}", "", run.stderr) if name in SAID else run.stderr
    if "head" in how:
        assert run.returncode in (0, 141) and said == ""
        assert (tmp_path / "first").read_text().count("\n") == 1
    else:
        assert run.returncode == 4
        assert said.startswith("backsim-tools: standard output: ") and said.count("\n") == 1


def test_words_of_the_table_are_those_of_commands() -> None:
    assert set(WORDS) <= set(commands.listed())


def limited() -> None:
    """No byte can be written to a file, as on a full disk."""
    resource.setrlimit(resource.RLIMIT_FSIZE, (0, 0))


@pytest.mark.parametrize("words", [
    ["normalise", C17[0], "-o", "out.bench"], ["from-patterns", C17[0], "PATTERNS", "--period", "5", "-o", "out.stim"],
    ["from-vcd", C17[0], "VCD", "top", "-o", "out.stim"], ["to-vcd", C17_REPLIES, "-o", "out.vcd"],
    ["to-verilog", *C17, "SCRIPT", "-o", "out.v"], ["why", *C17, "--proof", C17_PROOF, "--html", "out.html"],
    ["why", *C17, "--proof", C17_PROOF, "-o", "out.dot"], ["faults", *C17[:2], "PATTERNS", "--period", "5", "--write-list", "out.faults"],
    ["patterns", *C17[:2], "-o", "out.patterns"], ["compact", *C17[:2], "PATTERNS", "--period", "5", "-o", "out.patterns"],
    ["split", C17_SCRIPT, "2", "out"], ["faults", *C17[:2], "PATTERNS", "--period", "5", "--write", "out"]])
def test_what_can_not_be_written_leaves_what_was_there(words: list[str], tmp_path) -> None:
    command = words_of(words[0], tmp_path)[:3] + words
    out = tmp_path / words[-1]
    is_folder = "." not in words[-1]
    if not is_folder:
        out.write_text("what was there\n")
    before = sorted(tmp_path.iterdir())
    given = os.environ | {"PYTHONPATH": str(TOP / "python"), "PYTHONDONTWRITEBYTECODE": "1"}
    run = subprocess.run(command, cwd=tmp_path, env=given, capture_output=True, text=True, preexec_fn=limited, timeout=PATIENCE)
    assert run.returncode == 2 and run.stderr.count("\n") == 1 and "File too large" in run.stderr
    assert sorted(tmp_path.iterdir()) == before
    assert is_folder or out.read_text() == "what was there\n"
    # and where it can be, it is
    run = subprocess.run(command, cwd=tmp_path, env=given, capture_output=True, text=True, timeout=PATIENCE)
    assert run.returncode == 0 and (out.is_dir() if is_folder else out.read_text() != "what was there\n")
    assert sorted(tmp_path.iterdir()) == sorted({*before, out})


@pytest.mark.parametrize("words", [["faults", *C17[:2], "PATTERNS", "--period", "5", "--program", "nothing", option] for option in ("--csv", "--dictionary", "--left", "--shown")]
                         + [["patterns", *C17[:2], "-o"], ["compact", *C17[:2], "PATTERNS", "--period", "5", "-o"]])
@pytest.mark.parametrize("place, cause", [("nowhere/out", "No such file or directory"), ("PARTS", "Is a directory")])
def test_where_nothing_can_be_written_no_work_begins(words: list[str], place: str, cause: str, tools, tmp_path) -> None:
    words_of(words[0], tmp_path)
    run = tools(*words, place, cwd=tmp_path)
    assert (run.returncode, run.stdout, run.stderr.decode()) == (2, b"", f"{place}: it can't be written: {cause}\n")


def test_a_link_a_pipe_and_permissions_stay(tools, write, tmp_path) -> None:
    kept = write("kept", "old")
    kept.chmod(0o640)
    (tmp_path / "link").symlink_to("kept")
    for name in ("link", "/dev/null"):
        assert tools("normalise", C17[0], "-o", name, cwd=tmp_path).returncode == 0
    assert (tmp_path / "link").is_symlink() and kept.read_bytes().startswith(b"INPUT(1)") and kept.stat().st_mode & 0o777 == 0o640
    os.mkfifo(tmp_path / "fifo")
    reader = subprocess.Popen(["cat", tmp_path / "fifo"], stdout=subprocess.PIPE)
    assert tools("normalise", C17[0], "-o", tmp_path / "fifo").returncode == 0
    assert reader.communicate()[0] == kept.read_bytes()
    assert tools("normalise", C17[0], "-o", "/dev/stdout").stdout == kept.read_bytes()


@pytest.mark.parametrize("words", [["ask", *C17], ["run", *C17, "-"], ["names", C17[0]]])
def test_an_input_that_is_closed(words: list[str], program: str) -> None:
    given = os.environ | {"PYTHONPATH": str(TOP / "python"), "BACKSIM": program}
    run = subprocess.run(["bash", "-c", '"$@" <&-', "bash", sys.executable, "-m", "backsim", *words], env=given, capture_output=True, text=True)
    assert (run.returncode, run.stdout, run.stderr) == (2, "", "standard input: Bad file descriptor\n")


SLOW = """#!/bin/sh
echo $$ >> '{started}'
exec sleep 1000
"""


@pytest.mark.parametrize("number", [signal.SIGINT, signal.SIGTERM, signal.SIGHUP])
@pytest.mark.parametrize("words", [["run", *C17, C17_SCRIPT, "--program", "slow"], ["run", *C17, C17_SCRIPT, "--program", "slow", "--jobs", "3"],
                                   ["faults", *C17[:2], "PATTERNS", "--period", "5", "--program", "slow", "--jobs", "3", "--csv", "out"],
                                   ["diagnose", *C17[:2], "PATTERNS", "FAILURES", "--period", "5", "--program", "slow"],
                                   ["from-vcd", C17[0], "fifo", "top", "-o", "out"]])
def test_what_ends_a_command_leaves_no_process_and_no_folder(words: list[str], number: signal.Signals, write, tmp_path) -> None:
    folder = tmp_path / "temporary"
    folder.mkdir()
    started = tmp_path / "started"
    write("slow", SLOW.format(started=started)).chmod(0o755)
    os.mkfifo(tmp_path / "fifo")
    command = words_of(words[0], tmp_path)[:3] + [str(tmp_path / word) if word == "slow" else word for word in words]
    given = os.environ | {"PYTHONPATH": str(TOP / "python"), "TMPDIR": str(folder)}
    run = subprocess.Popen(command, cwd=tmp_path, env=given, stdout=subprocess.PIPE, stderr=subprocess.PIPE)
    if "fifo" in words:
        with open(tmp_path / "fifo", "w") as vcd:
            vcd.write(VCD)
            vcd.flush()
            run.send_signal(number)
            out, err = run.communicate(timeout=PATIENCE)
    else:
        wanted = 3 if words[0] == "run" and "--jobs" in words else 1
        wait_while_running(run, lambda: started.exists() and started.read_text().count("\n") >= wanted, "its programs are started")
        run.send_signal(number)
        out, err = run.communicate(timeout=PATIENCE)
    if words[0] == "faults":
        # what was known is told as partial, with the one status that it has for this
        assert (run.returncode, err) == (130, b"") and out.startswith(b"partial")
    else:
        assert (run.returncode, out, err) == (128 + number, b"", b"") and not (tmp_path / "out").exists()
    assert list(folder.iterdir()) == []
    assert not any(map(is_there, started.read_text().split() if started.exists() else []))


def test_no_control_character_reaches_a_terminal(write, tmp_path) -> None:
    """A file that is none has an escape code in its name and its text; on a terminal both are spelled out, on either stream."""
    netlist = write("a\x1b[31mb", "\x1b[32m\n")
    replies = write("replies", "INPUT(a)\n")
    journal = write("journal", "no line \x1b[33m of it\n")
    for words in (["names", netlist, journal], ["names", replies, journal]):
        main, terminal = pty.openpty()
        subprocess.run([sys.executable, "-m", "backsim", *words], cwd=TOP / "python", stdout=terminal, stderr=terminal)
        os.close(terminal)
        said = read_all(main)
        os.close(main)
        assert b"\x1b" not in said and b"\\x1b[3" in said


def test_control_characters_are_spelled() -> None:
    # a tab and a line feed stay, and letters that are no ASCII; the second byte of a control of ISO 6429 is told
    assert plain("a\tb\x1b[2J\r\x7fé\x9b\n".encode()) == b"a\tb\\x1b[2J\\x0d\\x7f\xc3\xa9\\x9b\n"


@pytest.mark.parametrize("words, cause", [
    (["journal", "JOURNAL", "--most", "3"], "--most is for --profile"), (["journal", "JOURNAL", "--picture", "out.svg"], "--picture is for --profile"),
    (["journal", "JOURNAL", "--netlist", C17[0]], "--netlist is for --profile"), (["run", *C17, C17_SCRIPT, "--parts", "out"], "--parts is for --plan"),
    (["run", *C17, C17_SCRIPT, "--plan", "slurm", "--journal", "out"], "--journal and --plan do not go together")])
def test_an_option_that_would_do_nothing_is_refused(words: list[str], cause: str, tools, tmp_path) -> None:
    run = tools(*words, cwd=tmp_path)
    assert (run.returncode, run.stdout, run.stderr.decode()) == (2, b"", f"backsim-tools {words[0]}: {cause}\n")


@pytest.mark.parametrize("words", [
    "faults n t p --period 5 --csv n", "faults n t p --period 5 --left t", "faults n t p --period 5 --prove-left p", "faults n t p --period 5 --list l --csv l",
    "faults n t p --period 5 --write-list n", "patterns n t -o n", "compact n t p --period 5 -o t", "from-patterns n p --period 5 -o p",
    "from-vcd n v top -o v", "from-vcd n v top --timing t --window t", "compare n t v top --stimulus n", "to-vcd r -o r", "to-verilog n t s script -o script",
    "why n t s 22 5 -o s.svg", "draw --replies r.svg -o r.svg"])
def test_no_file_that_is_read_is_written_over(words: str, tmp_path) -> None:
    files = {"n": C17[0], "t": C17[1], "s": C17[2], "r": C17_REPLIES, "r.svg": C17_REPLIES, "script": C17_SCRIPT}
    for name, file in files.items():
        (tmp_path / name).write_bytes(Path(file).read_bytes())
    for name, text in {"p": PATTERNS, "v": VCD, "l": "1 /0\n"}.items():
        (tmp_path / name).write_text(text)
    # a link to a file is that file
    (tmp_path / "s.svg").symlink_to("s")
    before = {file.name: file.read_bytes() for file in tmp_path.iterdir()}
    run = subprocess.run([sys.executable, "-m", "backsim", *words.split()], cwd=tmp_path, env=os.environ | {"PYTHONPATH": str(TOP / "python")},
                         capture_output=True, text=True, timeout=PATIENCE)
    assert (run.returncode, run.stdout) == (2, "")
    assert run.stderr == f"{words.split()[-1]}: the command reads this file, so it is not written over\n"
    assert {file.name: file.read_bytes() for file in tmp_path.iterdir()} == before
