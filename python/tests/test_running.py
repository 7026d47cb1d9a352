"""The commands run, split and join: the replies are those of one session, byte for byte, and what goes wrong is told."""
from __future__ import annotations

import os
import pty
import shutil
import signal
import subprocess
import sys
from pathlib import Path

import pytest
from backsim.commands import run as run_command
from backsim.main import main
from backsim.scripts.parts import divide, text_lines, text_of, with_every_go
from conftest import TOP, read_all
from processes import PATIENCE, is_there, wait_while_running

STAND_IN = str(Path(__file__).with_name("stand_in.py"))
# gets a reply of every kind but those of stats, trim and vcd lines
EVERY_KIND = "".join(f"""wave {name} 0 31
at {name} 17 # a comment

wave {name} 20 9
  wave {name} 3 30 9000
at {name}
go
past {name} 1
wave {name} 0 33
at nowhere 1
at {name} 5 600000
# nothing
go on
stats of what
trim 70000
at {name} 9
first {name} 1 0 31
why {name} 9
vcd a b
vcd a(b
why {name} 31
stuck G9 1 {name} 0 31
stuck nowhere 0 {name} 0 31
stuck {name} 0 G17 0 31 1
stuck {name} 1 nowhere 0 31
stuck {name} x G17 0 31
at {name} 9\r
\tgo\r
{'0' * 5000}
\x01
""" for name in "G0 G5 G6 G7 G8 G9 G10 G11 G13 G15 G16 G17".split()) + "wave G17 0 31"
FEW = "".join(f"at {name} {time}\n" for time in range(0, 20, 4) for name in ("G5", "G8", "G17")) + "wave G17 0 20\nfirst G17 1 0 20\n"


def session(program: str, files: list[str], script: Path, folder: Path) -> bytes:
    """What the program writes for the script."""
    with open(script, "rb") as stream:
        return subprocess.run([program, *files, folder / "own.journal"], stdin=stream, capture_output=True).stdout


@pytest.mark.parametrize("jobs", [1, 2, 4, 7, 1000])
def test_replies_are_those_of_one_session(jobs: int, program: str, example, tools, write, tmp_path) -> None:
    script = write("script", EVERY_KIND)
    run = tools("run", *example("s27"), script, "--jobs", jobs, "--program", program)
    assert run.returncode == 0
    assert run.stdout == session(program, example("s27"), script, tmp_path)
    if jobs == 1:
        assert run.stderr == b""


def test_a_script_from_standard_input_and_a_kept_journal(program: str, example, tools, write, tmp_path) -> None:
    script = b"wave G17 0 31\nstats\ntrim 0\nat G17 3\n"
    run = tools("run", *example("s27"), "-", "--journal", tmp_path / "kept", "--shards", 1, "--program", program, input=script)
    assert run.returncode == 0
    assert run.stdout == session(program, [*example("s27")], write("script", script), tmp_path)
    assert (tmp_path / "kept").read_text().startswith("journal shards 1 cells 65536\n")
    run = tools("run", *example("s27"), write("few", FEW), "--journal", tmp_path / "kept", "--jobs", 3, "--program", program)
    assert run.returncode == 0
    assert sorted(path.name for path in tmp_path.glob("kept.*")) == ["kept.1", "kept.2", "kept.3"]


FAULTY = """#!/bin/sh
# each process but the last of a journal ends by a fault, after some lines of its replies
for journal; do :; done
count=$(cat "$journal.count" 2>/dev/null || echo 0)
echo $((count + 1)) > "$journal.count"
if [ "$count" -lt "$FAULTS" ]; then '{program}' "$@" 2>/dev/null | head -n "$LINES_FIRST"; {end}; fi
exec '{program}' "$@"
"""


@pytest.mark.parametrize("end", ["exit 4", "kill -9 $$"])
@pytest.mark.parametrize("first", ["0", "1", "5", "7"])
def test_a_part_that_a_fault_ended_is_run_again(end: str, first: str, example, tools, write, tmp_path) -> None:
    script, whole = write("script", FEW), tools("run", *example("s27"), write("few", FEW), "--program", STAND_IN)
    assert whole.returncode == 0 and whole.stdout.count(b"\n") > 15
    program = write("faulty", FAULTY.format(program=STAND_IN, end=end))
    program.chmod(0o755)
    words = ["run", *example("s27"), script, "--jobs", 3, "--program", program, "--journal", tmp_path / "journal"]
    run = tools(*words, env={"FAULTS": "2", "LINES_FIRST": first})
    assert (run.returncode, run.stdout) == (0, whole.stdout)
    assert run.stderr == b"6 times a part was run again after a fault\n"
    for path in tmp_path.glob("*.count"):
        path.unlink()
    run = tools(*words, env={"FAULTS": "3", "LINES_FIRST": first})
    assert run.returncode == (4 if "exit" in end else 137)
    assert whole.stdout.startswith(run.stdout)
    assert run.stderr.count(b"\n") == 1 and b"lines were answered before" in run.stderr


@pytest.mark.parametrize("how, cause", [("leave 3", b"is no reply to"), ("cut 3", b"ended before all"), ("empty", b"ended before all")])
def test_a_reply_that_is_missing_is_told(how: str, cause: bytes, example, tools, write) -> None:
    run = tools("run", *example("s27"), write("script", FEW), "--program", STAND_IN, env={"STAND_IN": how})
    assert run.returncode == 1
    assert cause in run.stderr and run.stderr.count(b"\n") == 1
    assert run.stdout.count(b"\n") == (0 if how == "empty" else 2)


@pytest.mark.parametrize("jobs", [1, 3])
def test_a_refusal_is_told_in_words(jobs: int, program: str, example, tools, write, tmp_path) -> None:
    _, timing, stimulus = example("s27")
    netlist = write("bad.bench", (TOP / "examples/s27/s27.bench").read_text() + "G18 = NAND(G17, nowhere)\n")
    line = netlist.read_text().count("\n")
    script = write("script", FEW)
    run = tools("run", netlist, timing, stimulus, script, "--jobs", jobs, "--program", program)
    assert run.returncode == 2
    assert run.stdout == f"refused netlist line {line} cause 5\n".encode()
    assert run.stderr.decode() == (f"{netlist}:{line}: a name is used as a pin or an output that no line defines: "
                                   "`G18 = NAND(G17, nowhere)`\n")
    run = tools("run", tmp_path / "nothing", timing, stimulus, script, "--jobs", jobs, "--program", program)
    assert (run.returncode, run.stdout) == (5, b"")
    assert run.stderr.decode().startswith(f"{tmp_path / 'nothing'}: the netlist could not be opened")
    assert b"No such file" in run.stderr and run.stderr.count(b"\n") == 1


@pytest.mark.parametrize("line", ["stats", "trim 5", "vcd file"])
def test_lines_about_the_whole_session_are_not_divided(line: str, example, tools, write, tmp_path) -> None:
    script = write("script", f"at G17 3\n{line}\n")
    for words in (["run", *example("s27"), script, "--jobs", 2, "--program", STAND_IN], ["split", script, 2, tmp_path / "parts"]):
        run = tools(*words)
        assert (run.returncode, run.stdout) == (2, b"")
        assert run.stderr.decode().startswith(f"{script}:2: the reply to `{line}` depends on the whole session")
    assert not (tmp_path / "parts").exists()


def test_what_memo_would_have_held_all(program: str, tools, write, monkeypatch, capsys) -> None:
    """The end and the middle of a chain of twelve inverters are asked by turns over a memo of one cell: every evaluation but the first
    of each point is of one that was let go. Each inverter has one cell."""
    netlist = write("netlist", "INPUT(n0)\n" + "".join(f"n{place + 1} = NOT(n{place})\n" for place in range(12)))
    files = [netlist, write("timing", ""), write("stimulus", "horizon 50\nset n0 0 0\n")]
    script = write("script", "at n12 40\ngo\nat n6 40\ngo\n" * 5)
    run = tools("run", *files, script, "--shards", 1, "--cells", 1, "--workers", 1, "--program", program)
    assert run.returncode == 0 and run.stdout == b"at n12 40 0\nat n6 40 0\n" * 5
    assert b"evaluations were of points that were evaluated before" in run.stderr
    assert run.stderr.endswith(b"--shards 1 --cells 12 would have held all\n")
    run = tools("run", *files, script, "--shards", 1, "--cells", 12, "--workers", 1, "--program", program)
    assert (run.returncode, run.stderr) == (0, b"")
    # a journal that is too long to be read for this is not read
    monkeypatch.setattr(run_command, "_MOST_READ", 100)
    assert main(["run", *map(str, files), str(script), "--shards", "1", "--cells", "1", "--workers", "1", "--program", program]) == 0
    assert "cells were evicted, for" in capsys.readouterr().err


def test_parts_keep_numbers_and_order() -> None:
    lines = list(text_lines(b"at a 1\n\nat b 2\ngo\nbad\n# nothing\nat c 3"))
    parts = divide(lines, 2)
    assert [[line.number for line in part] for part in parts] == [[1, 3, 4], [5, 7]] or [
        [line.number for line in part] for part in parts] == [[1, 3], [4, 5, 7]]
    assert b"".join(text_of(parts[0])).startswith(b"at a 1\n\nat b 2\n")
    assert b"".join(text_of(with_every_go(parts[1], lines))) == b"\n\n\ngo\nbad\n\nat c 3\n"
    assert [len(part) for part in divide(lines, 9)].count(0) >= 4


def test_split_and_join_are_one_session(program: str, example, tools, write, tmp_path) -> None:
    script, parts = write("script", EVERY_KIND), tmp_path / "parts"
    assert tools("split", script, 7, parts).returncode == 0
    assert sorted(path.name for path in parts.iterdir()) == [f"{number}.script" for number in range(1, 8)]
    for number in range(1, 8):
        (parts / f"{number}.replies").write_bytes(session(program, example("s27"), parts / f"{number}.script", tmp_path))
    run = tools("join", parts)
    assert (run.returncode, run.stdout) == (0, session(program, example("s27"), script, tmp_path))
    again = tools("split", script, 7, parts)
    assert again.returncode == 2 and again.stderr.decode() == f"{parts}: it is there already\n"


JOINED = {"1.script": "at a 1\nwave b 0 5\n", "1.replies": "at a 1 0\nwave b 0 5\n0 x\nend\n",
          "2.script": "\n\nat c 3\nfirst a 1 0 9\n", "2.replies": "at c 3 1\nbudget a 50000\n"}


def joined(tools, tmp_path: Path, **changes: str | None) -> subprocess.CompletedProcess[bytes]:
    shutil.rmtree(tmp_path / "parts", ignore_errors=True)
    (tmp_path / "parts").mkdir()
    for name, text in (JOINED | {name.replace("_", "."): text for name, text in changes.items()}).items():
        if text is not None:
            (tmp_path / "parts" / name.lstrip(".")).write_text(text)
    return tools("join", tmp_path / "parts")


def test_join_says_which_lines_were_answered_by_their_budget(tools, tmp_path) -> None:
    run = joined(tools, tmp_path)
    assert (run.returncode, run.stdout.decode()) == (0, JOINED["1.replies"] + JOINED["2.replies"])
    assert run.stderr.startswith(b"lines answered by their budget: 4;")


@pytest.mark.parametrize("file, text, place", [
    ("2.replies", None, "2.replies: No such file"), ("2.replies", "", "2.replies:1: the file ends where the reply to line 3"),
    ("2.replies", "at c 3 1\n", "2.replies:2: the file ends where the reply to line 4"),
    ("2.replies", "first a 1 0 9 none\n", "2.replies:1: `first a 1 0 9 none` is no reply to line 3"),
    ("2.replies", "at c 4 1\nbudget a 50000\n", "2.replies:1: `at c 4 1` is no reply to line 3"),
    ("2.replies", "at c 3 1\nbudget a 50000\nat c 3 1\n", "2.replies:3: `at c 3 1` is a reply to no line"),
    ("2.replies", "at c 3 1\nbudget a 5", "2.replies:2: the file is cut in this line"),
    ("1.replies", "at a 1 0\nwave b 0 5\n0 x\n", "1.replies:4: the file ends before the line `end`"),
    ("1.replies", "at a 1 0\nwave b 0 5\n1 x\nend\n", "1.replies:4: the lines of `wave b` are not those of its window"),
    ("1.replies", "refused netlist line 1 cause 1\n", "1.replies:1: this session was refused"),
    ("1.replies", "at a 1 0\nrefused script too long\n", "1.replies:2: the session was refused"),
    ("1.replies", "what is this\n", "1.replies:1: expected a reply")])
def test_replies_that_do_not_join(file: str, text: str | None, place: str, tools, tmp_path) -> None:
    run = joined(tools, tmp_path, **{file.replace(".", "_"): text})
    assert (run.returncode, run.stdout) == (2, b"")
    assert run.stderr.decode().startswith(f"{tmp_path}/parts/{place}") and run.stderr.count(b"\n") == 1


def test_join_of_sessions_that_were_all_refused(tools, tmp_path) -> None:
    text = "refused netlist line 3 cause 1\n"
    run = joined(tools, tmp_path, **{"1_replies": text, "2_replies": text})
    assert (run.returncode, run.stdout.decode(), run.stderr) == (2, text, b"")
    run = joined(tools, tmp_path, **{"1_replies": text, "2_replies": text.replace("3", "4")})
    assert run.returncode == 2 and run.stdout == b"" and run.stderr.count(b"\n") == 1


@pytest.mark.skipif(shutil.which("parallel") is None, reason="GNU parallel is not there")
def test_the_plan_of_gnu_parallel(program: str, example, tools, write, tmp_path) -> None:
    folder = tmp_path / "a folder"
    folder.mkdir()
    script = write("script", EVERY_KIND)
    plan = tools("run", *example("s27"), script, "--jobs", 4, "--plan", "parallel", "--parts", folder / "parts", "--program", program)
    assert plan.returncode == 0 and not (folder / "parts").exists()
    assert b"--joblog" in plan.stdout and b"--resume" in plan.stdout
    for _ in range(2):
        # the second time the parts are there, and what the job log says to be done is not run again
        commands = plan.stdout.decode() if not (folder / "parts").exists() else plan.stdout.decode().split("\n", 1)[1]
        subprocess.run(["sh", "-e", "-c", commands], cwd=tmp_path, check=True, stderr=subprocess.DEVNULL)
        assert (tmp_path / "replies").read_bytes() == session(program, example("s27"), script, tmp_path)


def test_the_plan_of_slurm(example, tools, write, tmp_path) -> None:
    """A stand-in for sbatch runs the wrapped command once for each number of the array."""
    binaries = tmp_path / "bin"
    binaries.mkdir()
    sbatch = binaries / "sbatch"
    sbatch.write_text("""#!/bin/sh
for word; do case $word in --array=1-*) last=${word#--array=1-};; esac; command=$word; done
for SLURM_ARRAY_TASK_ID in $(seq "$last"); do export SLURM_ARRAY_TASK_ID; sh -c "$command" || exit 1; done
""")
    sbatch.chmod(0o755)
    script = write("script", FEW)
    plan = tools("run", *example("s27"), script, "--jobs", 3, "--plan", "slurm", "--parts", "the parts", "--program", STAND_IN)
    assert plan.returncode == 0 and b"--array=1-3" in plan.stdout
    environment = os.environ | {"PATH": f"{binaries}:{os.environ['PATH']}"}
    subprocess.run(["sh", "-e", "-c", plan.stdout], cwd=tmp_path, check=True, env=environment)
    assert (tmp_path / "replies").read_bytes() == tools("run", *example("s27"), script, "--program", STAND_IN).stdout


@pytest.mark.parametrize("jobs", ["1", "3"])
def test_an_interrupt_while_a_process_starts_leaves_none(jobs: str, example, write, tmp_path) -> None:
    program = write("slow", f"#!/bin/sh\necho $$ >> '{tmp_path}/started'\nkill -INT $PPID\nexec sleep 1000\n")
    program.chmod(0o755)
    words = [sys.executable, "-m", "backsim", "run", *example("s27"), write("script", FEW), "--program", program, "--jobs", jobs]
    for _ in range(5):
        run = subprocess.run(words, cwd=TOP / "python", capture_output=True, timeout=PATIENCE)
        assert (run.returncode, run.stdout, run.stderr) == (130, b"", b"")
    assert not any(map(is_there, (tmp_path / "started").read_text().split()))


@pytest.mark.parametrize("jobs", ["1", "3"])
def test_an_interrupted_run_leaves_no_process(jobs: str, example, write, tmp_path) -> None:
    program = write("slow", f"#!/bin/sh\necho $$ >> '{tmp_path}/started'\nexec sleep 1000\n")
    program.chmod(0o755)
    words = [sys.executable, "-m", "backsim", "run", *example("s27"), write("script", FEW), "--program", program, "--jobs", jobs]
    run = subprocess.Popen(words, cwd=TOP / "python", stdout=subprocess.PIPE, stderr=subprocess.PIPE)
    started = tmp_path / "started"
    wait_while_running(run, lambda: started.exists() and started.read_text().count("\n") >= int(jobs), "its programs are started")
    run.send_signal(signal.SIGINT)
    out, err = run.communicate(timeout=PATIENCE)
    assert (run.returncode, out, err) == (130, b"", b"")
    assert not any(map(is_there, started.read_text().split()))


def test_a_bar_where_standard_error_is_a_terminal(example, write, tmp_path) -> None:
    pytest.importorskip("tqdm")
    main, terminal = pty.openpty()
    words = [sys.executable, "-m", "backsim", "run", *example("s27"), write("script", FEW), "--program", STAND_IN]
    run = subprocess.run(words, cwd=TOP / "python", stdout=subprocess.PIPE, stderr=terminal)
    os.close(terminal)
    said = read_all(main).decode()
    os.close(main)
    assert run.returncode == 0
    assert "17/17" in said and "evaluations=" in said
