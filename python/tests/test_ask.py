"""The prompt: what lines are answered, off a terminal and on one."""
from __future__ import annotations

import fcntl
import os
import pty
import select
import subprocess
import sys
import termios
import time
from collections.abc import Callable, Iterator, Sequence
from contextlib import contextmanager
from pathlib import Path

import pytest
from backsim.errors import UsageError
from backsim.prompting.complete import Names, completed
from backsim.prompting.lines import Asked, asked_by, time_in, value_in
from conftest import TOP
from processes import PATIENCE
from view_page import ring


def test_answers_to_lines(example, program, tools) -> None:
    """The values are those of docs/use/GUIDE.md: G17 is x up to 4, 1 from 5 on and 0 from 16 on, and of the README: 22 is 0 from 2 on."""
    lines = ["G17 4", "G17 0 end", "first G17 0", "why", "# nothing", "G99 4", "nonsense", "G1[7:0]", "stats 5", "quit", "G17 5"]
    done = tools("ask", *example("s27"), "--program", program, input="\n".join(lines).encode())
    said = done.stdout.decode().splitlines()
    assert said[:5] == ["G17 = x", "            0  x", "            5  1", "           16  0", "G17 is 0 at 16 first"]
    assert said[5].startswith("G17 is 0 at 16") and said[6].startswith("0: ") and "G17 = 1" not in said
    faults = done.stderr.decode().splitlines()
    assert [fault.split(": ")[0] for fault in faults] == [f"standard input:{number}" for number in (6, 7, 8, 9)] and done.returncode == 2
    assert "no signal G99; near it: G9" in faults[0] and "`stats 5` is no question" in faults[3]


def test_buses_patterns_and_budgets(example, program, tools) -> None:
    """The values are those of docs/use/GUIDE.md: register 1 is 10 at 2,050, and 6 at 3,550; the first needs more than a usual budget."""
    lines = ["registers[1] 2,050", "registers[1][15:0] 3,500 3,600", "first registers[1] 6", "registers[[12]*[0] 8000", "result[0] 8000",
             "why result[0] 8000", "names watch.meter*"]
    done = tools("ask", *example("from_verilog"), "--program", program, input="\n".join(lines).encode())
    said = done.stdout.decode().splitlines()
    assert said[:4] == ["registers[1][15:0] = 0x000a (10)", "        3,500  0x000a (10)", "        3,501  0x0006 (6)",
                        "registers[1][15:0] is 0x0006 (6) at 3,501 first"]
    assert said[4:7] == ["result[0] = x", "result[0] is x at 8,000",
                         "x: 9 flip-flops were never set before they were read: result[0], registers[0..7][0]"]
    assert "watch.meter[15:0]" in said and done.stderr == \
        f"standard input:4: no signal is of the pattern registers[[12]*[0]\n".encode()


def test_a_line_that_is_no_text_is_told(example, program, tools) -> None:
    done = tools("ask", *example("s27"), "--program", program, input=b"\xff 3\nG17 4\n", env={"PYTHONIOENCODING": "utf-8:strict"})
    assert (done.returncode, done.stdout) == (2, b"G17 = x\n")
    assert done.stderr.startswith(b"standard input:1: ") and done.stderr.endswith(b"there is no signal \\xff\n")


def test_forms_of_lines() -> None:
    assert asked_by("  # c") is None and asked_by("a 5 # c") == Asked("at", ("a", "5")) and asked_by("quit") == Asked("exit", ())
    assert asked_by("a 5 9") == Asked("wave", ("a", "5", "9")) and asked_by("a") == Asked("signal", ("a",)) and asked_by("why") == Asked("why", ())
    for line in ("at a", "a 1 2 3", "first a", "first a 1 2", "stuck a 1 b 0", "trim"):
        with pytest.raises(UsageError, match="is no question"):
            asked_by(line)
    assert (time_in("end", 40), time_in("1,200", 0), value_in("0x1f", 8), value_in("1X", 2), value_in("5", 3)) == \
        (40, 1200, "00011111", "1x", "101")
    for word in ("-1", "x", "9" * 30):
        with pytest.raises(UsageError, match="is no time"):
            time_in(word, 5)
    for word, bits in (("8", 3), ("z1", 3), ("", 1)):
        with pytest.raises(UsageError, match="is no value"):
            value_in(word, bits)


def test_names_are_completed() -> None:
    names = Names(["count[1]", "count[0]", "counter", "u1.a", "u1.b", "wave"])
    assert completed(names, "co", 0, "co") == ["count[1:0]", "counter"] and completed(names, "why count[", 4, "count[") == ["count[0]", "count[1]"]
    assert completed(names, "wa", 0, "wa") == ["wave ", "wave"] and completed(names, "at u", 3, "u") == ["u1.a", "u1.b"]
    # whole names, each bus as it was declared, also of a memory, and of a bus that lacks bits the ranges that are there
    buses = Names([*(f"{bus}[{bit}]" for bus in ("sum", "key", "m[0]", "m[1]") for bit in range(12)), "gap[0]", "gap[2]", "one[3]"], {"key": "key[0:11]"})
    assert completed(buses, "at ", 3, "") == ["gap[2]", "gap[0]", "key[0:11]", "m[0][11:0]", "m[1][11:0]", "one[3]", "sum[11:0]"]
    many = Names([f"u{place}.x{bit}" for place in range(30) for bit in range(30)])
    assert completed(many, "at u", 3, "u") == sorted(f"u{place}." for place in range(30))


@contextmanager
def prompted(files: Sequence[object], program: str, state: Path) -> Iterator[tuple[Callable[[str, str], str], subprocess.Popen[bytes]]]:
    """A prompt on a terminal of its own: `typed` types keys and gives what is shown until a text comes, and behind a line the next prompt."""
    main, side = pty.openpty()
    environment = os.environ | {"PYTHONPATH": str(TOP / "python"), "XDG_STATE_HOME": str(state), "TERM": "dumb"}
    process = subprocess.Popen([sys.executable, "-m", "backsim", "ask", *map(str, files), "--program", program], stdin=side, stdout=side, stderr=side,
                               env=environment, start_new_session=True, preexec_fn=lambda: fcntl.ioctl(0, termios.TIOCSCTTY, 0))
    os.close(side)

    def typed(keys: str, until: str) -> str:
        os.write(main, keys.encode())
        shown, ends = "", time.monotonic() + PATIENCE
        while until not in shown or keys.endswith("\n") and "> " not in shown.rpartition(until)[2]:
            assert time.monotonic() < ends, f"{until!r} does not come, but {shown!r}"
            if select.select([main], [], [], 1)[0]:
                shown += os.read(main, 4096).decode()
        return shown

    try:
        yield typed, process
    finally:
        process.kill()
        process.wait()
        os.close(main)


@pytest.fixture
def terminal(example, program, tmp_path):
    with prompted(example("from_verilog"), program, tmp_path) as found:
        yield found


def test_a_terminal(terminal, tmp_path) -> None:
    pytest.importorskip("readline", reason="this Python has no readline")
    typed, process = terminal
    typed("", "> ")
    assert "valid = 0" in typed("valid 4\n", "valid = ")
    # Ctrl-C, also at once behind a line, gives up what was typed
    for _ in range(20):
        assert "valid = 1" not in typed("valid 7999\x03", "\n") + typed("valid 4\n", "valid = ")
    # Tab, the line before by the arrow key, and a line that has no answer
    assert "watch.meter[0] = 0" in typed("at watch.meter[0\t 551\n", "watch.meter[0] = ")
    assert "watch.meter[0] = 0" in typed("\x10\n", "watch.meter[0] = ")
    assert "there is no signal G98" in typed("G98 1\n", "no signal G98")
    typed("\x04", "\n")
    assert process.wait(PATIENCE) == 0
    assert "valid 4" in (tmp_path / "backsim" / "history").read_text().splitlines()


def test_ctrl_c_gives_an_answer_up_wherever_it_is(write, program, tmp_path) -> None:
    """The answer takes the program some time, and then the command some more to explain it; Ctrl-C on a terminal reaches both."""
    pytest.importorskip("readline", reason="this Python has no readline")
    with prompted(ring(write), program, tmp_path) as (typed, process):
        typed("", "> ")
        # the stops go from the first question of the program to the last line of the explanation
        said = ""
        for wait in (0.0, 0.3, 0.7, 1.1, 1.5):
            typed("why r0 99900\r", "\n")
            time.sleep(wait)
            said += typed("\x03", "> ")
            assert "r0 = 0" in typed("r0 0\n", "r0 = "), wait
        assert "given up" in said and process.poll() is None


def test_a_signal_is_answered_before_the_netlist_is_read(example, program, monkeypatch) -> None:
    from backsim import Session
    from backsim.prompting.answers import Answers

    with Session(*example("from_verilog"), program=program) as session:
        answers = Answers(session, "n", "s")
        with monkeypatch.context() as patched:
            patched.setattr("backsim.session.session.read_netlist", lambda path: pytest.fail("the netlist is read"))
            assert list(answers.lines("valid 4")) == ["valid = 0"] and list(answers.lines("first valid 0")) == ["valid is 0 at 0 first"]
        assert list(answers.lines("registers[1] 2,050")) == ["registers[1][15:0] = 0x000a (10)"]
