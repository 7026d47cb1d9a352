#!/usr/bin/env python3
"""What the Python package adds to the program: sessions of 10,000 questions, and scripts that are divided over processes. Prints the
shortest of five times each (with jobs of nine for `outputs`, and of three), taken in turn, in seconds; all replies must be the same, or
the script ends with status 1.

    bench/python/run.py [session] [jobs]

- session: `Session` asks 10,000 questions, four values to one wave of 20 instants, of c17, and of 100 layers of 20 gates (the circuit of
  bench/icarus/generate.py) at times near one another; beside the program with the same script. Neither has Python's start in it.
- jobs: scripts about 100 layers of 200 gates by the program, and by `backsim-tools run`, in the Python that runs this script, with 1, 2
  and 4 processes of one worker each.
  `outputs` asks each gate of the last layer at one time; `by output` asks each at sixteen times, one gate after another, and `by time`
  asks the same, one time after another; `longer` does so for 50 times. The counts of evaluations are those of all processes."""
from __future__ import annotations

import os
import random
import subprocess
import sys
import tempfile
import time
from collections.abc import Callable
from pathlib import Path

TOP = Path(__file__).resolve().parents[2]
sys.path[:0] = [str(TOP / "python"), str(TOP / "bench" / "icarus")]
from backsim import Answer, At, Session, Wave  # noqa: E402
from backsim.formats.script import AtLine, WaveLine, parse_script  # noqa: E402
from generate import main as generate  # noqa: E402

PROGRAM = subprocess.run([TOP / "tools" / "program", "backsim"], check=True, stdout=subprocess.PIPE, text=True).stdout.strip()
C17 = tuple(str(TOP / "examples" / "c17" / f"c17.{kind}") for kind in ("bench", "timing", "stim"))


def shortest(*ways: Callable[[], None], runs: int = 5) -> list[float]:
    """The shortest time of each way, all taken in turn."""
    times: list[list[float]] = [[] for _ in ways]
    for _ in range(runs):
        for way, own in zip(ways, times):
            began = time.perf_counter()
            way()
            own.append(time.perf_counter() - began)
    return [min(own) for own in times]


def same(one: bytes, other: bytes, what: str) -> None:
    if one != other:
        sys.exit(f"bench/python: the replies of {what} are not those of the program")


def questions(names: list[str], first: int, last: int) -> str:
    draw = random.Random(1)
    lines = []
    for place in range(10_000):
        name, start = draw.choice(names), draw.randint(first, last - 20)
        lines.append(f"wave {name} {start} {start + 20}\n" if place % 5 == 4 else f"at {name} {start}\n")
    return "".join(lines)


def text_of(answers: list[Answer]) -> bytes:
    """The replies that the answers are."""
    found: list[str] = []
    for one in answers:
        if isinstance(one, Wave):
            found += [f"wave {one.name} {one.start} {one.stop}\n", *(f"{time} {value}\n" for time, value in one.changes), "end\n"]
        else:
            assert isinstance(one, At)
            found.append(f"at {one.name} {one.time} {one.value}\n")
    return "".join(found).encode()


def session(what: str, files: tuple[str, ...], script: str, folder: Path) -> None:
    (folder / "script").write_text(script)
    lines = list(parse_script(script.encode()))
    answers: list[Answer] = []

    def by_program() -> None:
        with open(folder / "script", "rb") as source, open(folder / "replies", "wb") as replies:
            subprocess.run([PROGRAM, *files, folder / "journal"], stdin=source, stdout=replies, check=True)

    def by_batch() -> None:
        with Session(*files, program=PROGRAM, journal=folder / "journal") as asked, asked.batch() as batch:
            for line in lines:
                if isinstance(line, AtLine):
                    batch.at(line.name, line.time)
                elif isinstance(line, WaveLine):
                    batch.wave(line.name, line.start, line.stop)
        answers[:] = batch.results

    def by_lines() -> None:
        with Session(*files, program=PROGRAM, journal=folder / "journal") as asked:
            answers[:] = asked.ask(lines)

    for way in (by_batch, by_lines):
        by_program()
        way()
        same(text_of(answers), (folder / "replies").read_bytes(), what)
    plain, batch, asked = shortest(by_program, by_batch, by_lines)
    print(f"session, {what}: program {plain:.3f}, batch {batch:.3f} ({batch / plain:.2f}), ask {asked:.3f} ({asked / plain:.2f})", flush=True)


def sessions(folder: Path) -> None:
    # a horizon of 10 leaves no wave of 20 instants, so c17 gets a longer one
    stimulus = folder / "c17.stim"
    stimulus.write_text(Path(C17[2]).read_text().replace("horizon 10", "horizon 100"))
    session("c17", (*C17[:2], str(stimulus)), questions("1 2 3 6 7 10 11 16 19 22 23".split(), 0, 100), folder)
    generate(str(folder), 20, 1000, 1)
    names = [f"g{layer}_{place}" for layer in range(100) for place in range(20)]
    session("2,000 gates", tuple(str(folder / f"workload.{kind}") for kind in ("bench", "timing", "stim")), questions(names, 500, 600), folder)


def jobs(folder: Path) -> None:
    generate(str(folder), 200, 1000, 1)
    files = [str(folder / f"workload.{kind}") for kind in ("bench", "timing", "stim")]
    times = range(150, 950, 50)
    by_output = [f"at g99_{place} {at} 15000\n" for place in range(200) for at in times]
    by_time = [f"at g99_{place} {at} 15000\n" for at in times for place in range(200)]
    longer = [f"at g99_{place} {at} 15000\n" for at in range(150, 950, 16) for place in range(200)]
    for name, lines in (("by output", by_output), ("by time", by_time), ("longer", longer)):
        (folder / f"{name}.script").write_text("".join(lines))
    # compiled modules are kept, as they are where a command has run before
    environment = os.environ | {"BACKSIM": PROGRAM, "PYTHONPATH": str(TOP / "python")}
    environment.pop("PYTHONDONTWRITEBYTECODE", None)
    tools = [sys.executable, "-m", "backsim"]

    def by_program(script: Path, *words: str) -> Callable[[], None]:
        def way() -> None:
            with open(script, "rb") as source, open(folder / "whole", "wb") as replies:
                subprocess.run([PROGRAM, *files, folder / "journal", *words], stdin=source, stdout=replies, check=True)
        return way

    def by_run(script: Path, count: int) -> Callable[[], None]:
        def way() -> None:
            with open(folder / f"{count}", "wb") as replies:
                subprocess.run([*tools, "run", *files, script, "--jobs", str(count), "--workers", "1", "--journal",
                                folder / f"journal{count}"], stdout=replies, stderr=subprocess.DEVNULL, env=environment, check=True)
        return way

    def fills(count: int) -> int:
        paths = [folder / f"journal{count}"] if count == 1 else sorted(folder.glob(f"journal{count}.*"))
        return sum(path.read_bytes().count(b"\nfill ") for path in paths)

    (folder / "empty.script").write_text("")

    def python_alone() -> None:
        subprocess.run([sys.executable, "-c", ""], check=True)

    empty, start = shortest(by_program(folder / "empty.script", "--workers", "1"), python_alone, runs=9)
    print(f"jobs: an empty script {empty:.3f}, Python alone {start:.3f}", flush=True)
    for name in ("outputs", "by output", "by time", "longer"):
        script = folder / f"{name}.script"
        ways = [by_program(script, "--workers", "1"), by_program(script), *(by_run(script, count) for count in (1, 2, 4))]
        one, four, *runs = shortest(*ways, runs=9 if name == "outputs" else 3)
        for count in (1, 2, 4):
            same((folder / f"{count}").read_bytes(), (folder / "whole").read_bytes(), f"{count} jobs")
        shown = ", ".join(f"{count} jobs {took:.3f} ({fills(count)} evaluations)" for count, took in zip((1, 2, 4), runs))
        print(f"jobs, {name}: program with 1 worker {one:.3f}, with 4 {four:.3f}; run: {shown}", flush=True)


def main(words: list[str]) -> int:
    wanted = {"session": sessions, "jobs": jobs}
    if set(words) - set(wanted):
        print(f"usage: bench/python/run.py {' '.join(f'[{name}]' for name in wanted)}", file=sys.stderr)
        return 2
    for name in words or wanted:
        with tempfile.TemporaryDirectory() as folder:
            wanted[name](Path(folder))
    return 0


if __name__ == "__main__":
    sys.exit(main(sys.argv[1:]))
