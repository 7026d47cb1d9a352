"""A circuit whose questions are asked of this program and of Icarus Verilog, and the rows of a table that come of it."""
from __future__ import annotations

import os
import subprocess
import sys
import time
from collections.abc import Sequence
from typing import BinaryIO

TOP = os.path.dirname(os.path.dirname(os.path.dirname(os.path.abspath(__file__))))
PROGRAM = subprocess.run([os.path.join(TOP, "tools", "program"), "backsim"], check=True, stdout=subprocess.PIPE, text=True).stdout.strip()
LONG = 60  # seconds; what takes longer is run once, and else three times
# of each model the compiled one, and how long the compilation took
Models = dict[str, tuple[str, float]]
# of each model how long a run took, and whether its replies are this program's
Running = dict[str, tuple[float, bool]]


def tool(*words: str) -> bytes:
    return subprocess.run([os.path.join(TOP, "backsim-tools"), *words], check=True, stdout=subprocess.PIPE).stdout


def timed(words: Sequence[str], runs: int = 3, cwd: str | None = None, stdin: BinaryIO | None = None,
          stderr: int | None = None) -> tuple[bytes, float]:
    """The standard output of a command, and the shortest of its wall times."""
    output, best = b"", float("inf")
    for _ in range(runs):
        start = time.monotonic()
        output = subprocess.run(words, check=True, cwd=cwd, stdin=stdin, stdout=subprocess.PIPE, stderr=stderr).stdout
        took = time.monotonic() - start
        best = min(best, took)
        if took > LONG:
            break
    return output, best


def in_order(output: bytes) -> bytes:
    """The replies of a Verilog run in the order of the script."""
    lines = sorted((line.split(b" ", 1) for line in output.splitlines()), key=lambda line: int(line[0]))
    return b"".join(text + b"\n" for _, text in lines)


class Circuit:
    """The files of one circuit, and the table's rows that come of it."""

    def __init__(self, work: str, stem: str, name: str, horizon: int) -> None:
        self.work, self.stem, self.name, self.horizon = work, stem, name, horizon

    def files(self) -> list[str]:
        return [f"{self.stem}.{kind}" for kind in ("bench", "timing", "stim")]

    def path(self, name: str) -> str:
        return os.path.join(self.work, name)

    def backsim(self, script: bytes, *options: str) -> tuple[bytes, float]:
        """The replies to a script, and the shortest of the times."""
        with open(self.path("asked.script"), "wb") as file:
            file.write(script)

        def session() -> tuple[bytes, float]:
            with open(self.path("asked.script"), "rb") as asked:
                return timed([PROGRAM, *self.files(), self.path("journal"), *options], runs=1, stdin=asked)

        runs = [session()]
        while len(runs) < 3 and runs[0][1] < LONG:
            runs.append(session())
        return runs[0][0], min(took for _, took in runs)

    def compiled(self, model: str, *asked: str) -> tuple[str, float]:
        """A compiled model, and how long the compilation took."""
        verilog, binary = self.path("model.v"), self.path(f"model{len(os.listdir(self.work))}")
        with open(verilog, "wb") as file:
            file.write(tool("to-verilog", *(["--primitives"] if model == "primitives" else []), *self.files(), *asked))
        return binary, timed(["iverilog", "-g2005", "-s", "circuit", "-o", binary, verilog], runs=1)[1]

    def models(self, *asked: str) -> Models:
        return {model: self.compiled(model, *asked) for model in ("transport", "primitives")}

    def row(self, session: str, compiling: float | None, running: Running, own: float) -> None:
        best = min(time for time, same in running.values() if same)
        cells = [self.name, f"{self.horizon:,}", session, f"{compiling:.2f}" if compiling else ""]
        cells += [f"{took:.2f}" if same else f"({took:.2f})" for took, same in running.values()]
        print("|", " | ".join([*cells, f"{own:.2f}", f"{best / own:.2g}"]), "|", flush=True)

    def compare(self, session: str, expected: bytes, models: Models) -> Running:
        """Runs the models, and says of each how long it took and whether its replies are this program's."""
        running: Running = {}
        for model, (binary, _) in models.items():
            output, took = timed(["vvp", "-n", binary])
            running[model] = took, in_order(output) == expected
        if not running["transport"][1]:
            sys.exit(f"{self.name}, {session}: the replies differ")
        return running

    def questions(self, session: str, script_path: str, *options: str) -> tuple[Models, bytes, Running]:
        with open(script_path, "rb") as file:
            script = file.read()
        models = self.models(script_path)
        replies, own = self.backsim(script, *options)
        running = self.compare(session, replies, models)
        self.row(session, models["transport"][1], running, own)
        return models, script, running

    def one_by_one(self, models: Models, script: bytes, whole: float) -> None:
        """The rows of single questions, of as many of the script as the time of a whole run allows."""
        lines = script.splitlines(keepends=True)
        count = 1 if whole > 5 * LONG else 2 if whole > LONG / 4 else len(lines)
        own = 0.0
        running: Running = {model: (0.0, True) for model in models}
        for number, line in enumerate(lines[:count], 1):
            replies, took = self.backsim(line)
            own += took / count
            for model, (binary, _) in models.items():
                output, took = timed(["vvp", "-n", binary, f"+line={number}"], runs=1)
                total, same = running[model]
                running[model] = total + took / count, same and in_order(output) == replies
        if not running["transport"][1]:
            sys.exit(f"{self.name}, one: the replies differ")
        self.row("one", None, running, own)
        waiting = self.backsim(b"go\n".join([*lines, b""]))[1] - self.backsim(b"")[1]
        self.row("next", None, running, waiting / len(lines))

    def everything(self, script_path: str) -> None:
        with open(script_path, "rb") as file:
            script = file.read()
        replies, own = self.backsim(script, "--shards", "64", "--cells", "65536")
        running: Running = {}
        models = self.models("--dump", self.path("all.vcd"))
        for model, (binary, _) in models.items():
            _, took = timed(["vvp", "-n", binary], stderr=subprocess.DEVNULL)
            words = [self.files()[0], self.path("all.vcd"), "circuit", "--ticks", "10", "--script", script_path]
            running[model] = took, tool("from-vcd", *words) == replies
        if not running["transport"][1]:
            sys.exit(f"{self.name}, everything: the replies differ")
        self.row("everything", models["transport"][1], running, own)
