#!/usr/bin/env python3
"""Times the page of `backsim-tools view`, and the prompt `ask`, on 200,000 gates with 100,000 times: 100 layers over 16 inputs
(bench/icarus/generate.py), ten signals of the last layer in view.

    bench/view/run.py [SCROLLS] [WIDTH]

A headless Chromium is driven as in the tests (python/tests/browser.py). The first line tells how long it takes from the command to its first
ten waves, and which part of that the command and the program take. Then SCROLLS pages, 1,000 where nothing is said, are scrolled forward
through times that nobody saw, as many as the simulation has, and back over them, where the session has them still or works them out anew;
then a zoom out and in again at places of all times. A time is from the key to the picture, two frames of the browser included. Last come the
memory of the page and of the processes, and how long the prompt takes."""
from __future__ import annotations

import os
import random
import resource
import statistics
import subprocess
import sys
import tempfile
import time
from pathlib import Path
from typing import Any

TOP = Path(__file__).resolve().parents[2]
sys.path[:0] = [str(TOP / "python"), str(TOP / "python" / "tests"), str(TOP / "bench" / "icarus")]

import browser as driver  # noqa: E402
import generate  # noqa: E402
from browser import Browser, browser_path  # noqa: E402

# other work may leave the browser without a processor for a minute and more
driver.PATIENCE = 600.0

HORIZON, ROWS, WINDOW = 100_000, 10, 200
# acts, and waits until all is drawn that was asked; gives the milliseconds
TIMED = """(async (act) => {
  const frame = () => new Promise((done) => requestAnimationFrame(() => requestAnimationFrame(done))), begun = performance.now();
  act();
  await frame();
  while (document.body.dataset.state !== 'idle') await new Promise((done) => setTimeout(done, 1));
  await frame();
  return performance.now() - begun;
})"""
KNOWN = """backsim.inView.length === %d && document.body.dataset.state === 'idle'
  && backsim.inView.every((item) => [...backsim.link.track(2 * item.id).within(backsim.model.start, backsim.model.stop)].every((run) => 'value' in run))"""


def processes(parent: int) -> list[int]:
    """A process and all that it began."""
    found = [parent]
    for path in Path("/proc").iterdir():
        try:
            if path.name.isdigit() and int((path / "stat").read_text().rpartition(")")[2].split()[1]) == parent:
                found += processes(int(path.name))
        except OSError:
            pass
    return found


def megabytes(process: int) -> float:
    """The memory of a process, of what it shares with others its part."""
    try:
        lines = Path(f"/proc/{process}/smaps_rollup").read_text().splitlines()
    except OSError:
        return 0.0
    return sum(int(line.split()[1]) for line in lines if line.startswith("Pss:")) / 1024


def seconds_of(numbers: list[int]) -> float:
    """The seconds that processes have had of processors."""
    taken = 0
    for number in numbers:
        fields = Path(f"/proc/{number}/stat").read_text().rpartition(")")[2].split()
        taken += int(fields[11]) + int(fields[12])
    return taken / os.sysconf("SC_CLK_TCK")


def renderers(browser: Browser) -> list[int]:
    """The processes for pages that the browser has begun, of which one has the page."""
    return [number for number in processes(browser._process.pid) if b"--type=renderer" in Path(f"/proc/{number}/cmdline").read_bytes()]


def told(what: str, times: list[float], spent: list[float]) -> None:
    """Tells the milliseconds of what was done, and of processors of browser, command and program each."""
    ordered = sorted(times)
    parts = ", ".join(f"{1000 * seconds / len(times):.0f} ms of {part}" for seconds, part in zip(spent, ("the browser", "the command", "the program")))
    print(f"{what}: median {statistics.median(ordered):.0f} ms, of 95 % at most {ordered[len(ordered) * 95 // 100]:.0f} ms, greatest "
          f"{ordered[-1]:.0f} ms, of {len(ordered)}; on average {parts}", flush=True)


def page(files: list[str], names: list[str], scrolls: int) -> None:
    browser = Browser(browser_path() or sys.exit("no Chromium is on PATH"))
    environment = os.environ | {"PYTHONPATH": str(TOP / "python")}
    begun = time.monotonic()
    command = subprocess.Popen([sys.executable, "-m", "backsim", "view", *files, *names, "--to", str(WINDOW), "--no-browser"],
                               stdout=subprocess.PIPE, text=True, env=environment)
    try:
        assert command.stdout is not None
        address = command.stdout.readline().strip()
        has_address = time.monotonic()
        browser.visit(address)
        browser.wait(f"window.backsim && backsim.begun > 0 && {KNOWN % len(names)}")
        shown = time.monotonic()
        program = [number for number in processes(command.pid) if number != command.pid]

        def spent() -> list[float]:
            return [seconds_of(processes(browser._process.pid)), seconds_of([command.pid]), seconds_of(program)]

        _, own, programs = spent()
        print(f"the first {len(names)} waves: {shown - begun:.2f} s from the command on, its address after {has_address - begun:.2f} s; {own:.2f} s of "
              f"processors by the command, {programs:.2f} s by the program", flush=True)

        def acts(what: str, scripts: list[str]) -> int:
            before = spent()
            times = [browser.value(f"{TIMED}(() => {{ {script} }})") for script in scripts]
            told(what, times, [now - then for then, now in zip(before, spent())])
            return len(times)

        draw = random.Random(1)
        scrolls = min(scrolls, HORIZON // (WINDOW // 2) - 2)
        count = acts("scrolled forward by half a page", ["backsim.model.scroll(.5)"] * scrolls)
        count += acts("scrolled back", ["backsim.model.scroll(-.5)"] * scrolls)
        count += acts("zoomed out and in", [f"backsim.model.zoom({factor})" for factor in (1.5, 1 / 1.5)] * 25)
        count += acts("gone to another time", [f"backsim.model.show({draw.randrange(HORIZON - 2 * WINDOW)}, {WINDOW})" for _ in range(50)])
        browser.call("HeapProfiler.collectGarbage")
        heap = browser.call("Runtime.getHeapUsage")
        # the other processes for pages have none
        whole = max(map(megabytes, renderers(browser)))
        print(f"after these {count}: the page has {heap['usedSize'] / 1e6:.0f} MB of objects, its process {whole:.0f} MB, the command "
              f"{megabytes(command.pid):.0f} MB, the program {sum(map(megabytes, program)):.0f} MB", flush=True)
    finally:
        command.terminate()
        command.wait()
        browser.close()


def prompt(files: list[str], names: list[str]) -> None:
    """One question and its answer from the command on, and further ones."""
    def seconds(lines: list[str]) -> tuple[float, float]:
        before, begun = resource.getrusage(resource.RUSAGE_CHILDREN), time.monotonic()
        subprocess.run([sys.executable, "-m", "backsim", "ask", *files], input="\n".join(lines), text=True, check=True, stdout=subprocess.DEVNULL,
                       env=os.environ | {"PYTHONPATH": str(TOP / "python")})
        after: Any = resource.getrusage(resource.RUSAGE_CHILDREN)
        return time.monotonic() - begun, after.ru_utime + after.ru_stime - before.ru_utime - before.ru_stime

    one = min(seconds([f"{names[0]} {HORIZON - 10}"]) for _ in range(3))
    draw = random.Random(2)
    many = min(seconds([f"{draw.choice(names)} {draw.randrange(HORIZON)}" for _ in range(101)]) for _ in range(3))
    print(f"the prompt: {one[0]:.2f} s for a question ({one[1]:.2f} s of processors), {1000 * (many[0] - one[0]) / 100:.0f} ms for a further one", flush=True)
    whole = min(seconds([f"why {names[0]} {HORIZON - 10}"]) for _ in range(3))
    print(f"the prompt: {whole[0]:.2f} s for a `why` ({whole[1]:.2f} s of processors)", flush=True)


def main() -> None:
    words = [int(word) for word in sys.argv[1:]]
    scrolls, width = (*words, *(1000, 2000)[len(words):])
    with tempfile.TemporaryDirectory() as folder:
        generate.main(folder, width, HORIZON, 1)
        files = [os.path.join(folder, f"workload.{kind}") for kind in ("bench", "timing", "stim")]
        names = [f"g99_{place}" for place in range(ROWS)]
        page(files, names, scrolls)
        prompt(files, names)


if __name__ == "__main__":
    main()
