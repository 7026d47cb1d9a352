#!/usr/bin/env python3
"""Times questions for a waveform where a signal is stuck, against sessions over a netlist in which the line of the site is an input that
is held at the value: what a user without such questions would run.

    bench/stuck/run.py [WIDTH..]

The circuits are those of bench/icarus/generate.py, 100 layers of WIDTH gates (20, 200 and 2,000 where none is given) with a stimulus of
1,000 instants, and the question is one gate of the last layer over 21 instants near the end. One session asks it as it is, and then with
each of 100 sites stuck, spread over all layers; the replies must be those of the sessions over the rewritten netlists, of which the
first ten are run. The times are the best of three, by one worker; a line of the table has the gates, milliseconds for one `stuck`
line, milliseconds for one session over a rewritten netlist, and the ratio."""
from __future__ import annotations

import io
import os
import re
import subprocess
import sys
import tempfile
import time

TOP = os.path.dirname(os.path.dirname(os.path.dirname(os.path.abspath(__file__))))
sys.path[:0] = [os.path.join(TOP, "bench", "icarus"), os.path.join(TOP, "python")]
from backsim import Answer, Stuck, Wave  # noqa: E402
from backsim.formats.replies import read_replies  # noqa: E402
from generate import main as generate  # noqa: E402

PROGRAM = subprocess.run([os.path.join(TOP, "tools", "program"), "backsim"], check=True, stdout=subprocess.PIPE, text=True).stdout.strip()
LAYERS, SITES, PLAIN, START, STOP = 100, 100, 10, 970, 991


def read(path: str) -> str:
    with open(path) as file:
        return file.read()


def write(path: str, text: str) -> None:
    with open(path, "w") as file:
        file.write(text)


def session(folder: str, netlist: str, stimulus: str, script: str) -> tuple[str, float]:
    """The replies, and the best of three times."""
    replies, best = "", float("inf")
    for _ in range(3):
        begun = time.monotonic()
        run = subprocess.run([PROGRAM, netlist, "t", stimulus, "j", "--workers", "1"], cwd=folder, input=script, capture_output=True, text=True)
        took = time.monotonic() - begun
        if run.returncode:
            sys.exit(f"status {run.returncode}: {run.stdout}{run.stderr}")
        replies, best = run.stdout, min(best, took)
    return replies, best


def waves(replies: str) -> list[Answer | Wave]:
    answers = [reply.answer for reply in read_replies(io.BytesIO(replies.encode()))]
    return [answer.wave if isinstance(answer, Stuck) else answer for answer in answers]


def main(widths: list[int]) -> None:
    print("gates  ms for a stuck line  ms for a session  ratio")
    for width in widths:
        with tempfile.TemporaryDirectory() as folder:
            generate(folder, width, 1000, 1)
            netlist, stimulus = read(os.path.join(folder, "workload.bench")), read(os.path.join(folder, "workload.stim"))
            write(os.path.join(folder, "t"), "default 1\n")
            asked = f"g{LAYERS - 1}_{width // 2}"
            # in the cone of what is asked, each in a layer of its own
            sites = [f"g{layer}_{(width // 2 + (LAYERS - 1 - layer) // 2) % width}" for layer in range(SITES)]
            plain = f"wave {asked} {START} {STOP} 500000\ngo\n"
            stuck = "".join(f"stuck {site} 1 {asked} {START} {STOP} 500000\n" for site in sites)
            _, without = session(folder, "workload.bench", "workload.stim", plain)
            replies, whole = session(folder, "workload.bench", "workload.stim", plain + stuck)
            each, found = 0.0, waves(replies)[1:]
            for site, wave in list(zip(sites, found))[::SITES // PLAIN]:
                write(os.path.join(folder, "n"), re.sub(rf"^{site} = .*$", f"INPUT({site})", netlist, flags=re.M))
                write(os.path.join(folder, "s"), stimulus + f"set {site} 0 1\n")
                replies, took = session(folder, "n", "s", plain)
                if waves(replies) != [wave]:
                    sys.exit(f"with {site} stuck at 1 the replies differ")
                each += took / PLAIN
            line = (whole - without) / SITES
            print(f"{LAYERS * width:6}  {1000 * line:10.2f}  {1000 * each:10.1f}  {each / line:8.1f}", flush=True)


if __name__ == "__main__":
    if not all(word.isdigit() for word in sys.argv[1:]):
        sys.exit(__doc__)
    main([int(width) for width in sys.argv[1:]] or [20, 200, 2000])
