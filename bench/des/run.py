#!/usr/bin/env python3
"""The 64 outputs of a DES pipeline in one batch, asked near the end of the stimulus, beside Icarus Verilog, which simulates the whole
circuit forward. Prints a table of wall times.

    bench/des/run.py [PERIODS..]

The pipeline and the questions are those of generate.py, with PERIODS clock periods (100 and 1,000 where none is given) of 10 instants.
First the ciphertexts of ten periods, the first of which is a known example, must be those of standard.py, which encrypts integers. So
must the ciphertext that is timed, and the replies of Icarus Verilog to it must be the same, byte for byte. Else the script ends with
status 1.

Columns are clock periods; evaluations of this program; seconds of Icarus Verilog to compile and to run a model with transport delays, as
this program's are, and one with gate primitives, which are faster (a run in brackets is one whose replies differ); seconds of this
program's whole session, the reading of its files included, with one worker and with four, which is the default; and how many times as
long as the latter the faster model takes, by its run alone and with its compilation. Times are the shortest of three, of a compilation
and of a run of more than a minute the only one."""
from __future__ import annotations

import subprocess
import sys
import tempfile
from pathlib import Path

HERE = Path(__file__).resolve().parent
sys.path.insert(0, str(HERE.parent / "icarus"))
from circuit import Circuit  # noqa: E402
from standard import encrypted, is_right  # noqa: E402


def answers(script: bytes, folder: Path) -> bytes:
    """The replies to a script, by standard.py."""
    lines = (line.split() for line in (folder / "des.vectors").read_text().splitlines())
    ciphertexts = {time: encrypted(int(key, 16), int(plaintext, 16)) for time, key, plaintext in lines}
    asked = (line.split()[1:3] for line in script.decode().splitlines())
    return "".join(f"at {name} {time} {ciphertexts[time] >> 64 - int(name.removeprefix('cipher')) & 1}\n" for name, time in asked).encode()


def row(folder: Path, periods: int) -> list[str]:
    """The cells of the table's row."""
    if status := subprocess.run([sys.executable, HERE / "generate.py", folder, str(periods)]).returncode:
        sys.exit(status)
    circuit = Circuit(str(folder), str(folder / "des"), "DES", 10 * periods)
    some, last = ((folder / name).read_bytes() for name in ("some.script", "last.script"))
    ten, _ = circuit.backsim(some)
    replies, one = circuit.backsim(last, "--workers", "1")
    again, four = circuit.backsim(last)
    if (ten, replies, again) != (answers(some, folder), answers(last, folder), replies):
        sys.exit("bench/des: the replies are not the ciphertexts of standard.py")
    evaluations = (folder / "journal").read_bytes().count(b"\nfill ")
    models = circuit.models(str(folder / "last.script"))
    running = circuit.compare("64 outputs", replies, models)
    right = [(took, models[model][1] + took) for model, (took, same) in running.items() if same]
    cells = [f"{periods:,}", f"{evaluations:,}"]
    for model, (took, same) in running.items():
        cells += [f"{models[model][1]:.2f}", f"{took:.2f}" if same else f"({took:.2f})"]
    return [*cells, f"{one:.3f}", f"{four:.3f}", *(f"{min(times) / four:.0f}" for times in zip(*right))]


def main(numbers: list[int]) -> None:
    if not is_right():
        sys.exit("bench/des: standard.py does not encrypt as the standard says")
    print("| periods | evaluations | transport, compilation | run | primitives, compilation | run | 1 worker | 4 workers "
          "| ratio | with compilation |")
    print("|---|---|---|---|---|---|---|---|---|---|", flush=True)
    for periods in numbers:
        with tempfile.TemporaryDirectory() as folder:
            print("|", " | ".join(row(Path(folder), periods)), "|", flush=True)


if __name__ == "__main__":
    if not all(word.isdigit() for word in sys.argv[1:]):
        sys.exit(__doc__)
    main([int(word) for word in sys.argv[1:]] or [100, 1_000])
