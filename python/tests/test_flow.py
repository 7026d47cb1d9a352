"""The chip of examples/flow: through Yosys, its library, SDF and Icarus Verilog to netlists that have its values."""
from __future__ import annotations

import os
import shutil
import subprocess
import sys
from pathlib import Path

import pytest
from backsim.convert.dump import Span, read_dump
from backsim.circuit.kinds import Kind
from backsim.formats.netlist import read_netlist
from backsim.formats.vcd import value_at
from backsim.main import main
from backsim.session.session import Session
from backsim.values import Wave
from conftest import TOP
from flow_reference import with_delays
from verilog_tools import icarus, need, yosys

EXAMPLE = TOP / "examples" / "flow"


@pytest.fixture(scope="module")
def flow(tmp_path_factory) -> Path:
    """A folder with the chip's mapped netlist, its delays, and its netlists for the program; dumps of the source and of the mapped
    netlist with the delays of the SDF file as transport delays."""
    folder = tmp_path_factory.mktemp("flow")
    for path in EXAMPLE.iterdir():
        shutil.copy(path, folder)
    for script in ("mapped.ys", "cells.ys", "gates.ys"):
        yosys(folder, f"script {script}")
    made = subprocess.run([sys.executable, "delays.py", "chip_mapped.v"], cwd=folder, capture_output=True, text=True, check=True).stdout
    (folder / "chip.sdf").write_text(made)
    icarus(folder, *(folder / name for name in ("chip_test.v", "chip.v", "cells.v")), top="chip_test")
    (folder / "chip.vcd").rename(folder / "source.vcd")
    (folder / "late.v").write_text(with_delays((folder / "chip_mapped.v").read_text(), made))
    icarus(folder, folder / "chip_test.v", folder / "late.v", top="chip_test", warns=False)
    (folder / "chip.vcd").rename(folder / "late.vcd")
    for name, json, *more in (("chip", "chip", "--no-aliases"), ("mapped", "chip"), ("gates", "gates")):
        words = ["--vcd", str(folder / "source.vcd"), "--scope", "chip_test.dut", "--ticks", "10", "--async-reset", "gates", *more]
        bench, timing, stimulus = (str(folder / f"{name}.{kind}") for kind in ("bench", "timing", "stim"))
        assert main(["from-json", str(folder / f"{json}.json"), bench, timing, *words]) == 0
        assert main(["from-vcd", bench, str(folder / "source.vcd"), "chip_test.dut", "--ticks", "10", "-o", stimulus]) == 0
    return folder


def with_sdf(flow: Path, name: str) -> list[str]:
    """The netlist of this name, its timing with the delays of the SDF file, and its stimulus."""
    files = [str(flow / f"{name}.bench"), str(flow / f"{name}.late.timing"), str(flow / f"{name}.stim")]
    assert main(["from-sdf", files[0], str(flow / "chip.sdf"), "--json", str(flow / "chip.json"), "--async-reset", "gates", "--timing",
                 str(flow / f"{name}.timing"), "-o", files[1]]) == 0
    return files


def waves(program: str, files: list[str], names: list[str], horizon: int) -> dict[str, Wave]:
    with Session(*files, program=program) as session:
        with session.batch() as batch:
            asked = {name: batch.wave(name, 0, horizon + 1, 200_000) for name in names}
        return {name: one.result() for name, one in asked.items()}


def delayed(changes: list[tuple[int, str]]) -> list[tuple[int, str]]:
    """What a BUFF with the delay 1 shows."""
    return [(0, "x")] + [(time + 1, value) for time, value in changes if (time, value) != (0, "x")]


def test_every_net_at_every_time_is_that_of_icarus(flow, program) -> None:
    late = with_sdf(flow, "chip")
    dump = read_dump(flow / "late.vcd", "chip_test.dut", Span(10))
    netlist = read_netlist(late[0])
    bits = dump.bits(netlist.names)
    # all but the gates and flip-flops within cells, which no dump has
    assert all("$" in name for name in netlist.names if name not in bits) and len(bits) > 200
    # an output of a register that has another name is a BUFF of it
    further = {name for name in netlist.outputs if netlist.gates[name].kind is Kind.BUFF and netlist.gates[name].pins[0] in bits}
    assert "steps[1]" in further and "core_clk" in bits and len(further) < 20
    for name, wave in waves(program, late, list(bits), dump.last).items():
        expected = dump.exact(name, bits[name])
        assert isinstance(wave, Wave) and list(wave.changes) == (delayed(expected) if name in further else expected), name


def test_the_mapped_and_the_unmapped_netlist_settle_to_the_same(flow, program) -> None:
    """Before each edge every name that both have has the value of the source, without delays and with those of the SDF file."""
    source = read_dump(flow / "source.vcd", "chip_test.dut", Span(10))
    files = [[str(flow / f"{name}.{kind}") for kind in ("bench", "timing", "stim")] for name in ("gates", "mapped")]
    names = [name for name in source.bits(read_netlist(files[0][0]).names) if name in read_netlist(files[1][0])]
    assert {"registers.r0[3]", "fifo.w2[1]", "fifo.count[0]", "steps[7]", "head[2]", "bus[0]", "carry"} <= set(names) and len(names) > 100
    expected = {name: source.exact(name, changes) for name, changes in source.bits(names).items()}
    edges = range(1500, source.last, 1000)
    for own in (*files, with_sdf(flow, "mapped")):
        for name, wave in waves(program, own, names, source.last).items():
            assert isinstance(wave, Wave)
            differing = [edge for edge in edges if wave.value_at(edge - 1) != value_at(expected[name], edge - 1)]
            assert not differing, (own[1], name, differing)


def test_how_many_arcs_are_used(flow, capsys) -> None:
    with_sdf(flow, "chip")
    said = capsys.readouterr().err.splitlines()
    text = (flow / "chip.sdf").read_text()
    arcs, wires = text.count("(IOPATH"), text.count("(INTERCONNECT")
    assert said[0] == f"{arcs} of {arcs} IOPATH and {wires} of {wires} INTERCONNECT and PORT are used"
    assert said[1].startswith(f"left out: {text.count('(TIMINGCHECK')} TIMINGCHECK") and not any("shorter" in line for line in said)
    # a unit of 100 ps is longer than the fastest cells, and than the gates in a MUX2
    words = ["--json", str(flow / "chip.json"), "--async-reset", "gates", "--unit", "100ps", "-o", str(flow / "rough.timing")]
    assert main(["from-sdf", str(flow / "chip.bench"), str(flow / "chip.sdf"), *words]) == 0
    assert any("arcs are shorter than the gates inside their cells" in line for line in capsys.readouterr().err.splitlines())


def test_the_commands_of_the_page_write_what_it_says(tmp_path, program) -> None:
    """Each `$` line of docs/use/FLOW.md, in one shell from the top of the clone, with a folder of the test for /tmp/flow."""
    need("yosys", "yosys")
    need("iverilog", "iverilog")
    text = (TOP / "docs" / "use" / "FLOW.md").read_text().replace("/tmp/flow", str(tmp_path / "flow"))
    steps: list[tuple[str, list[str]]] = []
    for block in text.split("```\n")[1::2]:
        for line in block.splitlines():
            if line.startswith("$ "):
                steps.append((line[2:], []))
            else:
                steps[-1][1].append(line)
    assert len(steps) > 15
    script = "".join(f"{command}\necho '--- {number}'\n" for number, (command, _) in enumerate(steps))
    done = subprocess.run(["bash", "-c", script], cwd=TOP, env=os.environ | {"BACKSIM": program}, stdout=subprocess.PIPE, stderr=subprocess.STDOUT,
                          text=True, timeout=900, check=True)
    for number, (command, expected) in enumerate(steps):
        found, _, rest = done.stdout.partition(f"--- {number}\n")
        done.stdout = rest
        assert found.splitlines() == expected, command
