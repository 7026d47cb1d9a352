"""Icarus Verilog and Yosys for tests, which are skipped where these are missing."""
from __future__ import annotations

import shutil
import subprocess
from pathlib import Path

import pytest


def need(program: str, package: str) -> None:
    """Skips the test where a program is missing."""
    if shutil.which(program) is None:
        pytest.skip(f"{program} is not there (Debian's package {package})")


def icarus(folder: Path, *sources: Path, top: str, words: tuple[str, ...] = (), warns: bool = True) -> str:
    """What a design writes to standard output when Icarus Verilog runs it in a folder."""
    need("iverilog", "iverilog")
    compiled = folder / f"{top}.vvp"
    subprocess.run(["iverilog", "-g2005", *["-Wall"] * warns, "-s", top, "-o", compiled, *sources], check=True, capture_output=True, cwd=folder)
    return subprocess.run(["vvp", "-n", compiled, *words], check=True, capture_output=True, text=True, cwd=folder).stdout


def in_order(output: str) -> str:
    """The replies of a file of to-verilog in the order of the script."""
    lines = sorted((line.split(" ", 1) for line in output.splitlines()), key=lambda line: int(line[0]))
    return "".join(f"{text}\n" for _, text in lines)


def yosys(folder: Path, commands: str) -> None:
    """Runs commands of Yosys in a folder."""
    need("yosys", "yosys")
    subprocess.run(["yosys", "-q", "-p", commands], check=True, capture_output=True, cwd=folder)
