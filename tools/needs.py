"""What the tests need beside Python and the programs: Debian's packages, each with how it is seen to be there."""
from __future__ import annotations

import shutil
import subprocess
import sys
from typing import List, NamedTuple


class Need(NamedTuple):
    """A package of Debian, the module or the program that it brings, and what can't be seen without it."""

    package: str
    brings: str
    is_module: bool
    what: str


NEEDS = (
    Need("python3-pytest", "pytest", True, "the tests of the package"),
    Need("python3-matplotlib", "matplotlib", True, "pictures"),
    Need("python3-networkx", "networkx", True, "netlists as graphs"),
    Need("python3-tqdm", "tqdm", True, "bars"),
    Need("graphviz", "dot", False, "explanations as pictures"),
    Need("iverilog", "iverilog", False, "waves against Icarus Verilog"),
    Need("yosys", "yosys", False, "netlists from Verilog"),
    Need("chromium", "chromium", False, "pages in a browser"),
    Need("parallel", "parallel", False, "plans for GNU parallel"),
    Need("mypy", "mypy", False, "types"),
    Need("groff-base", "groff", False, "manual pages"),
    Need("mandoc", "mandoc", False, "the form of manual pages"),
)


def has_module(python: str, name: str) -> bool:
    """Whether this Python has a module."""
    words = [python, "-c", "import importlib.util, sys; sys.exit(importlib.util.find_spec(sys.argv[1]) is None)", name]
    try:
        return subprocess.run(words, stdin=subprocess.DEVNULL, stdout=subprocess.DEVNULL, stderr=subprocess.DEVNULL).returncode == 0
    except OSError:
        return False


def python_for_tests() -> str:
    """A Python that has pytest: the one on PATH, or Debian's. '' where neither has it."""
    return next((it for it in (sys.executable, "python3", "/usr/bin/python3") if it and has_module(it, "pytest")), "")


def missing() -> List[Need]:
    """What is not there."""
    python = python_for_tests() or "/usr/bin/python3"
    return [it for it in NEEDS if not (has_module(python, it.brings) if it.is_module else shutil.which(it.brings))]
