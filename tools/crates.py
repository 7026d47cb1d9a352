"""What the tools that build and install share: the crates of this repository, its words on the command line, and the kit."""
from __future__ import annotations

import argparse
import os
import shutil
import subprocess
import sys
from typing import Dict, List, NoReturn, Set

TOP = os.path.dirname(os.path.dirname(os.path.realpath(__file__)))
PROGRAMS = ("backsim", "backsim_check")
PARTS = ("src", "specs", "proofs")
DIST = os.path.join(TOP, "dist", "x86_64-linux")


class Words(argparse.ArgumentParser):
    """A parser that answers words that it does not take by one line, with status 2."""

    def __init__(self, doc: str) -> None:
        super().__init__(description=doc, formatter_class=argparse.RawDescriptionHelpFormatter)

    def error(self, message: str) -> NoReturn:
        print(f"{self.prog}: {message}", file=sys.stderr)
        sys.exit(2)


def fail(message: str) -> NoReturn:
    print(message, file=sys.stderr)
    sys.exit(1)


def rows(top: str = TOP) -> Dict[str, str]:
    """The line of each crate in crates.txt."""
    found = {}
    with open(os.path.join(top, "crates.txt"), encoding="utf-8") as file:
        for line in file:
            row = line.split("#")[0].strip()
            if ":" in row:
                found[row.split(":")[0].split()[0]] = row
    return found


def libraries(top: str = TOP) -> Dict[str, List[str]]:
    """For each crate the crates of this repository that its line names."""
    lines = rows(top)
    return {name: [it for it in row.split(":")[1].split() if it in lines] for name, row in lines.items()}


def with_all_below(names: List[str], uses: Dict[str, List[str]]) -> List[str]:
    """These crates and all that they stand on, each after those below it."""
    found: List[str] = []
    begun: Set[str] = set()

    def visit(name: str) -> None:
        if name in found:
            return
        if name in begun:
            fail(f"crates.txt: {name} stands on itself")
        begun.add(name)
        for it in uses[name]:
            visit(it)
        found.append(name)

    for name in names:
        visit(name)
    return found


def program(name: str) -> str:
    """Where a program stands that was built in this checkout, by tools/build or by the gate, by LLVM in both."""
    return os.path.join(TOP, "crates", name, "out", name)


def is_built(name: str) -> bool:
    """Whether the program was built in this checkout, after the last change of a source."""
    return subprocess.run([os.path.join(TOP, "tools", "program"), "--is-built", name]).returncode == 0


def is_by_llvm(name: str) -> bool:
    """Whether LLVM compiled the program that was built in this checkout. Rattle's own compiler writes its name into what it makes."""
    with open(program(name), "rb") as file:
        return b"backend=rattle" not in file.read()


def sources(name: str) -> str:
    """The checksum of all that the program is built from."""
    return subprocess.run([os.path.join(TOP, "tools", "sources"), name], check=True, stdout=subprocess.PIPE, text=True).stdout.strip()


def kit() -> str:
    """The one line of rt version."""
    try:
        return subprocess.run(["rt", "version"], check=True, stdout=subprocess.PIPE, text=True).stdout.strip()
    except (OSError, subprocess.CalledProcessError):
        fail("the command rt of the Rattle kit is not on PATH, or does not run")


def strip(path: str, to: str) -> None:
    """Writes a program without its symbols, by the kit's own LLVM, so that the bytes are the same on each machine."""
    folder = os.path.dirname(os.path.dirname(os.path.realpath(shutil.which("rt") or "")))
    llvm = os.path.join(folder, "toolchain", "bin", "clang")
    try:
        subprocess.run(["llvm-strip", "--strip-all", "-o", to, path], executable=llvm, check=True)
    except (OSError, subprocess.CalledProcessError) as error:
        fail(f"{path} could not be stripped by the kit's LLVM: {error}")
