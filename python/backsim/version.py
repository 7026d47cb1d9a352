"""The version of the package and the programs, which stands here alone, and what is known of a program."""
from __future__ import annotations

import hashlib
import os
import re
import subprocess
from collections.abc import Iterator
from glob import glob

from .errors import BacksimError
from .session.program import TOP, find_program, looked_up

VERSION = "1.0.0"
_ROW = re.compile(r"^(\w+) sources ([0-9a-f]{64}) program ([0-9a-f]{64})$", re.M)
CHECKER = "backsim_check"


def told() -> Iterator[str]:
    """Lines about the package, the program and the checker of proofs: their versions, and the checksum of the sources of each program.
    A program that is none of this version's is told by its own checksum (SHA-256)."""
    yield f"backsim-tools {VERSION}"
    try:
        found = find_program()
        program = looked_up(found)
    except BacksimError as error:
        yield f"backsim: {error}"
        return
    yield _of_program("backsim", program)
    beside = [os.path.join(os.path.dirname(it), CHECKER) for it in (program, found)]
    places = [beside[0], os.path.join(TOP, "crates", CHECKER, "out", CHECKER), *beside[1:]]
    yield next((_of_program(CHECKER, it) for it in places if os.path.isfile(it)), f"{CHECKER}: it is not beside backsim")


def _of_program(name: str, path: str) -> str:
    try:
        with open(path, "rb") as file:
            own = hashlib.sha256(file.read()).hexdigest()
    except OSError as error:
        return f"{name}: {path}: {error.strerror}"
    sources = _sources_of(name, path, own)
    return f"{name} {VERSION} sources {sources}, {path}" if sources else f"{name} of no known version, program {own}, {path}"


def _sources_of(name: str, path: str, own: str) -> str:
    """The checksum of the sources of a program: as it was noted where the program was made, or that of the sources of this checkout, where
    it was built from them here; '' where neither is so."""
    here = os.path.dirname(os.path.abspath(__file__))
    for place in (*glob(os.path.join(TOP, "dist", "*", "built-from")), os.path.join(TOP, "built-from"), os.path.join(here, "built-from")):
        try:
            with open(place, encoding="utf-8") as file:
                rows = _ROW.findall(file.read())
        except (OSError, UnicodeDecodeError):
            continue
        for row in rows:
            if (row[0], row[2]) == (name, own):
                return str(row[1])
    if path == os.path.join(TOP, "crates", name, "out", name):
        ran = subprocess.run([os.path.join(TOP, "tools", "sources"), name], stdin=subprocess.DEVNULL, stdout=subprocess.PIPE, text=True)
        return ran.stdout.strip() if ran.returncode == 0 else ""
    return ""
