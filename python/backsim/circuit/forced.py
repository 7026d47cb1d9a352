"""The files of a circuit in which a signal has a value at all times, as with `stuck` (docs/meaning/RULES.md, Stuck signals), for a session
in which many waves share what is evaluated. The signal becomes an input that is set once; the program has read the files, so only the
lines that speak of it have to be found."""
from __future__ import annotations

import re
from collections.abc import Sequence
from pathlib import Path

from ..errors import type_of_path
from ..formats.text import read_bytes

_BLANK = rb"[ \t\r]"


def write_forced(files: Sequence[type_of_path], site: str, value: str, folder: Path) -> tuple[str, str, str]:
    """Writes the three files into the folder, and gives their names. OSError where that can't be."""
    name = re.escape(site.encode("latin-1"))
    netlist, timing, stimulus = map(read_bytes, files)
    made = {
        "netlist": re.sub(rb"(?m)^" + _BLANK + rb"*" + name + _BLANK + rb"*=[^\n]*$", b"INPUT(" + site.encode("latin-1") + b")", netlist),
        "timing": _without(timing, rb"(?:delay|init|clocked|pin)", name),
        "stimulus": _without(stimulus, rb"set", name).rstrip(b"\n") + f"\nset {site} 0 {value}\n".encode("latin-1"),
    }
    for kind, data in made.items():
        (folder / kind).write_bytes(data)
    return str(folder / "netlist"), str(folder / "timing"), str(folder / "stimulus")


def _without(data: bytes, word: bytes, name: bytes) -> bytes:
    """The lines of a file, but for those that begin with the word and the name."""
    return re.sub(rb"(?m)^" + _BLANK + rb"*" + word + _BLANK + rb"+" + name + _BLANK + rb"[^\n]*$", b"", data)
