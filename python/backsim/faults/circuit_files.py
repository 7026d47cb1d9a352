"""Writes the circuit that is asked as files."""
from __future__ import annotations

import io
from collections.abc import Callable
from pathlib import Path
from typing import TextIO, TypeVar

from ..errors import FormatError, reason_of
from ..formats.netlist import write_netlist
from ..formats.stimulus import write_stimulus
from ..formats.timing import write_timing
from .branches import Made

T = TypeVar("T")


def write_circuit(made: Made, folder: Path) -> tuple[Path, Path, Path]:
    """Writes the three files of the circuit, and gives their names. FormatError where one can't be written."""
    return (*write_netlist_and_timing(made, folder), _written(folder / "stimulus", write_stimulus, made.stimulus))


def write_netlist_and_timing(made: Made, folder: Path) -> tuple[Path, Path]:
    """Writes two of the three files of the circuit, and gives their names. FormatError where one can't be written."""
    return _written(folder / "netlist.bench", write_netlist, made.netlist), _written(folder / "timing", write_timing, made.timing)


def _written(path: Path, write: Callable[[T, TextIO], None], what: T) -> Path:
    text = io.StringIO()
    write(what, text)
    try:
        path.write_text(text.getvalue(), encoding="latin-1")
    except OSError as error:
        raise FormatError(path.parent, None, f"it can't be written: {reason_of(error)}") from None
    return path
