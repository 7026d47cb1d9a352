"""Where pictures go."""
from __future__ import annotations

from collections.abc import Sequence
from pathlib import Path

from ..command_line.outputs import write_whole
from ..errors import UsageError


def form_of(path: Path, forms: Sequence[str]) -> str:
    """The form of a picture by the end of its file's name. UsageError where it is none of the forms."""
    form = path.suffix.lower().removeprefix(".")
    if form not in forms:
        ends = [f".{form}" for form in forms]
        raise UsageError(f"{path}: the name of this picture must end in {', '.join(ends[:-1])} or {ends[-1]}")
    return form


def write_picture(path: Path, data: bytes) -> None:
    """Writes a file whole. FormatError where that can't be."""
    write_whole(path, data)
