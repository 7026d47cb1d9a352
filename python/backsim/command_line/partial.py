"""The line by which a file says that an interrupted command left it."""
from __future__ import annotations

from ..errors import FormatError, type_of_path

PARTIAL = "# partial: the command was interrupted"


def refuse_partial(line: bytes, path: type_of_path, number: int) -> None:
    """FormatError where the line of a file is this one."""
    if line.decode("latin-1").strip() == PARTIAL:
        raise FormatError(path, number, "an interrupted command left this file, so it is not whole; without this line it is taken as it is")
