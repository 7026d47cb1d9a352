"""What is saved of a page, to open the same view again: the three files, the rows, the window, the cursor and the marker, as JSON."""
from __future__ import annotations

import json
import os
from collections.abc import Sequence
from pathlib import Path
from typing import Any

from ..errors import FormatError
from ..formats.text import read_bytes

FORMAT = "backsim view 1"
MOST_BYTES = 1 << 22
Document = dict[str, Any]


def begun(names: Sequence[str], start: int, stop: int) -> Document:
    """The view of these signals and buses in a window."""
    return {"start": start, "stop": stop, "rows": [{"name": name} for name in names]}


def read_document(path: Path) -> tuple[list[str], Document]:
    """The three files that a saved view names, as paths beside it where they are not whole, and the view. FormatError where it is none."""
    data = read_bytes(path, MOST_BYTES)
    try:
        document = json.loads(data)
    except ValueError as error:
        raise FormatError(path, getattr(error, "lineno", None), "this is no saved view: it is not JSON") from None
    if not isinstance(document, dict) or document.get("format") != FORMAT:
        raise FormatError(path, None, f"this is no saved view: its format is not `{FORMAT}`")
    files = document.get("files")
    if not isinstance(files, list) or len(files) != 3 or not all(isinstance(file, str) for file in files):
        raise FormatError(path, None, "this is no saved view: `files` does not name a netlist, a timing file and a stimulus")
    rows = document.get("rows")
    if not isinstance(rows, list) or not all(isinstance(row, dict) for row in rows):
        raise FormatError(path, None, "this is no saved view: `rows` is no list of rows")
    return [os.path.join(path.parent, file) for file in files], document
