"""Byte order marks, which the program refuses as a bad line 1."""
from __future__ import annotations

import codecs

MARK = ("the file begins with a byte order mark, which the program refuses: `backsim-tools normalise` takes it from a netlist, and "
        "`tail -c +4` the one of UTF-8 from any file")


def has_mark(data: bytes) -> bool:
    """Whether bytes begin with a mark of UTF-8 or UTF-16."""
    return data.startswith((codecs.BOM_UTF8, codecs.BOM_UTF16_LE, codecs.BOM_UTF16_BE))
