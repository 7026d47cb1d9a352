"""Python's collector of cycles. It looks at all objects again and again while many are made, which takes as long as to make them."""
from __future__ import annotations

import gc
from collections.abc import Iterator
from contextlib import contextmanager


@contextmanager
def without_collection() -> Iterator[None]:
    """Has the collector rest, while what is made has no cycles. What is counted by references is still freed at once."""
    was_enabled = gc.isenabled()
    gc.disable()
    try:
        yield
    finally:
        if was_enabled:
            gc.enable()
