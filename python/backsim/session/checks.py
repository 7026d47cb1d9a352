"""What is asked of the arguments of calls."""
from __future__ import annotations

from operator import index
from typing import SupportsIndex

from ..errors import UsageError


def whole_number(given: object, what: str, least: int, most: int | None = None) -> int:
    """The whole number that is given, by Python or by numpy. UsageError where it is none, as True and 50.0 are, or out of its range."""
    # numpy's truth values are of the type bool_, or bool in its second version
    is_truth = type(given).__name__ in ("bool", "bool_")
    number = least - 1
    if not is_truth and isinstance(given, SupportsIndex):
        try:
            number = index(given)
        except TypeError:  # as an array of numpy
            pass
    if number < least or most is not None and number > most:
        limits = f"from {least:,} to {most:,}" if most is not None else f"from {least:,} on"
        raise UsageError(f"{given!r} is no {what}: a whole number {limits} is wanted")
    return number
