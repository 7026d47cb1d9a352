"""Replies as a waveform dump: bits of one name as a vector, and what stands before a dot as a scope."""
from __future__ import annotations

import re
from collections.abc import Iterable

from ..formats.vcd import Changes, Variable, value_at
from ..values import Answer, At, Stuck, Wave

_BIT = re.compile(r"(.+)\[([0-9]{1,6})\]")
_RUNS = dict[tuple[tuple[str, ...], str], list[tuple[int, int, str]]]


def runs_of(answers: Iterable[Answer], top: str) -> _RUNS:
    """The runs, as (start, stop, value), of each signal that an answer is of. A `stuck` answer's signal stands in a scope of its own,
    as `top.G8-stuck-at-1`."""
    found: _RUNS = {}
    for answer in answers:
        if isinstance(answer, Wave):
            found.setdefault(((top,), answer.name), []).extend(answer)
        elif isinstance(answer, At):
            found.setdefault(((top,), answer.name), []).append((answer.time, answer.time + 1, answer.value))
        elif isinstance(answer, Stuck):
            scope = (top, f"{answer.site}-stuck-at-{answer.value}")
            found.setdefault((scope, answer.wave.name), []).extend(answer.wave)
    return found


def changes_of(runs: Iterable[tuple[int, int, str]]) -> Changes:
    """The changes that show each run in its times, and x elsewhere."""
    changes: list[tuple[int, str]] = [(0, "x")]
    end = 0
    for start, stop, value in sorted(runs):
        if start > end:
            changes.append((end, "x"))
        if stop > end:
            changes.append((max(start, end), value))
            end = stop
    changes.append((end, "x"))
    by_time = dict(changes)
    found: list[tuple[int, str]] = []
    for time, value in by_time.items():
        if not found or found[-1][1] != value:
            found.append((time, value))
    return tuple(found)


def dumped_of(runs: _RUNS, is_flat: bool = False) -> list[tuple[Variable, Changes]]:
    """The variables with their changes. Unless `is_flat`, bits `count[7]` to `count[0]` that are all there become a vector, and
    `part.count` stands in the scope `part`."""
    bits = {key: changes_of(own) for key, own in runs.items()}
    if is_flat:
        return [(Variable(scope, name), changes) for (scope, name), changes in bits.items()]
    vectors: dict[tuple[tuple[str, ...], str], dict[int, Changes]] = {}
    for (scope, name), changes in bits.items():
        parts = _BIT.fullmatch(name)
        if parts:
            vectors.setdefault((scope, parts[1]), {})[int(parts[2])] = changes
    dumped: list[tuple[Variable, Changes]] = []
    done: set[tuple[tuple[str, ...], str]] = set()
    for (scope, name), changes in bits.items():
        parts = _BIT.fullmatch(name)
        if parts is None:
            dumped.append((_variable(scope, name), changes))
        elif (scope, parts[1]) not in done:
            done.add((scope, parts[1]))
            dumped.extend(_vectors(scope, parts[1], vectors[scope, parts[1]]))
    return dumped


def _variable(scope: tuple[str, ...], name: str, left: int | None = None, right: int | None = None) -> Variable:
    *outer, own = name.split(".")
    if not all((*outer, own)):
        outer, own = [], name
    width = 1 if left is None or right is None else left - right + 1
    return Variable((*scope, *outer), own, width, left, right)


def _vectors(scope: tuple[str, ...], name: str, bits: dict[int, Changes]) -> Iterable[tuple[Variable, Changes]]:
    """One vector for each row of neighbouring bits, the highest bit first."""
    places = sorted(bits, reverse=True)
    begin = 0
    for end in range(1, len(places) + 1):
        if end == len(places) or places[end] != places[end - 1] - 1:
            own = [bits[place] for place in places[begin:end]]
            times = sorted({time for changes in own for time, _ in changes})
            words = tuple((time, "".join(value_at(changes, time) for changes in own)) for time in times)
            yield _variable(scope, name, places[begin], places[end - 1]), words
            begin = end
