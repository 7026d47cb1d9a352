"""Many names in few letters: bits as buses, and rows of names that differ in one number."""
from __future__ import annotations

import re
from collections.abc import Collection, Iterable, Sequence

_PLACE = re.compile(r"\[([0-9]{1,9})(?:(?::|\.\.)[0-9]+)?\]")


def in_short(names: Iterable[str], most: int = 8, ascending: Collection[str] = ()) -> str:
    """The names with their bits as buses, as `count[7:0]`, and with rows as `part[0..3].ready`; of more than `most` the first and a
    count."""
    return listed(compact(list(dict.fromkeys(names)), ascending=ascending), most)


def listed(labels: Sequence[str], most: int = 8) -> str:
    """The labels, of more than `most` the first and a count."""
    return ", ".join(labels[:most]) + (f" and {len(labels) - most:,} more" if len(labels) > most else "")


def compact(names: Sequence[str], buses_alone: bool = False, ascending: Collection[str] = ()) -> list[str]:
    """The names in their order, those that differ in one number in brackets by their ranges. A range of last numbers is that of a bus,
    the highest first, or of one that is `ascending` the lowest; another has two dots, and is not made with `buses_alone`."""
    place = -1
    while any(len(_PLACE.findall(name)) >= -place for name in names) and (place == -1 or not buses_alone):
        names = _ranged(names, place, buses_alone, ascending)
        place -= 1
    return list(names)


def _ranged(names: Sequence[str], place: int, buses_alone: bool, ascending: Collection[str]) -> list[str]:
    """The names, with one in the place of those that differ in the number of this place alone, counted from the last."""
    rows: dict[tuple[str, str], list[int]] = {}
    kept: dict[tuple[str, str] | str, None] = {}
    for name in names:
        found = list(_PLACE.finditer(name))
        mark = found[place] if len(found) >= -place else None
        if mark is None or mark.end(1) + 1 != mark.end() or buses_alone and mark.end() != len(name):
            kept[name] = None
            continue
        key = name[:mark.start(1)], name[mark.end(1):]
        rows.setdefault(key, []).append(int(mark[1]))
        kept[key] = None
    shown: list[str] = []
    for row in kept:
        if isinstance(row, str):
            shown.append(row)
            continue
        is_bus = row[1] == "]"
        is_downward = is_bus and row[0][:-1] not in ascending
        between = ":" if is_bus else ".."
        shown += [f"{row[0]}{_range_text(*own[::-1] if is_downward else own, between)}{row[1]}" for own in _ranges(rows[row], is_downward)]
    return shown


def _range_text(first: int, last: int, between: str) -> str:
    return str(first) if first == last else f"{first}{between}{last}"


def _ranges(numbers: Sequence[int], is_downward: bool) -> list[tuple[int, int]]:
    """The ranges of numbers that follow one another, each with the lowest first; the highest range first where they go downward."""
    found: list[tuple[int, int]] = []
    for number in sorted(set(numbers)):
        if found and found[-1][1] == number - 1:
            found[-1] = found[-1][0], number
        else:
            found.append((number, number))
    return found[::-1] if is_downward else found
