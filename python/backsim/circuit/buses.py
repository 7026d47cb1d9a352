"""Buses, as `count[7:0]`, and patterns of names, as `u1.*`.

A bus is asked as its bits, `count[7]` to `count[0]`, and answered by words, the bit that is named first being the leftmost. A signal
whose whole name is that of a bus is that signal, and no bus. With the names of a netlist a bus may be named without its range."""
from __future__ import annotations

import re
from collections.abc import Collection, Iterable, Sequence
from difflib import get_close_matches
from itertools import groupby

from ..errors import UsageError
from ..values import Wave

_BUS = re.compile(r"(.+)\[([0-9]{1,6}):([0-9]{1,6})\]")
_PLACE, _LAST_PLACE = re.compile(r"[0-9]{1,6}\]"), re.compile(r"(?<=.)\[[0-9]{1,6}\]$")
MOST_BITS = 4096
_NEAREST = 3
_LITERAL = re.compile(r"[0-9]*'([bdh])([0-9a-f]+)")
_BASES = {"b": 2, "d": 10, "h": 16}


def bits_of(name: str) -> tuple[str, ...]:
    """The names of the bits of a bus, the leftmost first; the empty tuple where the name is that of no bus. UsageError where the bus
    has more than 4,096 bits."""
    parts = _BUS.fullmatch(name)
    if parts is None:
        return ()
    left, right = int(parts[2]), int(parts[3])
    step = 1 if right >= left else -1
    places = range(left, right + step, step)
    if len(places) > MOST_BITS:
        raise UsageError(f"{name} has {len(places)} bits, more than {MOST_BITS}")
    return tuple(f"{parts[1]}[{place}]" for place in places)


def written_number(text: str) -> int | None:
    """The number that a person wrote: in decimal, in hexadecimal (`0x1f`, `1fh`), in binary (`0b101`), or as Verilog has it (`5'h1f`);
    None where it is none."""
    word = text.strip().lower().replace("_", "")
    literal = _LITERAL.fullmatch(word)
    if literal is not None:
        base, digits = _BASES[literal[1]], literal[2]
    elif word.endswith("h"):
        base, digits = 16, word[:-1]
    else:
        base, digits = 10 if word.isdigit() else 0, word
    try:
        return int(digits, base)
    except ValueError:
        return None


def full_name(name: str, names: Collection[str], ascending: Collection[str] = ()) -> str:
    """The name with its range where it is that of a bus of which `names`, those of a netlist or of a file, has all bits and whose range
    was left out: `count[7:0]` for `count`. Any other name stays. The leftmost bit is the highest one, and of a bus that is `ascending` the
    lowest. A look at each of `names`.
    UsageError where bits between the highest and the lowest are missing, or there are more than 4,096."""
    if name in names or name.endswith("]") and bits_of(name):
        return name
    places = _places(name, names)
    if not places:
        return name
    left, right = (min(places), max(places)) if name in ascending else (max(places), min(places))
    full = f"{name}[{left}:{right}]"
    missing = [bit for bit in bits_of(full) if bit not in names]
    if missing:
        raise UsageError(f"the bus {full} has no bit {missing[0]}: name its bits, or a range that has all")
    return full


def nearest(name: str, names: Collection[str], known: Collection[str] = (), ascending: Collection[str] = ()) -> tuple[str, ...]:
    """At most three of the names that are like the name, the most alike first. Where the name is that of no bit, a bus stands in place of
    its bits; these are of `known`, all names, or else of the names."""
    if name.endswith("]") and not _places(name, known or names):
        return tuple(get_close_matches(name, names, _NEAREST))
    stems = dict.fromkeys(_LAST_PLACE.sub("", own) for own in names)
    every = frozenset(known or names)
    return tuple(_known_by(stem, every, ascending) for stem in get_close_matches(name, stems, _NEAREST))


def _known_by(stem: str, names: Collection[str], ascending: Collection[str]) -> str:
    """The signal or the bus of this stem; of one bit, or of a bus that lacks some, the lowest bit that is there."""
    try:
        full = full_name(stem, names, ascending)
    except UsageError:
        return f"{stem}[{min(_places(stem, names))}]"
    bits = bits_of(full)
    return bits[0] if len(bits) == 1 else full


def _places(stem: str, names: Iterable[str]) -> set[int]:
    """The places of the bits `stem[PLACE]` that are names."""
    begin = f"{stem}["
    return {int(own[len(begin):-1]) for own in names if own.startswith(begin) and _PLACE.fullmatch(own, len(begin))}


def signals_of(name: str, names: Collection[str]) -> tuple[str, ...]:
    """The signals of `names` that a name stands for: the signal of that name, or the bits of a bus that is named with its range or
    without it, the leftmost first. The empty tuple where one of them is none of `names`. UsageError as of `full_name`."""
    if name in names:
        return (name,)
    bits = bits_of(full_name(name, names))
    return bits if bits and all(bit in names for bit in bits) else ()


def wave_of(name: str, waves: Sequence[Wave]) -> Wave:
    """The wave of a bus, of the waves of its bits in one window, the leftmost first: a run for each word."""
    changes = sorted((time, place, value) for place, wave in enumerate(waves) for time, value in wave.changes)
    word = ["x"] * len(waves)
    words: list[tuple[int, str]] = []
    for time, group in groupby(changes, key=lambda change: change[0]):
        for _, place, value in group:
            word[place] = value
        words.append((time, "".join(word)))
    return Wave(name, waves[0].start, waves[0].stop, tuple(words))


def number_of(word: str) -> int | None:
    """The number that a word of 0 and 1 is, its leftmost bit the greatest; None where a bit is x or z, or there is none."""
    return int(word, 2) if word and not word.strip("01") else None


def matching(pattern: str, names: Iterable[str]) -> tuple[str, ...]:
    """The names of the pattern, in their order: `*` stands for any letters, `?` for one, and every other letter for itself."""
    form = re.compile("".join({"*": ".*", "?": "."}.get(letter) or re.escape(letter) for letter in pattern))
    return tuple(name for name in names if form.fullmatch(name))
