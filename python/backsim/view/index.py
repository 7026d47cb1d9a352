"""The names of a large netlist, found while the page is up already: a first look takes the ports alone, and the rest is read in the
background, block by block, so that the page is answered in between. The program has read the same file, so its lines are well formed."""
from __future__ import annotations

import re
import threading
import time
from bisect import bisect_left
from collections.abc import Callable, Iterable, Iterator, Mapping
from functools import cached_property
from heapq import nsmallest
from typing import NamedTuple

from ..circuit.buses import bits_of, full_name, nearest
from ..circuit.kinds import kind_of
from ..convert.build import ONE, ZERO
from ..errors import UsageError, type_of_path
from ..formats.netlist import Gate, Netlist, ascending_in, source_of
from ..formats.text import is_name, read_bytes
from ..records import dataclass

_BLOCK = 1 << 15
_BLANKS = bytes.maketrans(b"\t\r", b"  ")
_NAME = rb"[^(),=# \n]+"
_PORT = re.compile(rb"(?m)^ *(?i:(INPUT|OUTPUT)) *\( *(" + _NAME + rb") *\)")
_LINE = re.compile(rb"(?m)^ *(?:((?i:INPUT|OUTPUT)) *\( *(" + _NAME + rb") *\)|(" + _NAME + rb") *= *(" + _NAME + rb") *\(([^)\n]*)\)([^\n]*))")
_BIT = re.compile(r"(.+)\[([0-9]{1,6})\]")
_NUMBERS, _DIGITS = re.compile(r"[0-9]+"), 12
_SEPARATORS = re.compile(r"[./]")
_KINDS = ("input", "output", "register", "gate")
_MADE_UP, GENERATED = "$", "made by tools"
# of names that are like another, those of the same beginning are compared at most
_COMPARED = 2000
# a block of names waits as long at most for questions that are answered meanwhile, and looks as often whether they are, in seconds
_MOST_WAIT, _LOOK = 0.02, 0.002


class Found(NamedTuple):
    """A signal or a bus of the netlist. `kind` is `input`, `output`, `register` or `gate`; of a bus that of its first bit."""

    name: str
    kind: str
    bits: int


@dataclass(frozen=True, slots=True)
class Level:
    """What stands in a scope of the hierarchy: the scopes in it, each with its full prefix, and the signals and buses; of more than were
    wanted the first, and how many there are in all."""

    scopes: list[tuple[str, str]]
    signals: list[Found]
    count: int


class Index:
    """The names of a netlist. `begin` has all of them read in a thread, which gives way where `is_busy` says that questions are answered:
    threads share one interpreter. What needs all names begins that too, and waits for it."""

    def __init__(self, path: type_of_path, is_busy: Callable[[], bool] = bool) -> None:
        self._is_busy = is_busy
        self._data = read_bytes(path).translate(_BLANKS)
        ports = _PORT.findall(self._data)
        self.inputs = _decoded(name for word, name in ports if word.upper() == b"INPUT")
        self.outputs = _decoded(name for word, name in ports if word.upper() == b"OUTPUT")
        self._ascending = ascending_in(self._data)
        self._lines: list[tuple[bytes, ...]] = []
        self._kinds: dict[str, str] = {}
        self._sorted: list[str] = []
        self._is_read = threading.Event()
        self._netlist: Netlist | None = None
        self._making, self._beginning = threading.Lock(), threading.Lock()
        self._reader: threading.Thread | None = None

    def begin(self) -> None:
        """Has all names read, in a thread, where that was not begun before."""
        with self._beginning:
            if self._reader is None:
                self._reader = threading.Thread(target=self._read, daemon=True, name="names")
                self._reader.start()

    def _wait(self) -> None:
        """Waits until all names are read."""
        if not self._is_read.is_set():
            self.begin()
            self._is_read.wait()

    def _read(self) -> None:
        try:
            for block in _blocks(self._data):
                self._give_way()
                self._lines += _LINE.findall(block)
            kinds = dict.fromkeys(self.inputs, "input")
            for place in range(0, len(self._lines), _BLOCK >> 4):
                self._give_way()
                kinds |= {gate.decode("latin-1"): "register" if kind in (b"DFF", b"dff") else "gate"
                          for _, _, gate, kind, *_ in self._lines[place:place + (_BLOCK >> 4)] if gate}
            _take_registers(kinds, self._lines)
            kinds |= {name: "output" for name in self.outputs if kinds.get(name) == "gate"}
            self._kinds = kinds
            self._sorted = sorted(kinds)
        finally:
            self._data = b""
            self._is_read.set()

    def _give_way(self) -> None:
        until = time.monotonic() + _MOST_WAIT
        while self._is_busy() and time.monotonic() < until:
            time.sleep(_LOOK)

    @property
    def _names(self) -> list[str]:
        self._wait()
        return self._sorted

    def __len__(self) -> int:
        return len(self._names)

    @property
    def count(self) -> int | None:
        """How many signals there are; None before all are read."""
        return len(self._sorted) if self._is_read.is_set() else None

    def bits(self, name: str) -> tuple[str, ...]:
        """The signals that a name stands for: the bits of a bus, the leftmost first, or the signal alone. UsageError where there is no
        such signal, with names that are like it."""
        found = bits_of(name) if name.endswith("]") else ()
        if not self._is_read.is_set() and all(map(self._is_there, found or (name,))):
            return found or (name,)
        self._wait()
        if name in self._kinds:
            return (name,)
        missing = next((bit for bit in found or (name,) if bit not in self._kinds), None)
        if missing is None:
            return found
        near = self.nearest(missing)
        raise UsageError(f"there is no signal {missing}" + (f"; near it: {', '.join(near)}" if near else ""))

    def _is_there(self, name: str) -> bool:
        """Whether a signal is found without all names: a port, or one whose gate stands as usual, with its name where the line begins."""
        if name in self._ports or not is_name(name):
            return name in self._ports
        word = name.encode("latin-1")
        return b"\n%b =" % word in self._data or b"\n%b=" % word in self._data

    @cached_property
    def _ports(self) -> frozenset[str]:
        return frozenset((*self.inputs, *self.outputs))

    def full(self, name: str) -> str:
        """The name with its range where it is that of a bus whose range was left out. UsageError as of `full_name`."""
        if not self._is_read.is_set() and self._is_there(name) or name.endswith("]") and bits_of(name):
            return name
        self._wait()
        return full_name(name, self._kinds, self._ascending)

    def nearest(self, name: str) -> tuple[str, ...]:
        """At most three signals and buses whose names are like the name."""
        begins = [known for known in self._names if known[:2] == name[:2]][:_COMPARED]
        return nearest(name, begins or self._names[:_COMPARED], self._kinds, self._ascending)

    def first(self, count: int) -> list[str]:
        """The signals and buses to begin with: the outputs, and where these are few the inputs above them, without constants of a converter."""
        outputs, inputs = ([found.name for found in self._folded(names) if found.name not in (ONE, ZERO)] for names in (self.outputs, self.inputs))
        return [*inputs[:max(0, count - len(outputs))], *outputs[:count]]

    def find(self, pattern: str, most: int) -> tuple[list[Found], int]:
        """The signals and buses of a pattern, at most so many, and how many there are. Where the pattern has neither `*` nor `?`, those
        that have it anywhere in their name, in either case; else those that a converter has added, with `$` in their names, where the pattern has
        one. A bus that is named as one is found too."""
        words = pattern.split()
        is_wild = bool(set("*?") & set(pattern))
        named: dict[str, Found] = {}
        for word in words:
            if word.endswith("]") and ":" in word:
                try:
                    named[word] = Found(word, self.kind(self.bits(word)[0]), len(self.bits(word)))
                except UsageError:
                    pass
        form = re.compile("|".join(map(_form_of, words)) or "", 0 if is_wild else re.IGNORECASE)
        names = [name for name in self._names if form.fullmatch(name) and (_MADE_UP not in name or not is_wild or _MADE_UP in pattern)]
        begins = tuple(words)
        others = [one for one in self._folded(names) if one.name not in named]
        first = _first_few(others, most, lambda one: (not one.name.startswith(begins), _MADE_UP in one.name))
        return [*named.values(), *first][:most], len(named) + len(others)

    def level(self, prefix: str, most: int) -> Level:
        """What stands in the scope of this prefix, as `u1.alu.`; the empty one is the top. The names that a tool has made up, with `$`
        at their beginning, are in a scope of their own, and those with a `$` in them stand last."""
        names = self._names
        scopes: list[tuple[str, str]] = []
        own: list[str] = []
        place = bisect_left(names, prefix)
        while place < len(names) and names[place].startswith(prefix):
            name = names[place]
            scope = self._scope_of(name, prefix)
            if scope is None:
                own.append(name)
                place += 1
                continue
            scopes.append((scope[len(prefix):-1] or GENERATED, scope))
            place = bisect_left(names, scope[:-1] + chr(ord(scope[-1]) + 1), place)
        signals = self._folded(own)
        first = _first_few(signals, most, lambda one: (_MADE_UP in one.name, _KINDS.index(one.kind)))
        return Level(sorted(scopes, key=lambda scope: (scope[0] == GENERATED, _natural(scope[0])))[:most], first, len(signals))

    @staticmethod
    def _scope_of(name: str, prefix: str) -> str | None:
        """The prefix of the scope below this one in which the name is; None where it is in none."""
        if name[0] == _MADE_UP:
            return None if prefix else _MADE_UP
        mark = _SEPARATORS.search(name, len(prefix) + 1)
        return name[:mark.end()] if mark and mark.end() < len(name) else None

    def kind(self, name: str) -> str:
        """What drives a signal."""
        if not self._is_read.is_set():
            return "input" if name in self.inputs else "output"
        return self._kinds.get(name, "gate")

    def _folded(self, names: Iterable[str]) -> list[Found]:
        """The names, with neighbouring bits of one name as a bus where the first of them stands."""
        stems: dict[str, list[int]] = {}
        for name in names:
            parts = _BIT.fullmatch(name) if name[-1] == "]" else None
            if parts is None:
                stems[name] = []
            else:
                stems.setdefault(f"{parts[1]}[", []).append(int(parts[2]))
        found: list[Found] = []
        for stem, places in stems.items():
            if not places:
                found.append(Found(stem, self.kind(stem), 1))
                continue
            for first, last in _ranges(places):
                left, right = (first, last) if stem[:-1] in self._ascending else (last, first)
                name = f"{stem}{left}:{right}]" if last > first else f"{stem}{first}]"
                found.append(Found(name, self.kind(f"{stem}{first}]"), last - first + 1))
        return found

    def netlist(self) -> Netlist:
        """The whole netlist, made of the lines when it is first wanted; a gate is made when it is asked for."""
        self._wait()
        with self._making:
            if self._netlist is None:
                self._netlist = self._made()
            return self._netlist

    def _made(self) -> Netlist:
        names: dict[bytes, None] = {}
        gates = _Gates()
        for word, port, gate, kind, pins, comment in self._lines:
            if word:
                names.setdefault(port)
                continue
            names.setdefault(gate)
            for pin in pins.split(b","):
                names.setdefault(pin.strip(b" "))
            gates.lines[gate.decode("latin-1")] = (kind, pins, comment)
        self._lines = []
        return Netlist(tuple(self.inputs), tuple(self.outputs), gates, _decoded(names), self._ascending)


def _take_registers(kinds: dict[str, str], lines: Iterable[tuple[bytes, ...]]) -> None:
    """A register with an asynchronous set or reset is a gate, behind a flip-flop that a converter has added: its kind is that of a register."""
    added = {name for name, kind in kinds.items() if kind == "register" and _MADE_UP in name}
    for _, _, gate, kind, pins, *_ in lines if added else ():
        first, _, second = pins.partition(b",")
        if kind in (b"AND", b"OR") and second and b"," not in second and first.strip().decode("latin-1") in added:
            kinds[gate.decode("latin-1")] = "register"


class _Gates(Mapping[str, Gate]):
    """The gates of a netlist, each made of its line when it is first asked for."""

    def __init__(self) -> None:
        self.lines: dict[str, tuple[bytes, bytes, bytes]] = {}
        self._made: dict[str, Gate] = {}

    def __getitem__(self, name: str) -> Gate:
        if name not in self._made:
            word, pins, comment = self.lines[name]
            kind = kind_of(word.decode("latin-1"))
            assert kind is not None
            self._made[name] = Gate(name, kind, tuple(pin.strip() for pin in pins.decode("latin-1").split(",")), source=source_of(comment))
        return self._made[name]

    def __contains__(self, name: object) -> bool:
        return name in self.lines

    def __iter__(self) -> Iterator[str]:
        return iter(self.lines)

    def __len__(self) -> int:
        return len(self.lines)


def _decoded(names: Iterable[bytes]) -> tuple[str, ...]:
    """The names as text, each once."""
    return tuple(dict.fromkeys(name.decode("latin-1") for name in names))


def _blocks(data: bytes) -> Iterator[bytes]:
    """The data in blocks of whole lines."""
    place = 0
    while place < len(data):
        end = data.find(b"\n", place + _BLOCK) + 1 or len(data)
        yield data[place:end]
        place = end


def _form_of(word: str) -> str:
    """A pattern as a regular expression for a whole name."""
    form = "".join({"*": ".*", "?": "."}.get(letter) or re.escape(letter) for letter in word)
    return form if set("*?") & set(word) else f".*{form}.*"


def _ranges(places: Iterable[int]) -> Iterator[tuple[int, int]]:
    """The ranges of neighbouring places, as (first, last)."""
    first = last = -1
    for place in sorted(places):
        if place != last + 1 or first < 0:
            if first >= 0:
                yield first, last
            first = place
        last = place
    if first >= 0:
        yield first, last


def _first_few(found: Iterable[Found], most: int, group: Callable[[Found], tuple[int, int]]) -> list[Found]:
    """The first so many, by their groups and in each by their names; those of a group behind are not put in order."""
    groups: dict[tuple[int, int], list[Found]] = {}
    for one in found:
        groups.setdefault(group(one), []).append(one)
    first: list[Found] = []
    for key in sorted(groups):
        if len(first) < most:
            first += nsmallest(most - len(first), groups[key], key=lambda one: _natural(one.name))
    return first


def _natural(name: str) -> str:
    """A key by which g2 stands before g10."""
    return _NUMBERS.sub(lambda number: number[0].zfill(_DIGITS), name)
