"""The netlist that Yosys's `write_json` writes, read: ports, cells, and the names of nets."""
from __future__ import annotations

import json
import re
from collections.abc import Iterable, Iterator
from dataclasses import field
from typing import Any, Union

from ..errors import FormatError, reason_of, type_of_path
from ..formats.text import RULE_OF_NAMES, is_name
from ..limits import NAME_LIMIT
from ..records import dataclass

Bit = Union[int, str]
_Object = dict[str, Any]
CONSTANTS = ("0", "1", "x", "z")
MOST_BYTES = 1 << 30
_NO_PLACE = re.compile(r"(?:^|/)share/yosys/[^:]*:|:0\.0-0\.0$")
_MARKS = ("whitebox", "blackbox", "keep_hierarchy", "liberty_cell")


@dataclass(frozen=True, slots=True)
class Net:
    """A name of the design for some bits, the lowest first. `init` has a letter for each bit, the lowest first, or is empty; `source`
    is where it is declared, after the places of the instances that it is in."""

    name: str
    bits: tuple[Bit, ...]
    is_public: bool
    is_port: bool = False
    offset: int = 0
    is_upward: bool = False
    init: str = ""
    source: tuple[str, ...] = ()

    def names(self) -> Iterator[str]:
        """The names of the bits, as in a dump: `count[3]`, or the name itself of a single bit."""
        if len(self.bits) == 1 and self.offset == 0:
            yield self.name
            return
        for place in range(len(self.bits)):
            yield f"{self.name}[{self.offset + (len(self.bits) - 1 - place if self.is_upward else place)}]"


@dataclass(frozen=True, slots=True)
class Cell:
    """A cell: its name and type, its parameters as words, and the bits at each port."""

    name: str
    type: str
    parameters: dict[str, str]
    ports: dict[str, tuple[Bit, ...]]
    outputs: tuple[str, ...]
    source: tuple[str, ...] = ()


@dataclass(slots=True)
class Module:
    """A module of the file. Inputs and outputs are bits by names. `library` has the modules of the cells that stand for cells of a
    library, by their types."""

    path: str
    name: str
    inputs: dict[str, Bit] = field(default_factory=dict)
    outputs: dict[str, Bit] = field(default_factory=dict)
    nets: list[Net] = field(default_factory=list)
    cells: list[Cell] = field(default_factory=list)
    library: dict[str, Module] = field(default_factory=dict)

    def fault(self, cause: str) -> FormatError:
        """An error of this file."""
        return FormatError(self.path, None, cause)


def read_module(path: type_of_path, top: str | None = None) -> Module:
    """The module of this name; where none is given, the one that Yosys marks as the top, or the only one. FormatError where the file
    can't be read, or is none that `write_json` writes, or has no such module."""
    data = _parse(path)
    modules = _table(path, data, "modules")
    name = top if top is not None else _top_of(path, modules)
    if name not in modules:
        raise FormatError(path, None, f"there is no module {name}; there are {', '.join(modules) or 'none'}")
    module = _Reader(str(path), name).read(modules)
    for cell in module.cells:
        if cell.type not in module.library and cell.type in modules and _is_of_library(modules[cell.type]):
            module.library[cell.type] = _Reader(str(path), cell.type).read(modules)
    return module


def _is_of_library(module: object) -> bool:
    """Whether a module stands for a cell of a library: it is marked as one that `flatten` leaves, or is of no Verilog source."""
    attributes = module.get("attributes") if isinstance(module, dict) else None
    return isinstance(attributes, dict) and ("src" not in attributes or any(str(attributes.get(mark, "0")).strip("0") for mark in _MARKS))


def _parse(path: type_of_path) -> object:
    try:
        with open(path, "rb") as file:
            data = file.read(MOST_BYTES + 1)
        if len(data) > MOST_BYTES:
            raise FormatError(path, None, f"the file has more than {MOST_BYTES} bytes")
        return json.loads(data)
    except json.JSONDecodeError as error:
        raise FormatError(path, error.lineno, f"this is no JSON: {error.msg}") from None
    except UnicodeDecodeError:
        raise FormatError(path, None, "this is no JSON: its bytes are no text") from None
    except (OSError, ValueError) as error:
        raise FormatError(path, None, reason_of(error)) from None
    except RecursionError:
        raise FormatError(path, None, "this is no JSON that Yosys writes: it is nested too deeply") from None


def _table(path: type_of_path, data: object, key: str) -> _Object:
    value = data.get(key) if isinstance(data, dict) else None
    if not isinstance(value, dict):
        raise FormatError(path, None, f"this is no JSON that Yosys's write_json makes: expected an object `{key}`")
    return value


def _top_of(path: type_of_path, modules: _Object) -> str:
    marked = [name for name, module in modules.items()
              if isinstance(module, dict) and str((module.get("attributes") or {}).get("top", "0")).strip("0")]
    found = marked or [name for name, module in modules.items() if len(modules) == 1 or not _is_of_library(module)]
    if len(found) != 1:
        raise FormatError(path, None, f"say which module by --top: {', '.join(found) or 'there is none'}")
    return found[0]


class _Reader:
    """Reads one module."""

    def __init__(self, path: str, name: str) -> None:
        self.module = Module(path, name)

    def read(self, modules: _Object) -> Module:
        own = _table(self.module.path, modules, self.module.name)
        ports, cells, nets = (_table(self.module.path, own, key) for key in ("ports", "cells", "netnames"))
        for name, port in ports.items():
            self.port(name, port, nets.get(name))
        for name, net in nets.items():
            self.module.nets.append(self.net(name, net, name in ports))
        for name, cell in cells.items():
            self.module.cells.append(self.cell(name, cell))
        return self.module

    def bits(self, where: str, bits: object) -> tuple[Bit, ...]:
        if not isinstance(bits, list) or not all(type(bit) is int or bit in CONSTANTS for bit in bits):
            raise self.module.fault(f"this is no JSON that Yosys's write_json makes: {where} has no list of bits")
        return tuple(bits)

    def table(self, where: str, data: object, key: str) -> _Object:
        value = data.get(key, {}) if isinstance(data, dict) else None
        if not isinstance(value, dict):
            raise self.module.fault(f"this is no JSON that Yosys's write_json makes: {where} has no object `{key}`")
        return value

    def port(self, name: str, port: object, net: object) -> None:
        direction = port.get("direction") if isinstance(port, dict) else None
        if not isinstance(port, dict) or direction not in ("input", "output"):
            place = "".join(f" of {place}" for place in _source(self.table(f"the net {name}", net, "attributes"))[:1]) if net else ""
            hint = (f": in the source make it three, what is read, what is driven and when, as {name}_i, {name}_o and {name}_oe for "
                    f"assign {name} = {name}_oe ? {name}_o : 1'bz") if direction == "inout" else ""
            raise self.module.fault(f"the port {name}{place} is {direction}, and a netlist has inputs and outputs alone{hint}")
        bits = self.bits(f"the port {name}", port.get("bits"))
        net = Net(name, bits, True, offset=_number(port.get("offset")), is_upward=bool(port.get("upto")))
        (self.module.inputs if direction == "input" else self.module.outputs).update(zip(net.names(), bits))

    def net(self, name: str, net: object, is_port: bool) -> Net:
        attributes = self.table(f"the net {name}", net, "attributes")
        assert isinstance(net, dict)
        bits = self.bits(f"the net {name}", net.get("bits"))
        init = str(attributes.get("init", ""))[::-1].lower()
        return Net(name, bits, not net.get("hide_name"), is_port, _number(net.get("offset")), bool(net.get("upto")), init,
                   _source(attributes))

    def cell(self, name: str, cell: object) -> Cell:
        where = f"the cell {name}"
        kind = cell.get("type") if isinstance(cell, dict) else None
        if not isinstance(kind, str):
            raise self.module.fault(f"this is no JSON that Yosys's write_json makes: {where} has no type")
        ports = {port: self.bits(f"{where}, port {port},", bits) for port, bits in self.table(where, cell, "connections").items()}
        directions = self.table(where, cell, "port_directions")
        parameters = {key: str(value) for key, value in self.table(where, cell, "parameters").items()}
        outputs = tuple(port for port in ports if directions.get(port) != "input")
        return Cell(name, kind, parameters, ports, outputs, _source(self.table(where, cell, "attributes")))


def _number(value: object) -> int:
    return value if isinstance(value, int) else 0


def _source(attributes: _Object) -> tuple[str, ...]:
    """The places of a cell or net, without those in files of Yosys's own, as its `techmap.v`, and those that are none, in line 0."""
    places = (place for place in str(attributes.get("src", "")).split("|") if place)
    return tuple(place for place in places if not _NO_PLACE.search(place))


class Names:
    """The name of each bit of a module, and its further ones.

    A public name goes before one that Yosys made. Of several public ones, a port that is an input has its own; the bit of a flip-flop
    has that of the register which the source declares in the module of the flip-flop, or else one with an initial value, or that is
    no port; any other bit has that of a port, or else of the least deep instance."""

    def __init__(self, module: Module, flops: dict[Bit, Cell], used: Iterable[Bit]) -> None:
        self._module = module
        self._inputs = {bit: name for name, bit in module.inputs.items()}
        self._flops = flops
        candidates: dict[Bit, list[tuple[Net, str]]] = {}
        self.constants: list[tuple[str, Bit]] = []
        seen: dict[str, Bit] = {}
        for net in module.nets:
            for name, bit in zip(net.names(), net.bits):
                if net.is_public and seen.setdefault(name, bit) != bit:
                    raise module.fault(f"two nets have the name {name}: rename one in the source")
                if bit not in CONSTANTS:
                    candidates.setdefault(bit, []).append((net, name))
                elif net.is_public:
                    self.constants.append((name, bit))
        self.of: dict[Bit, str] = {}
        self.others: dict[Bit, list[str]] = {}
        taken = {name for own in candidates.values() for net, name in own if net.is_public} | {name for name, _ in self.constants}
        for bit, own in candidates.items():
            self._choose(bit, own, taken)
        for bit in used:
            if bit not in CONSTANTS and bit not in self.of:
                self.of[bit] = _new_name(f"$n{bit}", taken)

    def _choose(self, bit: Bit, own: list[tuple[Net, str]], taken: set[str]) -> None:
        public = [(net, name) for net, name in own if net.is_public]
        if not public:
            self.of[bit] = _new_name(min(name for _, name in own), taken)
            return
        for _, name in public:
            if not is_name(name) or len(name) > NAME_LIMIT:
                cause = f"it has more than {NAME_LIMIT} letters" if is_name(name) else RULE_OF_NAMES
                raise self._module.fault(f"no signal of a netlist may have the name {ascii(name)[1:-1]}, since {cause}: rename it in the source")
        chosen = self._inputs.get(bit) or min(public, key=lambda found: self._rank(bit, *found))[1]
        self.of[bit] = chosen
        self.others[bit] = [name for name in dict.fromkeys(name for _, name in public) if name != chosen]

    def _rank(self, bit: Bit, net: Net, name: str) -> tuple[object, ...]:
        """The least one is chosen."""
        depth = name.count(".")
        flop = self._flops.get(bit)
        if flop is None:
            return (not net.is_port, depth, name)
        is_elsewhere = not flop.source or not net.source or flop.source[:-1] != net.source[:-1]
        return (is_elsewhere, not net.init, net.is_port, depth, name)


def plain_name(name: str) -> str:
    """The name without what no name of a netlist may have, short enough for a number behind it."""
    return "".join(letter if is_name(letter) else "_" for letter in name)[-NAME_LIMIT + 12:]


def type_of(word: str) -> str:
    """The name of a module as the source has it, without the parameters that Yosys adds to it (`$paramod\\LUT2\\INIT=...`)."""
    parts = word.split("\\")
    return parts[1] if parts[0].startswith("$paramod") and len(parts) > 1 else word


def _new_name(stem: str, taken: set[str]) -> str:
    """The name, without what no name may have, with a number behind it where it is taken."""
    stem = plain_name(stem)
    name, number = stem, 0
    while name in taken:
        number += 1
        name = f"{stem}${number}"
    taken.add(name)
    return name
