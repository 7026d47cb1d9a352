"""The netlist, in the form of the ISCAS'85 and ISCAS'89 benchmarks (docs/use/FORMATS.md, The netlist)."""
from __future__ import annotations

import re
from collections.abc import Callable, Iterable, Iterator, Mapping
from dataclasses import field, replace
from typing import TextIO

from ..circuit.kinds import Kind, kind_of
from ..errors import FormatError, type_of_path
from ..limits import MOST_NAMES, MOST_PINS, MOST_PINS_OF_A_GATE, NAME_LIMIT
from ..records import dataclass
from . import causes
from .text import check_mark, content_of, is_name, lines_of, read_bytes

# a gate that a converter adds for a signal
_PART = re.compile(r"(.+)\$[0-9]+")
_TOKEN = re.compile(r"[(),=]|[^(),= ]+")
_BLANKS = rb"[ \t\r]*"
_NAME = rb"[!\"$-'*+\--<>-~]+"
# a line that is most likely that of a gate, as `y = AND(a, b)`: its name, the word of its kind, and its pins
_GATE = re.compile(rb"%b(%b)%b=%b([A-Za-z]+)%b\(%b(%b(?:%b,%b%b)*)%b\)%b(?:#.*)?" % (
    _BLANKS, _NAME, _BLANKS, _BLANKS, _BLANKS, _BLANKS, _NAME, _BLANKS, _BLANKS, _NAME, _BLANKS, _BLANKS))
# a comment that is a place in the source, as `# chip.v:12` or `# chip.v:12.5-14.8`
_SOURCE = re.compile(rb"#[ \t]*([!-~]+:[0-9]+(?:\.[0-9]+(?:-[0-9]+\.[0-9]+)?)?)[ \t\r]*")
# a comment that says how a bus was declared of which the leftmost bit has the lowest number, as `# bus key[0:7]`
_ASCENDING = re.compile(rb"%b#%bbus[ \t]+((%b)\[[0-9]{1,6}:[0-9]{1,6}\])%b" % (_BLANKS, _BLANKS, _NAME, _BLANKS))


@dataclass(frozen=True, slots=True)
class Gate:
    """A gate or flip-flop: the signal that it drives, its kind, the signals at its pins in order (1 to 64, exactly one for NOT,
    BUFF and DFF), its line in the file, 0 where it is of no file, and its place in the source that the netlist was made of, as
    `chip.v:12`, or an empty text."""

    name: str
    kind: Kind
    pins: tuple[str, ...]
    line: int = 0
    source: str = field(default="", compare=False)


@dataclass(frozen=True, slots=True)
class Netlist:
    """Inputs and outputs in order, each once, the gates by their names, and all names in the order of the signals' numbers, which
    is that in which they first appear in the file. `ascending` has, by their names without range, the buses that were declared with the
    lowest bit leftmost, as `key[0:7]`."""

    inputs: tuple[str, ...]
    outputs: tuple[str, ...]
    gates: Mapping[str, Gate]
    names: tuple[str, ...]
    ascending: Mapping[str, str] = field(default_factory=dict, compare=False)
    _numbers: dict[str, int] = field(init=False, repr=False, compare=False)

    def __post_init__(self) -> None:
        object.__setattr__(self, "_numbers", {name: number for number, name in enumerate(self.names)})

    @classmethod
    def build(cls, inputs: Iterable[str], outputs: Iterable[str], gates: Iterable[Gate]) -> Netlist:
        """The netlist of these parts, with the names in the order in which `write_netlist` writes them."""
        inputs, outputs = tuple(dict.fromkeys(inputs)), tuple(dict.fromkeys(outputs))
        by_name = {gate.name: gate for gate in gates}
        names = dict.fromkeys((*inputs, *outputs))
        for gate in by_name.values():
            names.update(dict.fromkeys((gate.name, *gate.pins)))
        return cls(inputs, outputs, by_name, tuple(names))

    def __contains__(self, name: object) -> bool:
        return name in self._numbers

    def number_of(self, name: str) -> int:
        """The signal's number. KeyError where there is no such signal."""
        return self._numbers[name]

    def flops(self) -> tuple[Gate, ...]:
        """The flip-flops, in the order of the file."""
        return tuple(gate for gate in self.gates.values() if gate.kind is Kind.DFF)

    def fanout(self) -> dict[str, tuple[str, ...]]:
        """For each signal the gates and flip-flops that have it at a pin, each once, in the order of the file."""
        readers: dict[str, list[str]] = {name: [] for name in self.names}
        for gate in self.gates.values():
            for pin in dict.fromkeys(gate.pins):
                readers[pin].append(gate.name)
        return {name: tuple(found) for name, found in readers.items()}

    def cone(self, name: str) -> set[str]:
        """The fan-in cone: the signal and all that it can come from, through flip-flops too. KeyError where there is no such."""
        self.number_of(name)
        return _closure((name,), lambda signal: self.gates[signal].pins if signal in self.gates else ())

    def reached(self, *names: str) -> set[str]:
        """The signals and all in whose fan-in cone one of them is. KeyError where there is no such signal."""
        fanout = self.fanout()
        return _closure(names, lambda signal: fanout[signal])


def _closure(starts: Iterable[str], followers: Callable[[str], Iterable[str]]) -> set[str]:
    found, left = set(starts), list(starts)
    while left:
        for name in followers(left.pop()):
            if name not in found:
                found.add(name)
                left.append(name)
    return found


def read_netlist(path: type_of_path) -> Netlist:
    """The netlist of a file. FormatError where the program refuses the file, with the same line and cause, or it can't be read."""
    data = read_bytes(path)
    check_mark(data, path)
    return parse_netlist(data, str(path))


def parse_netlist(data: bytes, path: str) -> Netlist:
    """The netlist of a file's bytes; `path` is what errors name."""
    return _Parser(path).parse(data)


def write_netlist(netlist: Netlist, stream: TextIO) -> None:
    """Writes comments that say which buses ascend, the INPUT lines, the OUTPUT lines, and a line for each gate, in order, with its place
    in the source as a comment."""
    stream.writelines(f"# bus {bus}\n" for bus in netlist.ascending.values())
    stream.writelines(f"INPUT({name})\n" for name in netlist.inputs)
    stream.writelines(f"OUTPUT({name})\n" for name in netlist.outputs)
    stream.writelines(f"{gate.name} = {gate.kind.value}({', '.join(gate.pins)}){f'  # {gate.source}' if gate.source else ''}\n"
                      for gate in netlist.gates.values())


def ascending_in(data: bytes) -> dict[str, str]:
    """The buses that comments above the first line of a netlist that isn't blank say to ascend, by their names without range."""
    found: dict[str, str] = {}
    for line in lines_of(data):
        parts = _ASCENDING.fullmatch(line)
        if parts is not None:
            found[parts[2].decode("ascii")] = parts[1].decode("ascii")
        elif content_of(line).strip(" "):
            break
    return found


def source_of(line: bytes) -> str:
    """The place in the source that the comment of a line is, or an empty text."""
    mark = line.find(b"#")
    found = _SOURCE.fullmatch(line, mark) if mark >= 0 else None
    return found[1].decode("ascii") if found else ""


def with_sources(netlist: Netlist, sources: Mapping[str, str]) -> Netlist:
    """The netlist with the place in the source of each gate whose signal has one in `sources`, or whose name begins as such a signal's,
    with `$` and a number behind it."""

    def placed(gate: Gate) -> Gate:
        name = gate.name
        while name not in sources and (parts := _PART.fullmatch(name)):
            name = parts[1]
        return replace(gate, source=sources.get(name, ""))

    return replace(netlist, gates={name: placed(gate) for name, gate in netlist.gates.items()})


class _Parser:
    """Reads the lines of one file, and keeps what they define."""

    def __init__(self, path: str) -> None:
        self.path = path
        self.inputs: dict[str, None] = {}
        self.outputs: dict[str, None] = {}
        self.gates: dict[str, Gate] = {}
        self.names: dict[str, None] = {}
        self.used: dict[str, int] = {}
        self.kinds: dict[bytes, Kind | None] = {}
        self.pins = 0

    def parse(self, data: bytes) -> Netlist:
        for number, line in enumerate(lines_of(data), 1):
            gate = self.usual_gate(number, line)
            if gate is not None:
                self.add_gate(gate)
                continue
            text = content_of(line)
            if text.strip(" "):
                self.take(number, text, source_of(line))
        for name, number in self.used.items():
            if name not in self.gates and name not in self.inputs:
                raise self.fault(number, 5, name)
        return Netlist(tuple(self.inputs), tuple(self.outputs), self.gates, tuple(self.names), ascending_in(data))

    def usual_gate(self, number: int, line: bytes) -> Gate | None:
        """The gate of a line, where it is seen at once that nothing is wrong with it; else None."""
        found = _GATE.fullmatch(line)
        if found is None or len(line) > NAME_LIMIT:
            return None
        name, word, pins = found[1].decode("ascii"), found[2], found[3].translate(None, b" \t\r").decode("ascii").split(",")
        if word not in self.kinds:
            self.kinds[word] = kind_of(word.decode("ascii"))
        kind = self.kinds[word]
        if kind is None or len(pins) > MOST_PINS_OF_A_GATE or not kind.takes(len(pins)) or name in self.gates or name in self.inputs:
            return None
        return Gate(name, kind, tuple(pins), number, source_of(line))

    def add_gate(self, gate: Gate) -> None:
        """Adds a gate, and the first line that uses each of its pins."""
        self.gates[gate.name] = gate
        self.pins += len(gate.pins)
        self.names[gate.name] = None
        for pin in gate.pins:
            self.names[pin] = None
            self.used.setdefault(pin, gate.line)
        self.check_counts(gate.line)

    def fault(self, number: int, cause: int, what: str = "") -> FormatError:
        return FormatError(self.path, number, causes.NETLIST[cause] + (f": {what}" if what else ""))

    def take(self, number: int, text: str, source: str) -> None:
        tokens = _TOKEN.findall(text)
        if tokens[1:2] == ["="]:
            name, kind, pins = self.gate_of(number, tokens)
            self.check_names(number, (name, *pins))
            if name in self.gates or name in self.inputs:
                raise self.fault(number, 4, name)
            self.add_gate(Gate(name, kind, pins, number, source))
            return
        word, name = self.port_of(number, tokens)
        self.check_names(number, (name,))
        if word == "INPUT" and name in self.gates:
            raise self.fault(number, 4, name)
        (self.inputs if word == "INPUT" else self.outputs)[name] = None
        self.names[name] = None
        self.check_counts(number)
        if word == "OUTPUT":
            self.used.setdefault(name, number)

    def gate_of(self, number: int, tokens: list[str]) -> tuple[str, Kind, tuple[str, ...]]:
        inner = tokens[4:-1]
        pins, commas = inner[::2], inner[1::2]
        well_formed = (len(tokens) >= 5 and tokens[3] == "(" and tokens[-1] == ")" and is_name(tokens[0]) and is_name(tokens[2])
                       and (not inner or len(inner) % 2 == 1) and all(map(is_name, pins)) and all(mark == "," for mark in commas))
        if not well_formed:
            raise self.fault(number, 1)
        kind = kind_of(tokens[2])
        if kind is None:
            raise self.fault(number, 2, tokens[2])
        if len(pins) > MOST_PINS_OF_A_GATE or not kind.takes(len(pins)):
            raise self.fault(number, 3, f"{kind.value} with {len(pins)} pins")
        return tokens[0], kind, tuple(pins)

    def port_of(self, number: int, tokens: list[str]) -> tuple[str, str]:
        if len(tokens) != 4 or tokens[1] != "(" or tokens[3] != ")" or not is_name(tokens[2]):
            raise self.fault(number, 1)
        word = tokens[0].upper()
        if word not in ("INPUT", "OUTPUT"):
            raise self.fault(number, 1)
        return word, tokens[2]

    def check_names(self, number: int, names: Iterable[str]) -> None:
        if any(len(name) > NAME_LIMIT for name in names):
            raise self.fault(number, 6)

    def check_counts(self, number: int) -> None:
        if len(self.names) > MOST_NAMES or self.pins > MOST_PINS:
            raise self.fault(number, 7)


def in_order(netlist: Netlist) -> Iterator[Gate]:
    """The gates, each after the gates that its pins read; flip-flops are left out. ValueError, with the name of a signal on it,
    where gates make a cycle."""
    done: set[str] = set()
    for root in netlist.gates:
        open_gates: dict[str, Iterator[str]] = {}
        if _is_gate(netlist, root) and root not in done:
            open_gates[root] = iter(netlist.gates[root].pins)
        while open_gates:
            name = next(reversed(open_gates))
            for pin in open_gates[name]:
                if pin in open_gates:
                    raise ValueError(pin)
                if pin not in done and _is_gate(netlist, pin):
                    open_gates[pin] = iter(netlist.gates[pin].pins)
                    break
            else:
                del open_gates[name]
                done.add(name)
                yield netlist.gates[name]


def _is_gate(netlist: Netlist, name: str) -> bool:
    return name in netlist.gates and netlist.gates[name].kind is not Kind.DFF
