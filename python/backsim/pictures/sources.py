"""Where the rows of a timing diagram come from: replies, a dump, or a session."""
from __future__ import annotations

from collections.abc import Collection, Mapping, Sequence
from pathlib import Path

from ..circuit.buses import bits_of, full_name, matching
from ..command_line.no_value import no_value_of
from ..errors import FormatError, UsageError
from ..explanations.names import listed
from ..formats.netlist import read_netlist
from ..formats.replies import read_replies_of
from ..formats.stimulus import read_stimulus
from ..formats.vcd import Changes, Variable, Vcd, read_vcd
from ..session.session import Session
from ..values import At, Stuck, Wave
from .rows import Row, bus_row, row_of

_WILD = set("*?")


def rows_of_replies(path: Path) -> list[Row]:
    """A row for each signal of the replies to `wave` and `at` lines, and for each signal with a stuck site, in the order of the
    replies. FormatError where the file can't be read, is no file of replies, or has no wave."""
    waves: dict[str, list[Wave]] = {}
    for reply in read_replies_of(path):
        answer = reply.answer
        if isinstance(answer, Wave):
            waves.setdefault(answer.name, []).append(answer)
        elif isinstance(answer, At):
            waves.setdefault(answer.name, []).append(Wave(answer.name, answer.time, answer.time + 1, ((answer.time, answer.value),)))
        elif isinstance(answer, Stuck):
            waves.setdefault(f"{answer.wave.name} ({answer.site} stuck at {answer.value})", []).append(answer.wave)
    if not waves:
        raise FormatError(path, None, "no reply to a `wave`, `at` or `stuck` line is in this file")
    return [row_of(label, own) for label, own in waves.items()]


def chosen(rows: Sequence[Row], names: Sequence[str], path: Path, known: Sequence[str] = ()) -> list[Row]:
    """The rows of these names, patterns and buses, in the order of the names; all where there is no name. FormatError, of the file
    that the rows are of, where a name fits no row; it lists the names `known`, or else those of the rows."""
    if not names:
        return list(rows)
    by_label = {row.label: row for row in rows}
    found: list[Row] = []
    for name in names:
        bits = bits_of(name)
        if name in by_label:
            found.append(by_label[name])
        elif bits and all(bit in by_label for bit in bits):
            found.append(bus_row(name, [by_label[bit] for bit in bits]))
        else:
            labels = matching(name, by_label)
            if not labels:
                raise FormatError(path, None, f"no wave of {name} is in this file; there are {listed(known or list(by_label))}")
            found += [by_label[label] for label in labels]
    return list(dict.fromkeys(found))


def rows_of_vcd(path: Path, scope: str | None, names: Sequence[str]) -> list[Row]:
    """A row for each variable of a scope, and of those below it, or for those of these names, patterns and buses. Without a scope the
    first one that holds a variable is taken. FormatError where the file can't be read or is no dump, or there is no such scope or
    name."""
    vcd = read_vcd(path)
    if scope is None:
        scope = next((variable.path for variable in vcd.variables), None)
        if scope is None:
            raise FormatError(path, None, "the dump has no variable")
    variables = {_label(scope, variable): variable for variable in reversed(vcd.in_scope(scope)) if variable.width > 0}
    names = [_full(name, variables) for name in names]
    rows = {label: Row(label, (_wave_of(label, vcd.changes(variable), vcd),)) for label, variable in reversed(variables.items())
            if not names or _may_be(label, names)}
    bits = {bit for name in names if name not in rows for bit in bits_of(name) or (name,)} - set(rows)
    if bits:
        rows |= {bit: Row(bit, (_wave_of(bit, changes, vcd),)) for bit, changes in vcd.bits(scope, bits).items()}
    return chosen(list(rows.values()), names, path, list(reversed(variables)))


def _label(scope: str, variable: Variable) -> str:
    """The name of a variable below the scope, with its range where it has one."""
    name = f"{variable.path}.{variable.name}"[len(scope) + 1:]
    if variable.left is None or variable.right is None:
        return name
    return f"{name}[{variable.left}]" if variable.width == 1 else f"{name}[{variable.left}:{variable.right}]"


def _full(name: str, variables: Mapping[str, Variable]) -> str:
    """The label of the vector that a name without a range stands for, or the name."""
    vectors = [label for label in variables if label.startswith(f"{name}[") and variables[label].width > 1]
    return vectors[0] if len(vectors) == 1 and name not in variables else name


def _may_be(label: str, names: Sequence[str]) -> bool:
    """Whether a name is that of the variable or a pattern for it."""
    return any(name == label or matching(name, (label,)) for name in names)


def _wave_of(name: str, changes: Sequence[tuple[int, str]] | Changes, vcd: Vcd) -> Wave:
    """The wave of a variable up to the last time of the dump, which is in it."""
    first = changes[0][0] if changes else 0
    return Wave(name, first, max(vcd.last, first) + 1, tuple(changes)) if changes else Wave(name, 0, 0, ())


def rows_of_session(files: Sequence[str], names: Sequence[str], start: int | None, stop: int | None, budget: int | None) -> list[Row]:
    """A row for each signal of these names, patterns and buses, asked of a session over the netlist, the timing file and the stimulus.
    UsageError where a name is that of no signal or the window goes past the horizon; TooDear where a budget does not suffice."""
    begin = 0 if start is None else start
    end = read_stimulus(files[2]).horizon + 1 if stop is None else stop
    wanted = _without_patterns(files[0], names)
    with Session(*files) as session, session.batch() as batch:
        pending = [batch.wave(name, begin, end, budget) for name in wanted]
        batch.ask()
    rows = []
    for name, answer in zip(wanted, (one.result() for one in pending)):
        if not isinstance(answer, Wave):
            raise no_value_of(answer, files[0], files[2], answer.name)
        rows.append(Row(name, (answer,)))
    return rows


def _without_patterns(path: str, names: Sequence[str]) -> list[str]:
    """The names, each once, with the signals that are of a pattern in its place, and the range of a bus that is named without it."""
    netlist = read_netlist(path)
    known, signals = netlist.names, set(netlist.names)
    found: list[str] = []
    for name in names:
        labels = matching(name, known) if set(name) & _WILD and name not in signals else (_bus_of(path, name, signals, netlist.ascending),)
        if not labels:
            raise UsageError(f"{path}: no signal is of the pattern {name}")
        found += labels
    return list(dict.fromkeys(found))


def _bus_of(path: str, name: str, signals: set[str], ascending: Collection[str]) -> str:
    """The name, with its range where it is that of a bus. UsageError, of the netlist's file, where bits of the bus are missing."""
    try:
        return full_name(name, signals, ascending)
    except UsageError as error:
        raise UsageError(f"{path}: {error}") from None
