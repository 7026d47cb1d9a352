"""Where a netlist's signals first have other values than a dump of the same test bench."""
from __future__ import annotations

import re
from collections.abc import Collection, Iterable, Iterator, Mapping, Sequence

from ..circuit.kinds import Kind
from ..command_line.bars import Bar
from ..formats.netlist import Netlist, in_order
from ..formats.stimulus import Stimulus
from ..formats.timing import Timing
from ..formats.vcd import value_at
from ..limits import MOST_BUDGET, USUAL_BUDGET
from ..records import dataclass
from ..session.session import Session
from ..values import Wave
from .build import constant_value

_BIT = re.compile(r"(.+)\[([0-9]{1,6})\]")
EVENTS_OF_A_PIECE = 64
Changes = Sequence[tuple[int, str]]


@dataclass(frozen=True, slots=True)
class Mismatch:
    """A net or bus, the first time at which it differs, the words of both, the leftmost bit first, and the bit that is asked about.
    `begins` says that no signal that was compared, and that the bit is made of, has differed up to then: so the bit's own gates do."""

    time: int
    name: str
    here: str
    there: str
    bit: str
    begins: bool


@dataclass(slots=True)
class Comparison:
    """The first mismatches, by time, and of one time those first that others follow from; those where the dump has x, and a value is here;
    those where x is here, which may come of flip-flops that the dump does not have; how many signals were compared at how many times; and
    the signals of which not all was asked, since it took too much."""

    differing: list[Mismatch]
    unknown: list[Mismatch]
    unclear: list[Mismatch]
    signals: int
    times: int
    dear: list[str]


def events_of(netlist: Netlist, timing: Timing, stimulus: Stimulus) -> list[int]:
    """The times at which inputs are set or clocks have an edge, ascending."""
    clocks = {clock for flop in netlist.flops() if (clock := timing.clock_of(flop.name))}
    return sorted({*stimulus.times(), *(edge for clock in clocks for edge in clock.edges(stimulus.horizon))})


def at_edges(netlist: Netlist, timing: Timing, stimulus: Stimulus) -> dict[str, tuple[int, str]]:
    """The inputs that change at an edge of a clock that is an input itself, each with the first such time and the clock. Which of the two
    comes first is open in Verilog."""
    inputs = set(netlist.inputs)
    clocks = {own for name in timing.clocks for own in (name, name.removesuffix("_falls")) if own in inputs}
    found: dict[str, tuple[int, str]] = {}
    for name in netlist.inputs:
        times = [time for time, _ in stimulus.changes(name) if time > 0] if name not in clocks else []
        races = [(time, own) for own, clock in timing.clocks.items() if own in clocks or own.removesuffix("_falls") in clocks
                 for time in times if time >= clock.first and (time - clock.first) % clock.period == 0]
        if races:
            found[name] = min(races)
    return found


def settled_times(events: Sequence[int], longest: int, first: int, horizon: int) -> list[int]:
    """The times directly before events, and the last one, at which the longest path's time has passed since the event before; from `first`
    on."""
    found = []
    for before, after in zip([0, *events], [*events, horizon + 1]):
        if after > before and after - 1 - before >= longest and after - 1 >= first:
            found.append(after - 1)
    return found


def without_further_names(netlist: Netlist, dumped: Mapping[str, Changes]) -> dict[str, Changes]:
    """The signals without BUFFs that have in the dump, at every time, what their pins have, and so are further names of one net, or of a
    constant."""
    def is_further(name: str) -> bool:
        gate = netlist.gates.get(name)
        if gate is None or gate.kind is not Kind.BUFF:
            return False
        pin = gate.pins[0]
        value = constant_value(pin) if pin in netlist.inputs else None
        return dumped[name] == dumped.get(pin, None if value is None else [(0, value)])

    return {name: changes for name, changes in dumped.items() if not is_further(name)}


def compare(session: Session, dumped: Mapping[str, Changes], events: Sequence[int], times: Sequence[int] | range,
            lost: Collection[str] = (), ascending: Collection[str] = ()) -> Comparison:
    """Compares signals, each with its changes in the dump, at these times, ascending. The windows that are asked have some 64 events each.
    The flip-flops `lost` begin with x since the dump does not have them; of the buses `ascending` words begin with the lowest bit."""
    first: dict[str, int] = {}
    unknown: dict[str, int] = {}
    unclear: dict[str, int] = {}
    reached = session.netlist.reached(*lost) if lost else set()
    dear: dict[str, None] = {}
    pieces = list(_pieces(events, times))
    with Bar(len(pieces) * len(dumped), "waves", has_lines=True) as bar:
        for piece in pieces:
            waves = _waves(session, list(dumped), piece[0], piece[-1] + 1)
            for name, wave in waves.items():
                if wave is None:
                    dear[name] = None
                    continue
                for time, here, there in _differences(wave.changes, dumped[name], piece):
                    own = unknown if there in "xz" else unclear if here in "xz" and name in reached else first
                    own.setdefault(name, time)
                    if name in first:
                        break
            bar.add(len(waves))
    order = _order(session.netlist)
    differing, unknown_there, unknown_here = (_mismatches(session, dumped, own, order, ascending) for own in (first, unknown, unclear))
    return Comparison(differing, unknown_there, unknown_here, len(dumped), len(times), list(dear))


def _pieces(events: Sequence[int], times: Sequence[int] | range) -> Iterator[Sequence[int]]:
    """The times, divided so that some events are in each part."""
    begin, count, place = 0, 0, 0
    for end, time in enumerate(times):
        while place < len(events) and events[place] <= time:
            place += 1
            count += 1
        if count >= EVENTS_OF_A_PIECE or end - begin >= 1 << 16:
            yield times[begin:end + 1]
            begin, count = end + 1, 0
    if begin < len(times):
        yield times[begin:]


def _waves(session: Session, names: Sequence[str], start: int, stop: int) -> dict[str, Wave | None]:
    """The waves in a window; None where the greatest budget does not suffice."""
    found: dict[str, Wave | None] = {}
    left = list(names)
    for budget in (USUAL_BUDGET, MOST_BUDGET):
        with session.batch() as batch:
            asked = {name: batch.wave(name, start, stop, budget) for name in left}
        answers = {name: one.result() for name, one in asked.items()}
        found.update((name, answer if isinstance(answer, Wave) else None) for name, answer in answers.items())
        left = [name for name in left if found[name] is None]
    return found


def _differences(here: Changes, there: Changes, times: Iterable[int]) -> Iterator[tuple[int, str, str]]:
    """The times at which the values differ, with both; z counts as x."""
    own, other = 0, 0
    for time in times:
        while own + 1 < len(here) and here[own + 1][0] <= time:
            own += 1
        while other + 1 < len(there) and there[other + 1][0] <= time:
            other += 1
        first = here[own][1]
        second = there[other][1] if there and there[other][0] <= time else "x"
        if first != second and {first, second} != {"x", "z"}:
            yield time, first, second


def _order(netlist: Netlist) -> dict[str, int]:
    """The place of each signal in an order in which a gate comes after those that it reads; all flip-flops are before all gates."""
    order = {name: 0 for name in netlist.names}
    try:
        order.update((gate.name, place) for place, gate in enumerate(in_order(netlist), 1))
    except ValueError:
        pass  # a loop of gates: any order
    return order


def _mismatches(session: Session, dumped: Mapping[str, Changes], first: Mapping[str, int], order: Mapping[str, int],
                ascending: Collection[str]) -> list[Mismatch]:
    """The mismatches of nets and buses, with the words of both."""
    buses: dict[str, dict[int, str]] = {}
    for name in dumped:
        parts = _BIT.fullmatch(name)
        if parts:
            buses.setdefault(parts[1], {})[int(parts[2])] = name
    found: list[Mismatch] = []
    done: set[str] = set()
    for name, time in sorted(first.items(), key=lambda item: (item[1], order[item[0]])):
        parts = _BIT.fullmatch(name)
        whole = parts[1] if parts else name
        if whole in done:
            continue
        done.add(whole)
        places = sorted(buses[whole], reverse=whole not in ascending) if parts else []
        is_bus = len(places) > 1 and len(places) == abs(places[0] - places[-1]) + 1
        bits = [buses[whole][place] for place in places] if is_bus else [name]
        with session.batch() as batch:
            asked = [batch.at(bit, time, MOST_BUDGET) for bit in bits]
        here = "".join(getattr(one.result(), "value", "?") for one in asked)
        there = "".join(value_at(dumped[bit], time) for bit in bits)
        # what a flip-flop has was taken before, so that what differs since the same time follows from it
        begins = all(first.get(source, time + 1) >= (time if is_before else time + 1)
                     for source, is_before in _sources_of(session.netlist, name, dumped).items())
        found.append(Mismatch(time, f"{whole}[{places[0]}:{places[-1]}]" if is_bus else name, here, there, name, begins))
    return found


def _sources_of(netlist: Netlist, name: str, dumped: Mapping[str, Changes]) -> dict[str, bool]:
    """The signals of the dump that a signal is made of, without others of the dump between them, each with whether a flip-flop is on every
    way from it."""
    found: dict[str, bool] = {}
    seen = {(name, False)}
    left = [(name, False)]
    while left:
        own, is_before = left.pop()
        gate = netlist.gates.get(own)
        for pin in gate.pins if gate else ():
            way = pin, is_before or gate is not None and gate.kind is Kind.DFF
            if pin == name or way in seen:
                continue
            seen.add(way)
            if pin in dumped:
                found[pin] = found.get(pin, True) and way[1]
            else:
                left.append(way)
    return found
