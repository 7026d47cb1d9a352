"""The circuit in which branches are signals of their own.

A branch from a signal to a pin becomes a BUFF with a delay of 1, so the pin's delay has to be less by 1. For this all times are
doubled: horizon, settings, periods, and each delay d becomes 2d. Then a branch's pin has 2d - 1, and its buffer 1: in sum what the
pin had. A flip-flop takes its pin at the edge itself, without a delay; so edges e become 2e + 1, and the delay d of a flip-flop
2d - 1: it shows at 2(e + d) what its pin was at 2e, also through a buffer, since every signal has at an odd time the value of the
even time before. What a signal has at t in the circuit, it has at 2t in this one, with every fault."""
from __future__ import annotations

from collections.abc import Iterable
from dataclasses import replace
from itertools import count

from ..circuit.kinds import Kind
from ..errors import WordsError
from ..formats.circuit import Circuit
from ..formats.netlist import Gate, Netlist
from ..formats.stimulus import Stimulus
from ..formats.timing import Clock, Timing
from ..limits import MOST_TIME, NAME_LIMIT
from ..records import dataclass
from .model import Site

MOST_HORIZON = MOST_TIME // 2 - 1


@dataclass(frozen=True, slots=True)
class Made(Circuit):
    """The circuit that the command asks, the signal of each site, and by what its times are multiplied."""

    signals: dict[Site, str]
    scale: int

    def signal(self, site: Site) -> str:
        """The signal that is stuck for a fault of this site."""
        return site.source if site.is_stem else self.signals[site]


def with_branches(circuit: Circuit, branches: Iterable[Site], doubled: Stimulus | None = None) -> Made:
    """The circuit with these branches as signals; the circuit itself where there are none. The branch to an output needs none. `doubled`
    is the stimulus that was made for other branches: where it is given, it is this one's too, and times are doubled in any case.
    WordsError where the horizon is above 499,999, so that it can't be doubled."""
    netlist, timing, stimulus = circuit.netlist, circuit.timing, circuit.stimulus
    branches = [site for site in branches if not site.is_stem and not site.is_output]
    if not branches and doubled is None:
        return Made(netlist, timing, stimulus, {}, 1)
    if stimulus.horizon > MOST_HORIZON:
        raise WordsError(f"for faults of branches all times are doubled, so the horizon may be at most {MOST_HORIZON}, and is "
                         f"{stimulus.horizon}: divide all times by a number, or ask for stems alone (--stems)")
    signals = dict(zip(branches, _new_names(netlist, branches)))
    pins = {(site.reader, site.place): name for site, name in signals.items()}
    gates = []
    for gate in netlist.gates.values():
        read = tuple(pins.get((gate.name, place), pin) for place, pin in enumerate(gate.pins))
        gates.append(replace(gate, pins=read))
    gates.extend(Gate(name, Kind.BUFF, (site.source,)) for site, name in signals.items())
    made = Netlist.build(netlist.inputs, netlist.outputs, gates)
    return Made(made, _doubled(netlist, timing, signals), doubled or _doubled_stimulus(stimulus), signals, 2)


def _new_names(netlist: Netlist, branches: list[Site]) -> Iterable[str]:
    """A name for each branch: `FROM->TO`, or one with a number where that is taken or too long."""
    taken = set(netlist.names)
    numbers = count(1)
    for site in branches:
        name = f"{site.source}->{site.reader}"
        if name in taken or len(name) > NAME_LIMIT:
            name = next(new for number in numbers if (new := f"branch->{number}") not in taken)
        taken.add(name)
        yield name


def _most(time: int) -> int:
    """The time, or the greatest one that a file may have. Both are above the doubled horizon where they differ."""
    return min(time, MOST_TIME)


def _doubled(netlist: Netlist, timing: Timing, signals: dict[Site, str]) -> Timing:
    made = Timing(default=_most(2 * (timing.default or 1)))
    made.kind_delays = {kind: _most(2 * delay) for kind, delay in timing.kind_delays.items() if kind is not Kind.DFF}
    made.delays = {name: _most(2 * delay) for name, delay in timing.delays.items()}
    made.delays.update({gate.name: _most(2 * timing.delay(gate) - 1) for gate in netlist.flops()})
    made.delays.update(dict.fromkeys(signals.values(), 1))
    made.pin_delays = {pin: _most(2 * delay) for pin, delay in timing.pin_delays.items()}
    for site in signals:
        gate = netlist.gates[site.reader or ""]
        if gate.kind is not Kind.DFF:
            made.pin_delays[gate.name, site.place] = _most(2 * timing.delay(gate, site.place) - 1)
    made.clock = _doubled_clock(timing.clock) if timing.clock else None
    made.clocks = {name: _doubled_clock(clock) for name, clock in timing.clocks.items()}
    made.clocked, made.initials = dict(timing.clocked), dict(timing.initials)
    return made


def _doubled_clock(clock: Clock) -> Clock:
    return Clock(_most(2 * clock.first + 1), _most(2 * clock.period))


def _doubled_stimulus(stimulus: Stimulus) -> Stimulus:
    settings = {name: [(2 * time, value) for time, value in own] for name, own in stimulus.settings.items()}
    return Stimulus(2 * stimulus.horizon, settings)
