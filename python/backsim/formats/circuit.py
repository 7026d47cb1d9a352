"""The three files of a circuit together: a netlist, and the timing and the stimulus that fit it."""
from __future__ import annotations


from ..errors import type_of_path
from ..records import dataclass
from .netlist import Netlist, read_netlist
from .stimulus import Stimulus, read_stimulus
from .timing import Timing, read_timing
from .units import check_units


@dataclass(frozen=True, slots=True)
class Circuit:
    """What the three files say."""

    netlist: Netlist
    timing: Timing
    stimulus: Stimulus


def read_files(netlist: type_of_path, timing: type_of_path, stimulus: type_of_path) -> tuple[Netlist, Timing, Stimulus]:
    """What the three files say. FormatError where the program refuses one of them, with its line and cause, or where timing and stimulus
    state different units of time."""
    read = read_netlist(netlist)
    made = read, read_timing(timing, read), read_stimulus(stimulus, read)
    check_units(made[1].unit, made[2].unit, stimulus)
    return made
