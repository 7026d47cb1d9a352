"""Whether asynchronous resets last over an edge of the clock."""
from __future__ import annotations

from ..formats.timing import Clock
from .dump import Dump


def is_initial(dump: Dump, reset: str, active: str, clock: Clock) -> bool:
    """Whether the reset is active from the dump's beginning on, and over by the clock's first edge: what it gives a flip-flop is then an
    initial value."""
    changes = dump.in_units(dump.bits((reset,)).get(reset, ()))
    return len(changes) > 1 and changes[0] == (0, active) and changes[1][0] <= clock.first


def lost_reset(dump: Dump, reset: str, active: str, clock: Clock, after: int = 0) -> tuple[int, int] | tuple[()] | None:
    """The first time, as (start, stop), that the reset is active without an edge of the clock in it, so that a flip-flop which takes
    the reset at edges would not have it; () where there is none, and None where the reset is not dumped. A reset that begins at an edge
    itself is taken by it. One that lasts to the end of the dump loses nothing, nor does one that is over by the time `after`."""
    bits = dump.bits((reset,))
    if reset not in bits:
        return None
    changes = dump.in_units(bits[reset])
    for (start, value), (stop, _) in zip(changes, changes[1:]):
        if value == active and stop > after:
            # the first edge at or after the start
            edge = clock.first + max(0, -(-(start - clock.first) // clock.period)) * clock.period
            if edge >= stop:
                return start, stop
    return ()
