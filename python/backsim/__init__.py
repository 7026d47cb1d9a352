"""BACKSIM from Python: sessions with the demand-driven gate-level simulator, and readers and writers of its formats.

    from backsim import Session
    with Session("c17.bench", "c17.timing", "c17.stim") as session:
        print(session.wave("22", 0, 11).changes)
        print(session.first("22", 0, 0, 11).time)

`backsim.formats` has a module for each format, `backsim.values` what a session answers, `backsim.errors` what goes wrong. A module is
imported when a name of it is first wanted, so that a command does not wait for what it does not need."""
from __future__ import annotations

from importlib import import_module
from typing import TYPE_CHECKING, Any

if TYPE_CHECKING:
    # `as` says to a type checker that the package has the name
    from .circuit.buses import number_of as number_of
    from .circuit.kinds import Kind as Kind
    from .errors import (
        BacksimError as BacksimError, FormatError as FormatError, MissingExtra as MissingExtra, NoValue as NoValue,
        UsageError as UsageError)
    from .explanations import Cause as Cause, CauseKind as CauseKind, Explanation as Explanation, Step as Step
    from .formats.netlist import (
        Gate as Gate, Netlist as Netlist, parse_netlist as parse_netlist, read_netlist as read_netlist, write_netlist as write_netlist)
    from .formats.stimulus import Stimulus as Stimulus, read_stimulus as read_stimulus, write_stimulus as write_stimulus
    from .formats.timing import Clock as Clock, Timing as Timing, read_timing as read_timing, write_timing as write_timing
    from .session.batch import Batch as Batch
    from .session.outcomes import Fault as Fault, Refused as Refused, SessionError as SessionError
    from .session.program import Options as Options, find_program as find_program
    from .session.questions import Pending as Pending
    from .session.session import Session as Session
    from .values import *

_NAMES = {
    "circuit.buses": ("number_of",),
    "circuit.kinds": ("Kind",),
    "errors": ("BacksimError", "FormatError", "MissingExtra", "NoValue", "UsageError"),
    "explanations": ("Cause", "CauseKind", "Explanation", "Step"),
    "formats.netlist": ("Gate", "Netlist", "parse_netlist", "read_netlist", "write_netlist"),
    "formats.stimulus": ("Stimulus", "read_stimulus", "write_stimulus"),
    "formats.timing": ("Clock", "Timing", "read_timing", "write_timing"),
    "session.batch": ("Batch",),
    "session.outcomes": ("Fault", "Refused", "SessionError"),
    "session.program": ("Options", "find_program"),
    "session.questions": ("Pending",),
    "session.session": ("Session",),
}
_MODULES = {name: module for module, names in _NAMES.items() for name in names}


def __getattr__(name: str) -> Any:
    if name in _MODULES:
        return getattr(import_module(f".{_MODULES[name]}", __name__), name)
    if name in ("errors", "formats", "values"):
        return import_module(f".{name}", __name__)
    # all others are those of `values`; it is not imported for a name that can't be one of its classes, as that of a module
    if name == "__all__" or name[:1].isupper():
        values = import_module(".values", __name__)
        if name == "__all__":
            return sorted((*_MODULES, *values.__all__))
        if name in values.__all__:
            return getattr(values, name)
    raise AttributeError(f"module {__name__!r} has no attribute {name!r}")


def __dir__() -> list[str]:
    return sorted({*globals(), *__getattr__("__all__"), "__all__"})
