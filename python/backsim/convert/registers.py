"""Yosys's flip-flops of one bit: what their types mean.

A type such as `$_DFFE_PN0P_` says by its letters at which edge of C it takes D (P a rise, N a fall), at which value R resets it, to
what, and at which value of E it takes D at all."""
from __future__ import annotations

import enum
import re

from ..records import dataclass
from .yosys import Cell

_TYPES = (
    (re.compile(r"\$_DFF_([NP])_"), ("C",)),
    (re.compile(r"\$_DFFE_([NP])([NP])_"), ("C", "E")),
    (re.compile(r"\$_DFF_([NP])([NP])([01])_"), ("C", "A", "V")),
    (re.compile(r"\$_DFFE_([NP])([NP])([01])([NP])_"), ("C", "A", "V", "E")),
    (re.compile(r"\$_SDFF_([NP])([NP])([01])_"), ("C", "S", "V")),
    (re.compile(r"\$_SDFFE_([NP])([NP])([01])([NP])_"), ("C", "S", "V", "E")),
    (re.compile(r"\$_SDFFCE_([NP])([NP])([01])([NP])_"), ("C", "T", "V", "E")),
    (re.compile(r"\$_DFFSR_([NP])([NP])([NP])_"), ("C", "P", "A")),
    (re.compile(r"\$_DFFSRE_([NP])([NP])([NP])([NP])_"), ("C", "P", "A", "E")),
)
_OTHERS = (
    (re.compile(r"\$_(DLATCH|SR)_.*|\$_FF_"), "it is a latch: state the clock's edge in the source"),
    (re.compile(r"\$_ALDFFE?_.*"), "it loads a value asynchronously, which no flip-flop of a netlist does"),
    (re.compile(r"\$(a|al|s)?(dff)(e|ce|sr|sre)?"), "it is a register of several bits: run `simplemap` or `techmap`"),
)


class Reset(enum.Enum):
    """How a reset acts."""

    NONE = "none"
    ASYNCHRONOUS = "asynchronous"
    BEFORE_ENABLE = "at the edge, whatever E is"
    AFTER_ENABLE = "at the edge, if E is active"


@dataclass(frozen=True, slots=True)
class Register:
    """A flip-flop: the falls of C count where `is_falling`; it takes D where E has the value `enable` (None: always), and is reset to
    `value` where R has the value `active`. Where S has the value `set_active` (None: never) and R has not, it is set to 1 at once."""

    cell: Cell
    is_falling: bool
    enable: str | None = None
    reset: Reset = Reset.NONE
    active: str = "1"
    value: str = "0"
    set_active: str | None = None

    def controls(self) -> list[tuple[str, str, str]]:
        """Its set and its reset, as (port, active value, value of the register); of two the later goes before."""
        sets = [] if self.set_active is None else [("S", self.set_active, "1")]
        return sets if self.reset is Reset.NONE else [*sets, ("R", self.active, self.value)]


_RESETS = {"A": Reset.ASYNCHRONOUS, "S": Reset.BEFORE_ENABLE, "T": Reset.AFTER_ENABLE}


def register_of(cell: Cell) -> Register | None:
    """What the type of a cell means; None where it is no flip-flop that can be had."""
    for pattern, letters in _TYPES:
        found = pattern.fullmatch(cell.type)
        if found:
            meant = dict(zip(letters, found.groups()))
            reset = next((letter for letter in _RESETS if letter in meant), None)
            levels = {"P": "1", "N": "0"}
            return Register(cell, meant["C"] == "N", levels[meant["E"]] if "E" in meant else None,
                            _RESETS[reset] if reset else Reset.NONE, levels[meant[reset]] if reset else "1", meant.get("V", "0"),
                            levels[meant["P"]] if "P" in meant else None)
    return None


def why_not(cell: Cell) -> str | None:
    """Why a flip-flop or latch can't be had; None where the cell is neither."""
    return next((cause for pattern, cause in _OTHERS if pattern.fullmatch(cell.type)), None)
