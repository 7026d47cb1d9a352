"""The nine kinds of gates, and what each does (docs/meaning/RULES.md, Values and Looking order). What depends on a kind asks it here.

The gates have the tables of the gate primitives of IEEE 1364 over 0, 1, x and z, and z at a pin counts as x."""
from __future__ import annotations

import enum
from collections.abc import Sequence

_NEGATION = {"0": "1", "1": "0", "x": "x"}


class Join(enum.Enum):
    """What a gate makes of its pins before it negates that. The value is Verilog's operator."""

    ALL = "&"  # 1 where all are 1
    ANY = "|"  # 1 where one of them is
    ODD = "^"  # 1 where an odd number of them are
    ONLY = ""  # what the only pin is


# which values of a pin settle a gate, whatever its other pins are
_DECIDING = {Join.ALL: "0", Join.ANY: "1", Join.ODD: "xz", Join.ONLY: ""}
# of each kind what it makes of its pins, and whether it negates that
_KINDS = {"AND": (Join.ALL, False), "NAND": (Join.ALL, True), "OR": (Join.ANY, False), "NOR": (Join.ANY, True), "XOR": (Join.ODD, False),
          "XNOR": (Join.ODD, True), "NOT": (Join.ONLY, True), "BUFF": (Join.ONLY, False), "DFF": (Join.ONLY, False)}


class Kind(enum.Enum):
    """The nine kinds; the value is the word of a netlist. `join` is what a kind makes of its pins, `inverts` whether it negates that."""

    AND = "AND"
    NAND = "NAND"
    OR = "OR"
    NOR = "NOR"
    XOR = "XOR"
    XNOR = "XNOR"
    NOT = "NOT"
    BUFF = "BUFF"
    DFF = "DFF"

    def __init__(self, word: str) -> None:
        self.join, self.inverts = _KINDS[word]
        self._deciding = _DECIDING[self.join]

    @property
    def is_unary(self) -> bool:
        """Whether the kind has exactly one pin."""
        return self.join is Join.ONLY

    @property
    def controlling(self) -> str | None:
        """The known value of a pin that settles a gate of the kind; None where there is none."""
        return self._deciding if self.join in (Join.ALL, Join.ANY) else None

    @property
    def positive(self) -> Kind:
        """The kind that makes the same of its pins and negates nothing."""
        return next(kind for kind in Kind if kind.join is self.join and not kind.inverts)

    def takes(self, pins: int) -> bool:
        """Whether a gate of the kind can have so many pins, as far as only its kind says."""
        return pins == 1 if self.is_unary else pins >= 1

    def decides(self, value: str) -> bool:
        """Whether a pin with this value settles a gate of the kind, whatever its other pins are."""
        return value in self._deciding

    def gate_value(self, values: Sequence[str]) -> str:
        """The value of a gate whose pins have these values; for DFF the value that its pin gives it."""
        control = self.controlling
        if control is not None and control in values:
            plain = control
        elif "x" in values or "z" in values:
            plain = "x"
        else:
            plain = str(values.count("1") % 2) if control is None else _NEGATION[control]
        return _NEGATION[plain] if self.inverts else plain


def kind_of(word: str) -> Kind | None:
    """The kind of this word, in either case and with BUF for BUFF; None where it is none of the nine."""
    upper = word.upper()
    return Kind.__members__.get("BUFF" if upper == "BUF" else upper)
