"""The causes of refusals in words, by the tables of docs/use/FORMATS.md.

A program's line `refused FILE line L cause C` has FILE `netlist`, `timing` or `stimulus`. The numbers 11 to 19 are those of the join
of the three files; they come with `timing` and `stimulus`."""
from __future__ import annotations

NETLIST = {
    1: "the line is none of INPUT(name), OUTPUT(name) and name = KIND(pins)",
    2: "the kind is none of AND, NAND, OR, NOR, XOR, XNOR, NOT, BUFF (or BUF) and DFF",
    3: "a gate has from 1 to 64 pins, and NOT, BUFF and DFF have exactly one",
    4: "an earlier line defines this signal",
    5: "a name is used as a pin or an output that no line defines",
    6: "a name has more than 255 bytes",
    7: "up to this line there are more than 1,048,576 names or 4,194,304 pins",
}
TIMING = {
    1: "the line has none of the forms of a timing file (pin, clocked and named clocks need `version 2` on the first line)",
    2: "a number is out of its range: delays and periods are 1 to 1,000,000, FIRST is 0 to 1,000,000, a place is 0 to 63",
    3: "an earlier line states the same thing",
}
STIMULUS = {
    1: "the line is none of `horizon H` and `set NAME TIME VALUE` with a value 0, 1, x or z",
    2: "the first line that isn't blank must be `horizon H`",
    3: "a number is above 1,000,000",
    4: "a second horizon line, or an earlier line sets the input at the same time",
}
JOIN = {
    11: "the netlist has no signal of this name",
    12: "a delay is stated for an input",
    13: "a gate or flip-flop is set, where inputs alone can be",
    14: "an initial value or a clock is stated for what is no flip-flop",
    15: "an input is set after the horizon",
    18: "this is no pin of a gate: places count from 0, and inputs and flip-flops have none",
    19: "no line states the clock of this name",
}
OF_FILES = {"netlist": NETLIST, "timing": TIMING | JOIN, "stimulus": STIMULUS | JOIN}


def in_words(file: str, cause: int) -> str:
    """The cause in words; `file` is `netlist`, `timing` or `stimulus`. A number of no table is told as a number."""
    return OF_FILES.get(file, {}).get(cause, f"cause {cause}")
