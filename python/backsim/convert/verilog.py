"""A circuit with its stimulus as a Verilog file, with the questions of a script or a dump, for another simulator.

The text is of IEEE 1364-2005 and tried with Icarus Verilog. A delay is a transport delay: a non-blocking assignment with a delay inside
lets every pulse through. A flip-flop takes its pin half a unit after the edge, when all that changes at the edge itself has changed,
and shows it after its delay. What the text adds to the names of the netlist has a bracket, which no name of a netlist has."""
from __future__ import annotations

from collections.abc import Iterable, Iterator, Sequence
from typing import Union

from ..circuit.kinds import Kind
from ..errors import FormatError, type_of_path
from ..formats.circuit import Circuit
from ..formats.netlist import Gate
from ..formats.script import AtLine, FirstLine, Go, Line, WaveLine
from ..formats.timing import Timing
from ..formats.units import SECONDS, Unit
from ..records import dataclass

_LINE, _LAST, _TIME, _FOUND = r"\(line) ", r"\(last) ", r"\(time) ", r"\(found) "
Question = Union[WaveLine, AtLine, FirstLine]


@dataclass(frozen=True, slots=True)
class Source(Circuit):
    """What is written: a circuit, and whether its gates are Verilog's primitives, which are faster and whose delays are inertial."""

    has_primitives: bool = False


def identifier(name: str) -> str:
    """The name as Verilog takes it, with the blank that ends it."""
    return f"\\{name} "


def quoted(text: str, is_format: bool = False) -> str:
    """The text between the quotes of a string of Verilog; `%` is doubled in a string that a format is."""
    text = text.replace("\\", "\\\\").replace('"', '\\"')
    return text.replace("%", "%%") if is_format else text


def questions_of(lines: Iterable[Line], circuit: Source, path: type_of_path) -> list[Question]:
    """The questions of a script, if Verilog can answer all of them. FormatError at the first line that is none of `wave`, `at`,
    `first` and `go`, asks a name that is no signal, or goes past the horizon."""
    found: list[Question] = []
    for line in lines:
        if isinstance(line, Go):
            continue
        if not isinstance(line, (WaveLine, AtLine, FirstLine)):
            raise FormatError(path, line.number, f"Verilog answers `wave`, `at` and `first` lines alone: `{line.text.strip()[:60]}`")
        stop = line.time + 1 if isinstance(line, AtLine) else line.stop
        if line.name not in circuit.netlist:
            raise FormatError(path, line.number, f"the netlist has no signal {line.name}")
        if stop > circuit.stimulus.horizon + 1:
            raise FormatError(path, line.number, f"the question goes past the horizon, {circuit.stimulus.horizon}")
        found.append(line)
    return found


def with_questions(circuit: Source, questions: Sequence[Question]) -> Iterator[str]:
    """The lines of the file that answers the questions on standard output, with the number of the question's line before each line
    of a reply. The run ends after the last question; with `+line=N` it answers the one of line N alone, and ends after it."""
    yield from _circuit(circuit)
    yield f'integer {_LINE}; initial if (!$value$plusargs("line=%d", {_LINE})) {_LINE}= 0;'
    for question in questions:
        yield _process(question)
    yield f"initial #{max((_end(question) for question in questions), default=0)}.8 $finish;"
    yield "endmodule"


def with_dump(circuit: Source, file: str) -> Iterator[str]:
    """The lines of the file that dumps all signals, in the scope `circuit` and with 10 ticks to a unit, up to the horizon."""
    yield from _circuit(circuit)
    yield f'initial begin $dumpfile("{quoted(file)}"); $dumpvars(1, circuit); #{circuit.stimulus.horizon}.8 $finish; end'
    yield "endmodule"


def _circuit(circuit: Source) -> Iterator[str]:
    gates = circuit.netlist.gates.values()
    yield _timescale(circuit.timing.unit or circuit.stimulus.unit)
    yield r"module \delay() (output reg y, input a); parameter D = 1; always @(a) y <= #D a; endmodule"
    yield r"module \DFF() (output reg q, input clock, input d); parameter D = 1, FIRST = 1'bx;"
    yield "    initial q <= FIRST; always @(posedge clock) q <= #(D - 0.5) ~(~d); endmodule"
    for kind, count in sorted({(gate.kind.value, len(gate.pins)) for gate in gates if gate.kind is not Kind.DFF}):
        yield _module(Kind(kind), count)
    yield "module circuit;"
    yield from (f"wire {identifier(gate.name)};" for gate in gates)
    yield from _clocks(circuit.timing)
    yield from _settings(circuit)
    for gate in gates:
        yield from _flop(gate, circuit.timing) if gate.kind is Kind.DFF else _gate(gate, circuit)


def _timescale(unit: Unit | None) -> str:
    """The time scale, with ten steps to a unit: the unit of the files, or 1 ns where they state none or one that no time scale can be."""
    whole = unit if unit is not None and unit.count in (1, 10, 100) and unit != Unit(1, "fs") else Unit(1, "ns")
    words = list(SECONDS)
    step = Unit(whole.count // 10, whole.word) if whole.count > 1 else Unit(100, words[words.index(whole.word) + 1])
    return f"`timescale {whole.count}{whole.word} / {step.count}{step.word}"


def _function(kind: Kind, pins: Sequence[str]) -> str:
    """What Verilog's operators make of the pins; they take z as x, and two negations make x of z."""
    whole = f" {kind.join.value} ".join(pins)
    if kind.inverts:
        return f"~({whole})"
    return whole if len(pins) > 1 else f"~(~{whole})"


def _module(kind: Kind, count: int) -> str:
    pins = [f"a{place}" for place in range(count)]
    return (f"module {identifier(f'{kind.value}({count})')}(output reg y, input {', '.join(pins)}); parameter D = 1; "
            f"always @({' or '.join(pins)}) y <= #D {_function(kind, pins)}; endmodule")


def _gate(gate: Gate, circuit: Source) -> Iterator[str]:
    delays = [circuit.timing.delay(gate, place) for place in range(len(gate.pins))]
    own, read = identifier(gate.name), [identifier(pin) for pin in gate.pins]
    if len(set(delays)) > 1:
        late = [identifier(f"{gate.name}({place})") for place in range(len(gate.pins))]
        for place, (copy, pin, delay) in enumerate(zip(late, read, delays)):
            yield rf"wire {copy}; \delay() #({delay}) {identifier(f'{gate.name}({place})()')}({copy}, {pin});"
        yield f"assign {own}= {_function(gate.kind, late)};"
        return
    word = identifier(f"{gate.kind.value}({len(gate.pins)})")
    if circuit.has_primitives:
        word = gate.kind.value.lower() if len(gate.pins) > 1 else "not" if gate.kind.inverts else "buf"
    yield f"{word} #({delays[0]}) {identifier(f'{gate.name}()')}({', '.join([own, *read])});"


def _flop(gate: Gate, timing: Timing) -> Iterator[str]:
    clock = _edges(timing.clocked.get(gate.name, "")) if timing.clock_of(gate.name) else "1'b0"
    yield (rf"\DFF() #({timing.delay(gate)}, 1'b{timing.initial(gate.name)}) {identifier(f'{gate.name}()')}"
           f"({identifier(gate.name)}, {clock}, {identifier(gate.pins[0])});")


def _edges(clock: str) -> str:
    """The signal of a clock; the one without a name has an empty one here."""
    return identifier(f"(clock){clock}")


def _clocks(timing: Timing) -> Iterator[str]:
    for name, clock in (("", timing.clock), *timing.clocks.items()):
        if clock is not None:
            own = _edges(name)
            yield f"reg {own}; initial #{clock.first}.5 forever begin {own}= 1'b1; #0.1 {own}= 1'b0; #{clock.period - 1}.9; end"


def _settings(circuit: Source) -> Iterator[str]:
    inputs = circuit.netlist.inputs
    if not inputs:
        return
    changed: dict[int, list[tuple[str, str]]] = {}
    for name, settings in circuit.stimulus.settings.items():
        for time, value in settings:
            changed.setdefault(time, []).append((name, value))
    whole = "{" + ", ".join(identifier(name) for name in inputs) + "}"
    values, now = dict.fromkeys(inputs, "x"), 0
    yield f"reg {', '.join(identifier(name) for name in inputs)};"
    yield "initial begin"
    for time, new in sorted(changed.items()):
        values.update(new)
        yield f"#{time - now} {whole} <= {len(values)}'b{''.join(values.values())};"
        now = time
    yield "end"


def _end(question: Question) -> int:
    """The time after which a question is answered."""
    return question.time if isinstance(question, AtLine) else max(question.start, question.stop)


def _process(question: Question) -> str:
    number, own = question.number, identifier(question.name)
    name = quoted(question.name, is_format=True)
    start = question.time if isinstance(question, AtLine) else question.start
    if isinstance(question, AtLine):
        body = f'$display("{number} at {name} {start} %b", {own});'
    elif isinstance(question, WaveLine):
        body = (f'{_LAST}= {own}; $display("{number} wave {name} {start} {question.stop}"); '
                f"for ({_TIME}= {start}; {_TIME}< {question.stop}; {_TIME}= {_TIME}+ 1) begin "
                f'if ({_TIME}== {start} || {own}!== {_LAST}) $display("{number} %0d %b", {_TIME}, {own}); {_LAST}= {own}; #1; end '
                f'$display("{number} end");')
    else:
        head = f"{number} first {name} {question.value} {start} {question.stop}"
        body = (f"{_FOUND}= 0; for ({_TIME}= {start}; {_TIME}< {question.stop} && !{_FOUND}; {_TIME}= {_TIME}+ 1) "
                f"if ({own}=== 1'b{question.value}) begin {_FOUND}= 1; $display(\"{head} %0d\", {_TIME}); end else #1; "
                f'if (!{_FOUND}) $display("{head} none");')
    return (f"initial begin : {identifier(f'(question){number}')}reg {_LAST}, {_FOUND}; integer {_TIME}; "
            f"#{start}.7 if ({_LINE}== 0 || {_LINE}== {number}) begin {body} if ({_LINE}!= 0) $finish; end end")
