"""Explanations in words: the value, the root causes in sentences, and the chains, a line a step."""
from __future__ import annotations

from collections.abc import Iterator, Sequence
from typing import TYPE_CHECKING, Any

from ..circuit.buses import bits_of
from ..circuit.rules import Role
from .chains import Step
from .names import compact, in_short, listed
from .roots import Cause, CauseKind
from .way import line_of

if TYPE_CHECKING:
    from .explanation import Explanation

USUAL_CHAINS = 3
MOST_CAUSES = 12
MOST_STEPS = 14
_LEAST_SHARED = 4
_LONG_WORD = 5
_MENDED = {CauseKind.UNSET: "with an initial value", CauseKind.NO_VALUE: "were it set", CauseKind.UNTIL: "were it 0 or 1",
           CauseKind.BEYOND: "were it 0 or 1"}


def text_of(explanation: Explanation, chains: int = USUAL_CHAINS, has_all: bool = False, has_gates: bool = False) -> str:
    """What is said of an explanation, without a last line feed: the value, the causes, and the chains to the first few; with `has_all`
    also what was looked at and does not matter, and with `has_gates` below each step the gates that are part of it."""
    return "\n".join(_lines(explanation, chains, has_all, has_gates))


def summary_of(explanation: Explanation) -> list[str]:
    """The value and its causes, a line each."""
    lines = [f"{explanation.name} is {word_text(explanation.value)} at {explanation.time:,}"]
    causes = _merged(explanation.causes)
    for cause, *others in causes[:MOST_CAUSES]:
        lines.append(f"{_letter(explanation)}: {_set_often((cause, *others)) if others else sentence_of(explanation, cause)}")
        alone = alone_sentence(explanation, cause)
        if alone:
            lines.append(f"   {alone}")
    if len(causes) > MOST_CAUSES:
        rest = causes[MOST_CAUSES:]
        lines.append(f"   and {len(rest):,} more causes: {_short(explanation, [name for each in rest for cause in each for name in cause.names])}")
    return lines


def _merged(causes: Sequence[Cause]) -> list[list[Cause]]:
    """The causes, those together that are settings of one input at several times of which none decides alone."""
    found: dict[object, list[Cause]] = {}
    for place, cause in enumerate(causes):
        is_setting = cause.kind is CauseKind.INPUT and len(cause.names) == 1 and not cause.alone
        found.setdefault(cause.names[0] if is_setting else place, []).append(cause)
    return list(found.values())


def _set_often(causes: Sequence[Cause]) -> str:
    """Settings of one input at several times."""
    settings = sorted((cause.times[0][0], cause.values[0]) for cause in causes)
    if len(settings) > 2:
        return f"input {causes[0].names[0]}, set at {len(settings):,} times from {settings[0][0]:,} to {settings[-1][0]:,}"
    return f"input {causes[0].names[0]}, set " + " and ".join(f"to {value} at {max(time, 0):,}" for time, value in settings)


def _lines(explanation: Explanation, chains: int, has_all: bool, has_gates: bool) -> Iterator[str]:
    yield from summary_of(explanation)
    before: tuple[Step, ...] = ()
    for cause, name in first_few(explanation.causes, chains):
        steps = explanation.chain(cause, name)
        shared = _shared(before, steps)
        yield ""
        yield f"{name}, {_counted(len(steps), 'step')} back" + (f", the first {shared} as above:" if shared else ":")
        yield from _gate_lines(explanation, steps[shared:]) if has_gates else chain_lines(steps[shared:])
        before = steps
    if has_all:
        yield ""
        yield from _others(explanation)
    if explanation.spent:
        yield ""
        yield f"{sum(explanation.spent):,} evaluations did not suffice, so more were allowed."


def _others(explanation: Explanation) -> Iterator[str]:
    """What was looked at and does not matter."""
    graph = explanation.graph
    way = {node.name for node in graph.way().nodes}
    others = [node.name for node in graph.nodes if node.name not in way]
    yield f"Looked at as well, {_counted(len(set(others)), 'signal')}: {_short(explanation, others, 40)}" if others else "Nothing else was looked at."


def first_few(causes: Sequence[Cause], most: int) -> list[tuple[Cause, str]]:
    """The signals to which the chains are shown: those that decide alone first, each cause before a second signal of one."""
    ranked = [(name not in cause.alone, place, order, cause, name) for order, cause in enumerate(causes)
              for place, name in enumerate(cause.names) if cause.kind is not CauseKind.CONSTANT]
    return [(cause, name) for *_, cause, name in sorted(ranked, key=lambda one: one[:3])[:most]]


def _shared(before: Sequence[Step], steps: Sequence[Step]) -> int:
    """How many of the first steps need not be told again."""
    count = next((place for place, (one, other) in enumerate(zip(before, steps)) if one != other), min(len(before), len(steps)))
    return count if count >= _LEAST_SHARED else 0


def chain_lines(steps: Sequence[Step]) -> list[str]:
    """A line for each step, of many the first and the last."""
    rows = [_row(step) for step in steps]
    left = len(rows) - MOST_STEPS
    lines = _aligned(rows)
    if left > 1:
        half, width = MOST_STEPS // 2, max(len(row[0]) for row in rows)
        lines[half:half + left] = [f"  {'':>{width}}  ... {left} steps more ..."]
    return lines


def _gate_lines(explanation: Explanation, steps: Sequence[Step]) -> list[str]:
    """A line for each step, and for each gate that is part of it."""
    nodes, gates = explanation.graph.nodes, explanation.design.netlist.gates
    rows: list[tuple[str, str, str, str]] = []
    for step in steps:
        rows.append(_row(step))
        for node in (nodes[number] for number in step.nodes if nodes[number].name != step.name):
            gate = gates.get(node.name)
            if gate is not None:
                rows.append((f"{node.start:,}", f"  {node.name} = {node.value}", f"{gate.kind.value}({', '.join(gate.pins)})", line_of(gate.source)))
    return _aligned(rows)


def _aligned(rows: Sequence[tuple[str, str, str, str]]) -> list[str]:
    widths = [max(len(row[place]) for row in rows) for place in range(3)]
    return [f"  {row[0]:>{widths[0]}}  {row[1]:{widths[1]}}  {row[2]:{widths[2]}}  {row[3]}".rstrip() for row in rows]


def _row(step: Step) -> tuple[str, str, str, str]:
    what = step.what
    if step.times > 1 and step.role is not Role.FLOP:
        what += f"; so at {step.times:,} times since {step.since:,}"
    return f"{step.start:,}", f"{step.name} = {step.value}", what, step.source


def sentence_of(explanation: Explanation, cause: Cause) -> str:
    """What a root cause is, without the value that comes of it."""
    count, names = len(cause.names), _short(explanation, cause.names)
    first = cause.names[0]
    start, end = cause.times[0]
    if cause.kind is CauseKind.UNSET:
        return f"flip-flop {first} was never set before it was read" if count == 1 else \
            f"{count:,} flip-flops were never set before they were read: {names}"
    elif cause.kind is CauseKind.TOO_EARLY:
        return f"{first} had no time to get a value: its delay had not passed" if count == 1 else \
            f"{count:,} signals had no time to get a value, their delays had not passed: {names}"
    elif cause.kind is CauseKind.NO_VALUE:
        return _without_value(explanation, cause)
    elif cause.kind is CauseKind.INPUT:
        return _set_inputs(explanation, cause)
    elif cause.kind is CauseKind.INITIAL:
        return f"initial value of {_valued(explanation, cause)}" if count == 1 else f"initial values of {count:,} flip-flops: {_valued(explanation, cause)}"
    elif cause.kind is CauseKind.CONSTANT:
        return f"constant {names}"
    elif cause.kind is CauseKind.UNTIL:
        return f"the way ends at {_valued(explanation, cause)}, {'since' if count == 1 else 'the nearest since'} {start:,}"
    elif cause.kind is CauseKind.BEYOND:
        return f"{_counted(count, 'signal')} not followed further: {names}"


def _set_inputs(explanation: Explanation, cause: Cause) -> str:
    """What is said of inputs that were set at one time."""
    first, at = cause.names[0], f"{cause.times[0][0]:,}"
    if len(cause.names) > 1:
        return f"{len(cause.names):,} inputs set at {at}: {_valued(explanation, cause)}"
    pin = _deciding_pin(explanation)
    if pin is not None and len(explanation.causes) == 1:
        return f"input {first} decides, set to {cause.values[0]} at {at}" if pin == first else \
            f"{pin} decides, which input {first} set at {at}"
    return f"input {first}, set to {cause.values[0]} at {at}"


def _without_value(explanation: Explanation, cause: Cause) -> str:
    """What is said of inputs without a known value."""
    count, names = len(cause.names), _short(explanation, cause.names)
    start, end = cause.times[0]
    inputs = f"input {names}" if count == 1 else f"{count:,} inputs"
    listed = "" if count == 1 else f": {names}"
    if any(time == start for time, _ in explanation.design.changes(cause.names[0])):
        return f"{inputs} {'is' if count == 1 else 'are'} set to {cause.values[0]} at {start:,}{listed}"
    if end > explanation.design.stimulus.horizon:
        return f"{inputs} {'is' if count == 1 else 'are'} never set{listed}"
    return f"{inputs} {'has' if count == 1 else 'have'} no value before {end:,}{listed}"


def alone_sentence(explanation: Explanation, cause: Cause) -> str:
    """What is said of the signals that decide alone; an empty text where there is none or nothing to say."""
    if not cause.alone or len(explanation.causes) == 1 and len(cause.names) == 1:
        return ""
    names = _short(explanation, cause.alone)
    each = "it alone decides" if len(cause.alone) == len(cause.names) == 1 else \
        f"{names} alone decides" if len(cause.alone) == 1 else f"each of {names} alone decides"
    what = _MENDED.get(cause.kind)
    return f"{each}: {what}, {explanation.name} would be known" if what else each


def _valued(explanation: Explanation, cause: Cause) -> str:
    """The signals of a cause with their values, bits of a bus as a word."""
    values = dict(zip(cause.names, cause.values))
    shown = [(name, "".join(values[bit] for bit in bits_of(name) or (name,))) 
             for name in compact(cause.names, True, explanation.design.netlist.ascending)]
    return listed([f"{name} = {word_text(word)}" for name, word in shown])


def _short(explanation: Explanation, names: Sequence[str], most: int = 8) -> str:
    """The names in few letters, and buses as they were declared."""
    return in_short(names, most, explanation.design.netlist.ascending)


def word_text(word: str) -> str:
    """A value, or a word of a bus: in hexadecimal where it is long and all of it is known."""
    return word if len(word) < _LONG_WORD or word.strip("01") else f"0x{int(word, 2):0{(len(word) + 3) // 4}x}"


def _deciding_pin(explanation: Explanation) -> str | None:
    """The pin of the explained gate that decides its value, where one does."""
    graph = explanation.graph
    root = graph.nodes[graph.roots[0]]
    matters = [graph.nodes[edge.cause] for edge in explanation.way.causes[graph.roots[0]]]
    if len(graph.roots) > 1 or root.kind is None or len(root.pins) < 2 or not matters or not root.kind.decides(matters[0].value):
        return None
    return matters[0].name


def _letter(explanation: Explanation) -> str:
    return word_text(explanation.value) if explanation.value.strip("xz") else "x"


def _counted(count: int, word: str) -> str:
    return f"{count:,} {word}" + ("s" if count != 1 else "")


def as_json(explanation: Explanation, chains: int) -> dict[str, Any]:
    """An explanation as plain values, for JSON."""
    return {
        "name": explanation.name, "time": explanation.time, "value": explanation.value, "start": explanation.start,
        "end": explanation.end, "cells": len(explanation.graph.nodes),
        "causes": [{"kind": cause.kind.name.lower(), "sentence": sentence_of(explanation, cause), "steps": cause.steps,
                    "signals": [{"name": name, "value": value, "start": start, "end": end, "alone": name in cause.alone}
                                for name, value, (start, end) in zip(cause.names, cause.values, cause.times)]}
                   for cause in explanation.causes],
        "chains": [{"to": name, "steps": [{"name": step.name, "value": step.value, "start": step.start, "end": step.end,
                                           "role": step.role.value, "what": step.what, "gates": step.gates, "source": step.source,
                                           "times": step.times, "since": step.since} for step in explanation.chain(cause, name)]}
                   for cause, name in first_few(explanation.causes, chains)],
    }
