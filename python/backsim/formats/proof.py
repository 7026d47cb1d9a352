"""Proofs: why a signal has a value at a time (docs/use/FORMATS.md, Proofs). `backsim_check` judges them."""
from __future__ import annotations

import re
from collections.abc import Sequence
from typing import TextIO

from ..errors import FormatError, type_of_path
from ..limits import MOST_NUMBER, PROOF_LIMIT
from ..values import LOGIC, Proof, ProofCell
from .text import is_name, read_bytes

__all__ = ["CellLines", "Proof", "ProofCell", "cell_of", "claim_of", "parse_proof", "plain_number", "plain_numbers", "read_proof", "write_proof"]

_NUMBER = rb"(0|[1-9][0-9]{0,9})"
_CELL = re.compile(rb"cell %b %b %b ([%b])" % (_NUMBER, _NUMBER, _NUMBER, "".join(LOGIC).encode()))
_MOST_KNOWN = 1 << 20


class CellLines:
    """Reads the lines of cells of many proofs, one cell for all lines that are the same: the proofs of the bits of a bus have most of their
    lines in common."""

    def __init__(self) -> None:
        self._known = _Known()

    def cells_of(self, body: bytes) -> tuple[ProofCell, ...] | None:
        """The cells of lines with their line feeds; None where one of the lines is no cell."""
        lines = body.split(b"\n")
        if lines.pop():
            return None
        if len(self._known) > _MOST_KNOWN:
            self._known.clear()
        try:
            return tuple(map(self._known.__getitem__, lines))
        except ValueError:
            return None


class _Known(dict[bytes, ProofCell]):
    """The cells of lines, each made when its line comes first. ValueError of a line that is no cell."""

    def __missing__(self, line: bytes) -> ProofCell:
        cell = _cell_in(line)
        if cell is None:
            raise ValueError(line)
        self[line] = cell
        return cell


def _cell_in(line: bytes) -> ProofCell | None:
    """The cell of a line, as `cell_of` has it of its words."""
    parts = _CELL.fullmatch(line)
    if parts is None:
        return None
    signal, start, end = map(int, parts.group(1, 2, 3))
    return ProofCell(signal, start, end, parts[4].decode()) if max(signal, start, end) <= MOST_NUMBER else None


def plain_number(word: str) -> int | None:
    """A number in decimal without leading zeros and at most 4,294,967,295, as the programs write it; else None."""
    if not (word.isascii() and word.isdigit()) or len(word) > 10 or word[0] == "0" and len(word) > 1:
        return None
    number = int(word)
    return number if number <= MOST_NUMBER else None


def plain_numbers(words: Sequence[str]) -> tuple[int, ...] | None:
    """The numbers of these words; None where one of them is none."""
    numbers = tuple(number for number in map(plain_number, words) if number is not None)
    return numbers if len(numbers) == len(words) else None


def claim_of(words: Sequence[str]) -> tuple[str, int, str] | None:
    """The name, time and value of a proof's first line, or None."""
    if len(words) != 4 or words[0] != "why" or not is_name(words[1]) or words[3] not in LOGIC:
        return None
    time = plain_number(words[2])
    return None if time is None else (words[1], time, words[3])


def cell_of(words: Sequence[str]) -> ProofCell | None:
    """The cell of a line `cell SIGNAL START END VALUE`, or None."""
    if len(words) != 5 or words[0] != "cell" or words[4] not in LOGIC:
        return None
    signal, start, end = map(plain_number, words[1:4])
    return None if signal is None or start is None or end is None else ProofCell(signal, start, end, words[4])


def read_proof(path: type_of_path) -> Proof:
    """The proof of a file. FormatError at the first line at which no proof's text goes on. Whether it is justified is not judged."""
    return parse_proof(read_bytes(path, PROOF_LIMIT), str(path))


def parse_proof(data: bytes, path: str) -> Proof:
    """The proof of a file's bytes; `path` is what errors name."""
    lines = data.decode("latin-1").split("\n")
    last = lines.pop()
    claim = claim_of(lines[0].split(" ")) if lines else None
    if claim is None:
        raise FormatError(path, 1, "expected `why NAME T V`")
    cells: list[ProofCell] = []
    for number, line in enumerate(lines[1:], 2):
        if line == "end":
            if number < len(lines) or last:
                raise FormatError(path, number + 1, "expected nothing after `end`")
            return Proof(*claim, tuple(cells))
        cell = cell_of(line.split(" "))
        if cell is None:
            raise FormatError(path, number, "expected `cell SIGNAL START END VALUE` or `end`")
        cells.append(cell)
    raise FormatError(path, len(lines) + 1, "the proof ends before its line `end`")


def write_proof(proof: Proof, stream: TextIO) -> None:
    """Writes the text of a proof, as `backsim_check` reads it."""
    stream.write(f"why {proof.name} {proof.time} {proof.value}\n")
    stream.writelines(f"cell {cell.signal} {cell.start} {cell.end} {cell.value}\n" for cell in proof.cells)
    stream.write("end\n")
