"""Completes a word of a line: a verb, or a name, a bus as `count[7:0]` until its bracket is written."""
from __future__ import annotations

import re
from bisect import bisect_left
from collections.abc import Collection, Iterable, Iterator

from ..explanations.names import compact
from .lines import VERBS

MOST_SHOWN = 500


class Names:
    """The names of a netlist in the order of their letters."""

    def __init__(self, names: Iterable[str], ascending: Collection[str] = ()) -> None:
        self._names, self._ascending = sorted(names), ascending

    def beginning(self, text: str) -> list[str]:
        """What a name that begins with the text may go on to: whole names, the bits of a bus as one, or where there are many an instance up
        to its dot and a bus up to its bracket. At most 500."""
        found: dict[str, list[str]] = {}
        for name in self._from(text):
            found.setdefault(_whole(name, text), []).append(name)
            if len(found) > MOST_SHOWN:
                return list(dict.fromkeys(_instance(name, text) for name in self._from(text)))[:MOST_SHOWN]
        return [one for bits in found.values() for one in compact(bits, True, self._ascending)]

    def _from(self, text: str) -> Iterator[str]:
        for place in range(bisect_left(self._names, text), len(self._names)):
            if not self._names[place].startswith(text):
                return
            yield self._names[place]


def _whole(name: str, text: str) -> str:
    """What the bits of one bus have in common, of which the text does not have the bracket; else the name."""
    mark = name.rfind("[", len(text))
    return name if mark < 0 else name[:mark]


def _instance(name: str, text: str) -> str:
    mark = re.search(r"[.[]", name[len(text):])
    return name if mark is None else name[:len(text) + mark.end()]


def completed(names: Names, line: str, begin: int, text: str) -> list[str]:
    """The words that the text, which begins at a place of the line, may be the beginning of."""
    is_first = not line[:begin].strip()
    verbs = [f"{verb} " for verb in VERBS if verb.startswith(text)] if is_first else []
    return [*verbs, *names.beginning(text)] if text or not is_first else verbs
