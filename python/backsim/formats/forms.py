"""What the kinds of lines of a script have in common, which `lines` has: how their words are read and written, and which answers are
theirs."""
from __future__ import annotations

from collections.abc import Callable
from functools import lru_cache
from operator import attrgetter
from typing import TYPE_CHECKING, Any, ClassVar, Optional, Union

from ..limits import MOST_ASKED_TIME, MOST_BUDGET, MOST_CELLS, USUAL_BUDGET
from ..records import dataclass
from ..values import Answer, Budget, Past, Unknown
from .text import NAME, logic_of, number_of

if TYPE_CHECKING:
    from .replies import ReplyReader

# what a word of a script stands for; None where it is no such word
Read = Callable[[str], Optional[Union[str, int]]]


def _name(word: str) -> str | None:
    return word if NAME.fullmatch(word) is not None else None


def _up_to(most: int) -> Read:
    def read(word: str) -> int | None:
        # nearly all are short, and are read so in half of the time
        number = int(word) if len(word) < 10 and word.isascii() and word.isdigit() else number_of(word)
        return None if number is None or number > most else number

    return read


_time = _up_to(MOST_ASKED_TIME)
BUDGET = "budget"
# how words are read, by the names that they have in a line
READ: dict[str, Read] = {"name": _name, "site": _name, "file": _name, "value": logic_of, "time": _time, "start": _time, "stop": _time,
                          "cells": _up_to(MOST_CELLS), BUDGET: _up_to(MOST_BUDGET)}


@dataclass(slots=True, unsafe_hash=True, kw_only=True)
class AnyLine:
    """`number` counts the lines of the script from 1, `text` is the line as it stands there, without its line feed. No line is changed
    once it is made; it is not frozen, since that takes four times as long to make, and they are made by the ten thousand."""

    number: int = 0
    text: str = ""
    # the line's first word; whether it has a reply, and whether it is an item of a batch (else it is served by itself)
    word: ClassVar[str]
    has_reply: ClassVar[bool] = True
    is_item: ClassVar[bool] = False
    # the class of the answers to it, none where it has no reply; and the reply's first word, where that is not the line's
    answer: ClassVar[type[Any] | tuple[()]] = ()
    reply_word: ClassVar[str] = ""
    # how those words are read that are not read as in other lines
    own_words: ClassVar[dict[str, Read]] = {}
    # what `dataclass` writes: the names of what the line states, in order
    __match_args__: ClassVar[tuple[str, ...]]

    @property
    def head(self) -> str:
        """The line without its budget: its word, and what it states in order."""
        stated = (str(getattr(self, name)) for name in self.__match_args__ if name != BUDGET)
        return " ".join([self.word, *stated])

    def __str__(self) -> str:
        """The line as a session takes it."""
        budget = getattr(self, BUDGET, None)
        return self.head if budget is None else f"{self.head} {budget}"

    def fits(self, answer: Answer) -> bool:
        """Whether the answer is one to the line: it must name what the line asks, signal, values and times."""
        return isinstance(answer, self.answer)

    @staticmethod
    def read_reply(reader: ReplyReader, words: list[str]) -> Answer | None:
        """The answer of a reply that has these words in its first line, and its other lines in the reader. None where it has not the form;
        FormatError where another line has not."""
        raise NotImplementedError


class ValueLine(AnyLine):
    """A line about the signal `name`, which takes a budget. It may be answered by `Unknown`, `Past` or `Budget`."""

    __slots__ = ()
    name: str
    budget: int | None

    @property
    def window(self) -> tuple[int, int]:
        """The first time that is asked for, and the one after the last."""
        raise NotImplementedError

    def has_name(self, name: str) -> bool:
        """Whether the line is about a signal of this name."""
        return self.name == name

    def fits(self, answer: Answer) -> bool:
        if isinstance(answer, self.answer):
            stated = _values_of(self.__match_args__)
            return stated(answer) == stated(self)
        if isinstance(answer, Unknown):
            return self.has_name(answer.name)
        if isinstance(answer, Budget):
            return (answer.name, answer.budget) == (self.name, USUAL_BUDGET if self.budget is None else self.budget)
        return isinstance(answer, Past) and (answer.name, answer.start, answer.stop) == (self.name, *self.window)


@lru_cache(None)
def _values_of(names: tuple[str, ...]) -> Callable[[Any], object]:
    """What gives the values that have these names in a line, and in an answer to it; not that of the budget."""
    return attrgetter(*(name for name in names if name != BUDGET))


class PointLine(ValueLine):
    """A line about a signal at `time`."""

    __slots__ = ()
    time: int

    @property
    def window(self) -> tuple[int, int]:
        return self.time, self.time + 1


class WindowLine(ValueLine):
    """A line about a signal from `start` up to, and not with, `stop`."""

    __slots__ = ()
    start: int
    stop: int

    @property
    def window(self) -> tuple[int, int]:
        return self.start, self.stop

