"""How long questions still take, of what those took that this call asked before."""
from __future__ import annotations

import math
import threading

# seconds of sessions after which what a question took counts a third
_REMEMBERED = 240.0


class Forecast:
    """Of each kind of question what is left to be asked, as a sum of weights, and what the last ones took for a weight. Several threads may
    tell it."""

    def __init__(self, jobs: int) -> None:
        self._jobs = jobs
        self._left: dict[str, float] = {}
        # of each kind the seconds and the weights of what was asked, the last ones counting most
        self._asked: dict[str, tuple[float, float]] = {}
        self._lock = threading.Lock()

    def expect(self, kind: str, weight: float) -> None:
        """So much more of a kind is to be asked, or less."""
        with self._lock:
            self._left[kind] = self._left.get(kind, 0) + weight

    def took(self, kind: str, weight: float, seconds: float) -> None:
        """A session was asked so much for so long. The weight of a question that is asked again in parts is that of these parts."""
        with self._lock:
            self._left[kind] = self._left.get(kind, 0) - weight
            before, weights = self._asked.get(kind, (0.0, 0.0))
            share = math.exp(-seconds / _REMEMBERED)
            self._asked[kind] = before * share + seconds, weights * share + weight

    def said(self) -> str:
        """The time left in words, `at least` where a kind of question is left of which none was asked yet; nothing where none was at all."""
        with self._lock:
            kinds = [kind for kind, left in self._left.items() if left > 0]
            known = [kind for kind in kinds if self._asked.get(kind, (0.0, 0.0))[1] > 0]
            if kinds and not known:
                return ""
            seconds = sum(self._left[kind] * self._asked[kind][0] / self._asked[kind][1] for kind in known)
            return f"{'some' if known == kinds else 'at least'} {seconds / self._jobs:.0f} s left"
