"""How far long work is, on standard error: a bar where that is a terminal, drawn by tqdm, with what is done of all, evaluations and the
time left; elsewhere, where it is wanted, a line of it every ten seconds."""
from __future__ import annotations

import sys
import threading
import time
from collections.abc import Callable
from types import TracebackType
from typing import TYPE_CHECKING, NoReturn

if TYPE_CHECKING:
    from tqdm import tqdm

_PERIOD = 0.3
_SECONDS_OF_LINES = 10.0
# tqdm's bar without the time left that it takes from what is done so far
_FORMAT = "{l_bar}{bar}| {n_fmt}/{total_fmt}{unit} [{elapsed}{postfix}]"


class Bar:
    """A context manager. `add` counts what is done; `evaluations`, where it is given, is asked from time to time and shown. `left` says the
    time left in words, or what else tells how far it is; where it is not given, all is taken to go on as fast as so far. Where standard error is no terminal nothing is
    shown, or with `has_lines` a line every ten seconds; where tqdm is not there, a line says so."""

    def __init__(self, total: int, what: str, evaluations: Callable[[], int] | None = None, *, left: Callable[[], str] | None = None,
                 has_lines: bool = False) -> None:
        self._total, self._what, self._evaluations, self._left = total, what, evaluations, left
        self._has_lines = has_lines
        self._begun = time.monotonic()
        self._bar: tqdm[NoReturn] | None = None
        self._done = 0
        self._ends = threading.Event()
        self._thread = threading.Thread(target=self._draw, daemon=True)

    def __enter__(self) -> Bar:
        if sys.stderr is not None and sys.stderr.isatty():
            try:
                from tqdm import tqdm
            except ImportError:
                print("no bar: tqdm is not there (Debian's package python3-tqdm, or the extra bars)", file=sys.stderr)
            else:
                self._bar = tqdm(total=self._total, unit=f" {self._what}", file=sys.stderr, dynamic_ncols=True,
                                 bar_format=_FORMAT if self._left else None)
                self._thread.start()
        elif self._has_lines and sys.stderr is not None:
            self._thread = threading.Thread(target=self._tell, daemon=True)
            self._thread.start()
        return self

    def __exit__(self, kind: type[BaseException] | None, error: BaseException | None, trace: TracebackType | None) -> None:
        self._ends.set()
        if self._thread.ident is not None:
            self._thread.join()
        if self._bar is not None:
            self._show()
            self._bar.close()

    def add(self, count: int = 1) -> None:
        """So many more are done."""
        self._done += count

    def _draw(self) -> None:
        while not self._ends.wait(_PERIOD):
            self._show()

    def _tell(self) -> None:
        while not self._ends.wait(_SECONDS_OF_LINES):
            taken = time.monotonic() - self._begun
            left = self._left() if self._left else f"some {taken * (self._total - self._done) / self._done:.0f} s left" if self._done else ""
            print(", ".join(filter(None, (f"{self._done} of {self._total} {self._what}", f"{taken:.0f} s", left))), file=sys.stderr, flush=True)

    def _show(self) -> None:
        assert self._bar is not None
        if self._evaluations is not None:
            self._bar.set_postfix(evaluations=self._evaluations(), refresh=False)
        if self._left is not None:
            self._bar.set_postfix_str(self._left(), refresh=False)
        self._bar.update(self._done - self._bar.n)
        self._bar.refresh()
