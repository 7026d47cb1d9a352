"""Drives the page of `backsim-tools view` in a real browser, and compares what it shows with the replies of a session of its own."""
from __future__ import annotations

import os
import signal
import subprocess
import sys
from collections.abc import Callable, Iterator, Sequence
from contextlib import contextmanager
from pathlib import Path
from typing import Any

from backsim import Netlist, Session, Stimulus, Timing, read_netlist, read_stimulus, read_timing
from backsim.values import Budget, Wave
from browser import Browser
from processes import PATIENCE

TOP = Path(__file__).resolve().parents[2]
ALT, CTRL, SHIFT = 1, 2, 8
# of the page: the height of the ruler, and of a row without a fault
RULER, ROW = 30, 34
_SHOWN = """(() => {
  const m = backsim.model, start = Math.max(0, Math.floor(m.start)), stop = Math.min(Math.ceil(m.stop), m.end);
  const runs = (number) => [...backsim.link.track(number).within(start, stop)].map((r) => ({...r, a: Math.max(r.a, start), b: Math.min(r.b, stop)}));
  return {start, stop, step: m.span / backsim.frame.width, fault: m.fault, rows: backsim.inView.map((i) => ({name: i.name, good: runs(2 * i.id),
    faulty: m.fault ? runs(2 * i.id + 1) : null}))};
})()"""


def ring(write: Callable[[str, str], Path]) -> list[Path]:
    """The files of a ring of 64 registers behind 60 gates each, whose value at a late time takes some 2,000 evaluations for each period before."""
    lines = ["INPUT(a)", "OUTPUT(r0)"]
    for place in range(64):
        before = f"r{place}"
        for gate in range(60):
            lines.append(f"g{place}_{gate} = XOR({before}, a)")
            before = f"g{place}_{gate}"
        lines.append(f"r{place} = DFF(g{(place + 1) % 64}_59)")
    return [write("deep.bench", "\n".join(lines) + "\n"),
            write("deep.timing", "clock 100 100\n" + "".join(f"init r{place} {place % 2}\n" for place in range(64))),
            write("deep.stim", "horizon 100000\n" + "".join(f"set a {time} {time // 100 % 2}\n" for time in range(0, 100000, 100)))]


@contextmanager
def served(*words: object, **options: Any) -> Iterator[tuple[subprocess.Popen[str], str]]:
    """A process of `backsim-tools view` with these words, and the address that it prints."""
    environment = os.environ | {"PYTHONPATH": str(TOP / "python")} | options.pop("env", {})
    process = subprocess.Popen([sys.executable, "-m", "backsim", "view", *map(str, words), "--no-browser"], stdout=subprocess.PIPE, text=True,
                               env=environment, **options)
    try:
        assert process.stdout is not None
        yield process, process.stdout.readline().strip()
    finally:
        if process.poll() is None:
            process.send_signal(signal.SIGTERM)
        process.wait(timeout=PATIENCE)
        process.stdout.close()  # type: ignore[union-attr]


@contextmanager
def viewed(browser: Browser, program: str, files: Sequence[object], *words: object) -> Iterator[Page]:
    """The page of a session over the files, with these words behind them; it is left before the session ends."""
    with served(*files, *words, "--program", program) as (_, address):
        page = Page(browser, address, files)
        yield page
        browser.visit("about:blank")
        browser.wait("location.href === 'about:blank'")
    assert browser.errors == [], browser.errors


class Page:
    """The page in a browser, and a session that is asked the same."""

    def __init__(self, browser: Browser, address: str, files: Sequence[object]) -> None:
        self.browser, self.address = browser, address
        self.files = [str(file) for file in files]
        browser.errors.clear()
        browser.visit(address)
        browser.wait("window.backsim && backsim.begun > 0 && document.querySelector('#tree [role=treeitem]') !== null")
        self.settle()

    def value(self, script: str) -> Any:
        return self.browser.value(script)

    def wait(self, condition: str) -> None:
        self.browser.wait(condition)

    def settle(self) -> None:
        """Waits until the page asks for nothing more, also not for what it has drawn by an answer."""
        is_idle = False
        while not is_idle:
            self.browser.wait("document.body.dataset.state === 'idle'")
            self.value("new Promise((done) => requestAnimationFrame(() => requestAnimationFrame(done)))")
            is_idle = self.value("document.body.dataset.state === 'idle'")

    def press(self, *keys: str, modifiers: int = 0) -> None:
        for key in keys:
            self.browser.press(key, modifiers=modifiers)

    def write(self, selector: str, text: str) -> None:
        """Writes a text into a field, in place of what is there."""
        self.value(f"(() => {{ const f = document.querySelector({selector!r}); f.focus(); f.select(); }})()")
        self.browser.write(text)

    def text(self, selector: str) -> str:
        found: str = self.value(f"document.querySelector({selector!r}).textContent")
        return found

    @property
    def names(self) -> list[str]:
        """What stands in the list of signals, from top to bottom."""
        found: list[str] = self.value("[...document.querySelectorAll('#list li .name')].map((name) => name.textContent)")
        return found

    @property
    def cursor(self) -> int | None:
        self.settle()
        text = self.text("#at-cursor").replace(",", "")
        return None if text == "–" else int(text)

    def add(self, pattern: str) -> None:
        """Finds signals by a pattern, and adds them, by keys alone."""
        self.press("/")
        self.write("#find", pattern)
        self.wait("/found|of|no signal/.test(document.getElementById('find-state').textContent)")
        self.press("Enter")
        self.wait("/added/.test(document.getElementById('said').textContent)")
        self.value("document.getElementById('said').textContent = ''")
        self.press("Escape", "Escape")
        self.settle()

    def clear(self) -> None:
        self.value("document.getElementById('stage').focus()")
        self.press("a", modifiers=CTRL)
        self.press("Delete")

    def point(self, time: float, row: int) -> tuple[float, float]:
        """Where a time of a row is in the page; without a fault and without groups above it."""
        x: float
        y: float
        x, y = self.value(f"(() => {{ const b = document.getElementById('stage').getBoundingClientRect(), m = backsim.model; return ["
                          f"b.x + ({time} - m.start) * b.width / m.span, b.y + {RULER + ROW * (row + 0.5)} - backsim.frame.top]; }})()")
        return x, y

    def shown(self) -> dict[str, Any]:
        """What is drawn of the rows in view."""
        found: dict[str, Any] = self.value(_SHOWN)
        return found


class Oracle:
    """Sessions that are asked beside the page: over the files, and over the circuit in which a signal is forced, built of what the package
    reads: the signal is an input there, which the stimulus sets once."""

    def __init__(self, files: Sequence[object], program: str) -> None:
        self._files, self._program = [str(file) for file in files], program
        self._sessions: dict[tuple[str, str] | None, Session] = {}

    def session(self, fault: tuple[str, str] | None = None) -> Session:
        if fault not in self._sessions:
            files = self._files if fault is None else self._forced(*fault)
            self._sessions[fault] = Session(*files, program=self._program)
        return self._sessions[fault]

    def _forced(self, site: str, value: str) -> tuple[Netlist, Timing, Stimulus]:
        netlist = read_netlist(self._files[0])
        timing, stimulus = read_timing(self._files[1], netlist), read_stimulus(self._files[2], netlist)
        gates = [gate for gate in netlist.gates.values() if gate.name != site]
        timing.delays.pop(site, None)
        timing.initials.pop(site, None)
        timing.clocked.pop(site, None)
        timing.pin_delays = {pin: delay for pin, delay in timing.pin_delays.items() if pin[0] != site}
        stimulus.settings[site] = [(0, value)]
        return Netlist.build([*netlist.inputs, site], netlist.outputs, gates), timing, stimulus

    def wave(self, name: str, start: int, stop: int, fault: tuple[str, str] | None = None) -> Wave:
        answer = self.session(fault).wave(name, start, stop, 500_000)
        while isinstance(answer, Budget):
            # what it evaluated is kept, so the next one goes on from there
            answer = self.session(fault).wave(name, start, stop, 500_000)
        assert isinstance(answer, Wave), (name, answer)
        return answer

    def close(self) -> None:
        for session in self._sessions.values():
            session.close()


def check_shown(page: Page, oracle: Oracle, spent: bool = False) -> int:
    """Compares what is drawn with the replies of sessions: each run that is shown with a value has it, each change is shown or counted, and
    nothing is left out, or, with `spent`, only what is shown as such. Gives how many waves were compared."""
    shown = page.shown()
    count = 0
    for row in shown["rows"]:
        for key in ("good", "faulty"):
            if row[key] is None:
                continue
            name, start, stop = row["name"], shown["start"], shown["stop"]
            fault = tuple(shown["fault"]) if key == "faulty" else None
            _check_runs(name, oracle.wave(name, start, stop, fault), row[key], spent)
            count += 1
    return count


def _check_runs(name: str, wave: Wave, runs: list[dict[str, Any]], spent: bool) -> None:
    assert runs[0]["a"] == wave.start and runs[-1]["b"] == wave.stop, (name, wave.start, wave.stop, runs[:2], runs[-2:])
    for before, run in zip([{"b": wave.start}, *runs], runs):
        assert before["b"] == run["a"] < run["b"], (name, before, run)
        inner = [time for time, _ in wave.changes if run["a"] < time < run["b"]]
        if "count" in run:
            # its first change is where it begins and its last where the next run begins, unless it is cut by the window
            assert len(inner) <= run["count"] <= len(inner) + 2 or run["a"] == wave.start or run["b"] == wave.stop, (name, run, len(inner))
        elif "value" in run:
            assert not inner and wave.value_at(run["a"]) == run["value"], (name, run, inner, wave.value_at(run["a"]))
        else:
            assert spent and "spent" in run, (name, run)
