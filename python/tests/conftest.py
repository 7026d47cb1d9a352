"""What the tests share: the program, the examples, and the commands."""
from __future__ import annotations

import os
import shutil
import signal
import subprocess
import sys
from collections.abc import Callable, Iterator
from pathlib import Path

import pytest
from browser import Browser, browser_path

TOP = Path(__file__).resolve().parents[2]
# a shell that starts the tests in the background has them ignore Ctrl-C, nohup that the terminal goes, and so would what they start
signal.signal(signal.SIGINT, signal.default_int_handler)
signal.signal(signal.SIGHUP, signal.SIG_DFL)


def _program(name: str) -> str | None:
    """The program that the environment names, else the one of these sources that stands in the checkout."""
    named = os.environ.get(name.upper())
    if named:
        return shutil.which(named)
    found = subprocess.run([TOP / "tools" / "program", "--there", name], stdout=subprocess.PIPE, text=True).stdout.strip()
    return found or None


def read_all(terminal: int) -> bytes:
    """What was written to a terminal that nobody has open any more. It may come in parts; after the last one reading fails."""
    told = b""
    try:
        while part := os.read(terminal, 100_000):
            told += part
    except OSError:
        pass
    return told


@pytest.fixture(scope="session")
def program() -> str:
    """The program: that of $BACKSIM, or the one of this repository."""
    found = _program("backsim")
    if found is None:
        pytest.skip("the program is not built, and BACKSIM does not name it")
    return found


@pytest.fixture(scope="session")
def checker(program: str) -> str:
    """The checker of proofs, beside the program or of this repository."""
    beside = Path(program).with_name("backsim_check")
    found = str(beside) if beside.is_file() and "BACKSIM_CHECK" not in os.environ else _program("backsim_check")
    if found is None:
        pytest.skip("backsim_check is not built, and BACKSIM_CHECK does not name it")
    return found


@pytest.fixture(scope="module")
def browser() -> Iterator[Browser]:
    """A page in a browser, for all tests of a file."""
    path = browser_path()
    if path is None:
        pytest.skip("no Chromium is installed (Debian's package chromium), and BROWSER_FOR_TESTS does not name one")
    opened = Browser(path)
    yield opened
    opened.close()


@pytest.fixture
def example() -> Callable[[str], list[str]]:
    """The netlist, timing and stimulus of an example of the repository."""

    def files(name: str) -> list[str]:
        stem = TOP / "examples" / name / name
        return [f"{stem}.{kind}" for kind in ("bench", "timing", "stim")]

    return files


@pytest.fixture
def tools() -> Callable[..., subprocess.CompletedProcess[bytes]]:
    """Runs a command of backsim-tools in a process of its own. Ten minutes are for a machine with much other work."""

    def run(*words: object, **options: object) -> subprocess.CompletedProcess[bytes]:
        environment = os.environ | {"PYTHONPATH": str(TOP / "python")} | options.pop("env", {})
        return subprocess.run([sys.executable, "-m", "backsim", *map(str, words)], env=environment, capture_output=True, timeout=600,
                              **({"stdin": subprocess.DEVNULL} | options if "input" not in options else options))

    return run


@pytest.fixture
def write(tmp_path: Path) -> Callable[[str, str | bytes], Path]:
    """Writes a file of the test's folder."""

    def file(name: str, text: str | bytes) -> Path:
        path = tmp_path / name
        path.write_bytes(text if isinstance(text, bytes) else text.encode("latin-1"))
        return path

    return file
