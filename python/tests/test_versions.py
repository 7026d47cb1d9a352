"""The package runs from the oldest Python on that its metadata name, and installs without a network."""
from __future__ import annotations

import ast
import importlib.util
import os
import shutil
import subprocess
import sys
import zipfile
from pathlib import Path

import pytest
import wheels
from conftest import TOP

OLDEST = tuple(map(int, wheels.OLDEST.split(".")))
MODULES = sorted((TOP / "python").glob("backsim/**/*.py"))
# what calls take since a later version than the oldest
LATER = {("zip", "strict"), ("bisect_left", "key"), ("bisect_right", "key"), ("insort", "key")}


def faults_of(path: Path) -> list[str]:
    """What of a module the oldest Python does not take: its grammar, and calls that older ones do not have."""
    text = path.read_text()
    try:
        ast.parse(text, feature_version=OLDEST)
    except SyntaxError as error:
        return [f"{path}:{error.lineno}: {error.msg}"]
    found = [f"{path}:{node.lineno}: types are joined by Union where this is run" for node in ast.parse(text).body
             if isinstance(node, ast.Assign) and isinstance(node.value, ast.BinOp) and isinstance(node.value.op, ast.BitOr)
             and isinstance(node.value.right, (ast.Subscript, ast.Name))]
    for node in ast.walk(ast.parse(text)):
        if isinstance(node, ast.ImportFrom) and node.module == "dataclasses" and path.name != "records.py":
            found += [f"{path}:{node.lineno}: dataclass is that of backsim.records" for one in node.names if one.name == "dataclass"]
        elif isinstance(node, ast.Call):
            name = node.func.attr if isinstance(node.func, ast.Attribute) else getattr(node.func, "id", "")
            found += [f"{path}:{node.lineno}: {name} has no {one.arg}" for one in node.keywords if (name, one.arg) in LATER]
    return found


def test_the_oldest_python_takes_every_module() -> None:
    assert [fault for path in MODULES for fault in faults_of(path)] == []


def test_the_oldest_python_imports_every_module() -> None:
    python = f"python{wheels.OLDEST}"
    ran = subprocess.run([python, "--version"], capture_output=True) if shutil.which(python) else None
    if ran is None or ran.returncode:
        pytest.skip(f"{python} is not there")
    names = [".".join(path.relative_to(TOP / "python").with_suffix("").parts) for path in MODULES if path.name != "__main__.py"]
    words = [python, "-B", "-c", "import importlib, sys; [importlib.import_module(it) for it in sys.argv[1:]]", *names]
    ran = subprocess.run(words, cwd=TOP / "python", capture_output=True, text=True)
    assert (ran.returncode, ran.stderr) == (0, "")


def test_a_wheel_with_programs(program: str, checker: str, tmp_path) -> None:
    """The programs of the wheel are executable beside its scripts, and the package that it has knows them."""
    programs = tmp_path / "programs"
    programs.mkdir()
    for path in (program, checker):
        shutil.copy(path, programs)
    sources = "0" * 64
    told = subprocess.run(["sha256sum", program], capture_output=True, text=True, check=True).stdout.split()[0]
    (programs / "built-from").write_text(f"# from where\nbacksim sources {sources} program {told}\n")
    name = wheels.make_wheel(str(tmp_path), str(programs), "manylinux_2_34_x86_64")
    assert name == f"backsim-{wheels.version()}-py3-none-manylinux_2_34_x86_64.whl"
    with zipfile.ZipFile(tmp_path / name) as archive:
        modes = {entry.filename: entry.external_attr >> 16 & 0o777 for entry in archive.infolist()}
        archive.extractall(tmp_path / "site")
    scripts = f"backsim-{wheels.version()}.data/scripts"
    assert modes[f"{scripts}/backsim"] == modes[f"{scripts}/backsim_check"] == 0o755
    # as pip puts them
    (tmp_path / "bin").mkdir()
    shutil.copy(tmp_path / "site" / scripts / "backsim", tmp_path / "bin")
    (tmp_path / "bin" / "backsim").chmod(0o755)
    given = {key: value for key, value in os.environ.items() if not key.startswith("BACKSIM")} | {"PYTHONPATH": str(tmp_path / "site")}
    run = subprocess.run([sys.executable, "-m", "backsim", "--version"], cwd=tmp_path, env=given, capture_output=True, text=True)
    assert run.stdout.startswith(f"backsim-tools {wheels.version()}\nbacksim {wheels.version()} sources {sources}, {tmp_path}/bin/backsim\n")


@pytest.mark.skipif(importlib.util.find_spec("ensurepip") is None, reason="no environment can be made (Debian's package python3-venv)")
def test_pip_installs_the_folder_without_a_network(tmp_path) -> None:
    made = subprocess.run([sys.executable, "-m", "venv", tmp_path / "venv"], capture_output=True, text=True)
    if made.returncode:
        pytest.skip(f"no environment can be made (Debian's package python3-venv): {made.stdout.strip()[:80]}")
    given = os.environ | {"PIP_NO_INDEX": "1", "PIP_CONFIG_FILE": os.devnull, "PYTHONPATH": ""}
    run = subprocess.run([tmp_path / "venv/bin/pip", "install", "-q", TOP / "python"], env=given, capture_output=True, text=True)
    assert run.returncode == 0, run.stderr
    run = subprocess.run([tmp_path / "venv/bin/backsim-tools", "journal", TOP / "examples/c17/c17.journal"], cwd=tmp_path, env=given,
                         capture_output=True, text=True)
    assert (run.returncode, run.stdout) == (0, "legal: 15 entries in 2 sections\n")


def test_the_version_is_told(tools) -> None:
    run = tools("--version")
    assert run.returncode == 0 and run.stdout.decode().startswith(f"backsim-tools {wheels.version()}\n")
