"""Makes wheels of this package: the build backend that pip calls (PEP 517), and `make_wheel` for tools/release.

It needs the standard library alone, so that `pip install ./python` works without a network, and whatever setuptools is there or not."""
from __future__ import annotations

import base64
import hashlib
import io
import os
import re
import tarfile
import zipfile
from typing import Any, Dict, Iterator, List, Optional, Tuple

HERE = os.path.dirname(os.path.abspath(__file__))
NAME = "backsim"
SUMMARY = "Sessions with the demand-driven gate-level simulator BACKSIM, readers and writers of its formats, and its tools"
EXTRAS = {"pictures": "matplotlib", "bars": "tqdm", "graphs": "networkx", "numbers": "pandas", "tests": "pytest"}
OLDEST = "3.9"
DATE = (1980, 1, 1, 0, 0, 0)  # the first that a zip file can have, so that the same files make the same bytes
Entry = Tuple[str, bytes, int]  # a path in the wheel, its bytes and its permissions


def version() -> str:
    """The version, which stands in backsim/version.py alone."""
    found = re.search(r'^VERSION = "([^"]+)"$', _read("backsim/version.py").decode(), re.M)
    assert found
    return found[1]


def make_wheel(into: str, programs: Optional[str] = None, platform: str = "any") -> str:
    """Makes the wheel in a folder, and gives its name. With `programs`, a folder with backsim, backsim_check and `built-from`, the wheel
    carries these, and `platform` is the tag of the machines on which they run, as manylinux_2_34_x86_64."""
    entries = [*_package(), *([] if programs is None else _programs(programs))]
    return _write(into, entries, platform, programs is None)


def build_wheel(wheel_directory: str, config_settings: Optional[Dict[str, Any]] = None, metadata_directory: Optional[str] = None) -> str:
    return make_wheel(wheel_directory)


def build_editable(wheel_directory: str, config_settings: Optional[Dict[str, Any]] = None, metadata_directory: Optional[str] = None) -> str:
    return _write(wheel_directory, [(f"{NAME}.pth", f"{HERE}\n".encode(), 0o644)], "any", True)


def build_sdist(sdist_directory: str, config_settings: Optional[Dict[str, Any]] = None) -> str:
    stem = f"{NAME}-{version()}"
    own = [(path, _read(path), 0o644) for path in ("pyproject.toml", "wheels.py", "README.md")]
    with tarfile.open(os.path.join(sdist_directory, f"{stem}.tar.gz"), "w:gz") as archive:
        for path, data, mode in [("PKG-INFO", _metadata(), 0o644), *own, *_package()]:
            info = tarfile.TarInfo(f"{stem}/{path}")
            info.size, info.mode = len(data), mode
            archive.addfile(info, io.BytesIO(data))
    return f"{stem}.tar.gz"


def get_requires_for_build_wheel(config_settings: Optional[Dict[str, Any]] = None) -> List[str]:
    return []


get_requires_for_build_editable = get_requires_for_build_sdist = get_requires_for_build_wheel


def _read(path: str) -> bytes:
    with open(os.path.join(HERE, path), "rb") as file:
        return file.read()


def _package() -> Iterator[Entry]:
    for at, folders, names in os.walk(os.path.join(HERE, NAME)):
        folders[:] = sorted(it for it in folders if it != "__pycache__")
        for name in sorted(names):
            path = os.path.relpath(os.path.join(at, name), HERE)
            yield path, _read(path), 0o644


def _programs(folder: str) -> Iterator[Entry]:
    for name in ("backsim", "backsim_check"):
        with open(os.path.join(folder, name), "rb") as file:
            yield f"{NAME}-{version()}.data/scripts/{name}", file.read(), 0o755
    with open(os.path.join(folder, "built-from"), "rb") as file:
        yield f"{NAME}/built-from", file.read(), 0o644


def _metadata() -> bytes:
    lines = ["Metadata-Version: 2.1", f"Name: {NAME}", f"Version: {version()}", f"Summary: {SUMMARY}", "License: MIT OR Apache-2.0",
             f"Requires-Python: >={OLDEST}", "Description-Content-Type: text/markdown"]
    for extra, needed in EXTRAS.items():
        lines += [f"Provides-Extra: {extra}", f'Requires-Dist: {needed}; extra == "{extra}"']
    return "\n".join(lines).encode() + b"\n\n" + _read("README.md")


def _write(into: str, entries: List[Entry], platform: str, is_pure: bool) -> str:
    """Writes a wheel with these files, its metadata and the checksums of all."""
    info, name = f"{NAME}-{version()}.dist-info", f"{NAME}-{version()}-py3-none-{platform}.whl"
    told = f"Wheel-Version: 1.0\nGenerator: {NAME}\nRoot-Is-Purelib: {str(is_pure).lower()}\nTag: py3-none-{platform}\n"
    entries = [*entries, (f"{info}/METADATA", _metadata(), 0o644), (f"{info}/WHEEL", told.encode(), 0o644),
               (f"{info}/entry_points.txt", b"[console_scripts]\nbacksim-tools = backsim.main:entry\n", 0o644)]
    rows = []
    for path, data, _ in entries:
        own = base64.urlsafe_b64encode(hashlib.sha256(data).digest()).rstrip(b"=").decode()
        rows.append(f"{path},sha256={own},{len(data)}\n")
    entries.append((f"{info}/RECORD", "".join([*rows, f"{info}/RECORD,,\n"]).encode(), 0o644))
    with zipfile.ZipFile(os.path.join(into, name), "w", zipfile.ZIP_DEFLATED) as archive:
        for path, data, mode in entries:
            entry = zipfile.ZipInfo(path, DATE)
            entry.external_attr = (0o100000 | mode) << 16
            archive.writestr(entry, data, zipfile.ZIP_DEFLATED)
    return name
