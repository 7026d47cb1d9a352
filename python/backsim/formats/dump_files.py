"""The files of dumps: VCD as it is, and FST through the program fst2vcd, by a pipe."""
from __future__ import annotations

import os
import shutil
import subprocess
from collections.abc import Iterator
from contextlib import contextmanager
from typing import IO

from ..errors import FormatError, reason_of, type_of_path

BLOCK = 1 << 20
MEGABYTE = 1_000_000
# the header block of an FST file with its length, and the block of one that is packed whole
_FST = (b"\x00\x00\x00\x00\x00\x00\x00\x01\x49", b"\xfe\x00\x00\x00")
_GZIP = b"\x1f\x8b"


@contextmanager
def opened_dump(path: type_of_path) -> Iterator[IO[bytes]]:
    """The bytes of a VCD file, or those that fst2vcd makes of an FST file. FormatError where it can't be read, is packed by gzip, or is
    FST and fst2vcd is not there or does not take it."""
    try:
        with open(path, "rb") as file:
            begin = file.read(16)
            file.seek(0)
            if begin.startswith(_FST):
                with _through_fst2vcd(path) as pipe:
                    yield pipe
                return
            if begin.startswith(_GZIP):
                raise FormatError(path, None, "this is a file packed by gzip: unpack it by gunzip")
            yield file
    except (OSError, ValueError) as error:
        if isinstance(error, FormatError):
            raise
        raise FormatError(path, None, reason_of(error)) from None


@contextmanager
def _through_fst2vcd(path: type_of_path) -> Iterator[IO[bytes]]:
    if shutil.which("fst2vcd") is None:
        raise FormatError(path, None, "this is an FST dump; fst2vcd, which makes VCD of it, is not there (Debian's package gtkwave)")
    process = subprocess.Popen(["fst2vcd", "-f", os.fspath(path)], stdin=subprocess.DEVNULL, stdout=subprocess.PIPE, stderr=subprocess.DEVNULL)
    assert process.stdout is not None
    try:
        yield process.stdout
        is_whole = not process.stdout.read(1)
    except BaseException:
        process.kill()
        raise
    finally:
        process.stdout.close()
        process.wait()
    if is_whole and process.returncode:
        raise FormatError(path, None, "this is an FST dump that fst2vcd does not read to its end")


def megabytes_of(path: type_of_path) -> int | None:
    """How many megabytes a VCD file has, at least one; None of what is no file, or FST."""
    try:
        with open(path, "rb") as file:
            return None if file.read(16).startswith(_FST) else max(1, os.fstat(file.fileno()).st_size // MEGABYTE)
    except OSError:
        return None
