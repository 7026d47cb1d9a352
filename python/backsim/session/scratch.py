"""Files without a name in any folder: they are gone when they are closed, or when the process ends, however that is."""
from __future__ import annotations

import os
import tempfile
from collections.abc import Callable
from typing import IO, TextIO, TypeVar

T = TypeVar("T")


class Scratch:
    """Files of a session. Other processes of the user open one by its path while it is open here; the system is Linux."""

    def __init__(self) -> None:
        self._files: list[IO[bytes]] = []

    def file(self) -> str:
        """The path of a new, empty file."""
        # it has no name from the beginning, or loses it at once
        file = tempfile.TemporaryFile(prefix="backsim", buffering=0)
        self._files.append(file)
        return f"/proc/{os.getpid()}/fd/{file.fileno()}"

    def written(self, write: Callable[[T, TextIO], None], what: T) -> str:
        """The path of a new file with the text that `write` makes of something."""
        path = self.file()
        with open(path, "w", encoding="ascii") as stream:
            write(what, stream)
        return path

    def close(self) -> None:
        """Gives the files up."""
        for file in self._files:
            file.close()
        self._files.clear()
