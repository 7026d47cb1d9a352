"""The sessions of tests/sessions/ of the repository, with what they must write, each worked out by hand."""
from __future__ import annotations

import sys
from pathlib import Path

TOP = Path(__file__).resolve().parents[2]
sys.path.insert(0, str(TOP / "tools"))
from session_rows import all_sessions  # noqa: E402


def sessions() -> dict[str, dict[str, bytes]]:
    """The texts of each session by its name."""
    return {name: {key: text.encode("latin-1") for key, text in texts.items()} for name, texts in all_sessions(str(TOP))}
