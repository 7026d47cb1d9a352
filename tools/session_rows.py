"""Reads the sessions of tests/sessions/*.txt: what the program is given, and what it must write.

A session begins with `=== NAME`. Lines with a `#` before its first text are a comment: how its values were found. `--- KIND` begins one
of its texts:

    words                               the words after the four names `netlist timing stimulus journal`
    netlist, timing, stimulus, script   what the program reads; none of the three files may be another afterwards
    replies, errors, status             standard output, standard error and the status
    journal, section                    the whole journal; lines that follow one another in it
    dump FILE                           the whole file that a `vcd` line makes; no other is made

A text that is left out is empty; of journal, section and errors nothing is compared then; the status is 0. Blank lines at the end of a
text do not count. `{TEXT*N}` in a text stands for N times TEXT. `--- KIND crlf` of what the program reads has a carriage return
before each line feed, and `--- KIND cut` no line feed at its end; `--- KIND crlf cut` has both."""
from __future__ import annotations

import glob
import os
import re
import sys

FILES = ("netlist", "timing", "stimulus")
TEXT = re.compile(r"--- (?:(words|replies|errors|status|journal|section|dump \S+)|(netlist|timing|stimulus|script)( crlf)?( cut)?)$")


def whole(lines: list[str], crlf: str | None, cut: str | None) -> str:
    """The text of these lines, expanded, and with these ends of its lines."""
    while lines and not lines[-1].strip():
        lines.pop()
    text = re.sub(r"\{([^{}*]+)\*([0-9]+)\}", lambda it: it[1] * int(it[2]), "".join(lines))
    if cut:
        text = text.removesuffix("\n")
    return text.replace("\n", "\r\n") if crlf else text


def sessions_in(path: str) -> list[tuple[str, dict[str, str]]]:
    """The name and the texts of each session of a file. A line that is not of the form ends the process with a message."""
    found: list[tuple[str, dict[str, tuple[list[str], str | None, str | None]]]] = []
    lines: list[str] | None = None
    with open(path, encoding="ascii") as file:
        for number, line in enumerate(file, 1):
            text = TEXT.match(line)
            if line.startswith("=== "):
                found.append((line[4:].strip(), {}))
                lines = None
            elif text and found and (text[1] or text[2]) not in found[-1][1]:
                lines = []
                found[-1][1][text[1] or text[2]] = (lines, text[3], text[4])
            elif line.startswith("--- "):
                sys.exit(f"{path}, line {number}: no text, or one that the session has already")
            elif lines is not None:
                lines.append(line)
            elif line.strip() and not line.startswith("#"):
                sys.exit(f"{path}, line {number}: neither in a text nor a comment")
    return [(name, {key: whole(*text) for key, text in texts.items()}) for name, texts in found]


def all_sessions(top: str) -> list[tuple[str, dict[str, str]]]:
    """The sessions of all files of the repository, in order. A name that stands twice ends the process with a message."""
    found: list[tuple[str, dict[str, str]]] = []
    first: dict[str, str] = {}
    for path in sorted(glob.glob(os.path.join(top, "tests", "sessions", "*.txt"))):
        for name, texts in sessions_in(path):
            if name in first:
                sys.exit(f"{path}: a session of {first[name]} has the name {name}")
            first[name] = path
            found.append((name, texts))
    return found


def dumps_of(texts: dict[str, str]) -> dict[str, str]:
    """The text of each dump of a session, by the name of its file."""
    return {key.removeprefix("dump "): text for key, text in texts.items() if key.startswith("dump ")}
