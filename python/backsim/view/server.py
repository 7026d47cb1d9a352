"""Serves the page to this machine alone, and answers what it asks.

The address holds a token, which every request must have. A request with another Host, or from a page of another origin, is refused,
so no other page of the browser can ask or read anything. Answers of `waves` are lines of JSON that come as they are found."""
from __future__ import annotations

import hmac
import io
import json
import os
import secrets
import socket
import sys
import threading
from collections.abc import Callable, Iterable, Iterator
from http.server import BaseHTTPRequestHandler, ThreadingHTTPServer
from importlib.resources import files
from typing import TYPE_CHECKING, Any
from urllib.parse import parse_qs, urlsplit

from ..circuit.buses import written_number
from ..command_line.arguments import unit_of_session
from ..convert.waves import dumped_of, runs_of
from ..errors import BacksimError, UsageError
from ..formats.units import Unit
from ..formats.vcd import write_vcd
from .asker import ROW_LIMIT, Asker, Job, Message, Row, Sought, Turns, Wanted
from .documents import FORMAT, Document
from .index import Found, Index

if TYPE_CHECKING:
    from .explained import Explainer

_TYPES = {"html": "text/html", "css": "text/css", "js": "text/javascript"}
PAGES = ("view.html", "view.css", "main.js", "model.js", "paint.js", "link.js", "rows.js", "finder.js", "causes.js", "commands.js",
         "saving.js", "waves.js")
_POLICY = ("default-src 'none'; script-src 'self'; style-src 'self'; connect-src 'self'; img-src 'self' data: blob:; base-uri 'none'; "
           "form-action 'none'; frame-ancestors 'none'")
_HEADERS = {"Content-Security-Policy": _POLICY, "X-Content-Type-Options": "nosniff", "Referrer-Policy": "no-referrer",
            "Cross-Origin-Resource-Policy": "same-origin", "Cross-Origin-Opener-Policy": "same-origin", "Cache-Control": "no-store"}
_MOST_BODY = 1 << 22
_MOST_FOUND = 400
_MOST_ROWS = 4096
_HIGHEST_LIMIT = 1_000_000_000


class Pages(ThreadingHTTPServer):
    """The server of one session. `address` is that of its page."""

    daemon_threads = True
    block_on_close = False
    # A page that gives a request up opens a new connection, once for each step of a scroll. Where more wait to be accepted than there is
    # room for, the newest is left out, and the browser comes again only after a time that doubles.
    request_queue_size = 512

    def __init__(self, asker: Asker, index: Index, names: tuple[str, str, str], document: Document, port: int = 0) -> None:
        super().__init__(("127.0.0.1", port), _Handler)
        self.asker, self.index, self.names, self.document = asker, index, names, document
        self.token = secrets.token_urlsafe(24)
        self.hosts = tuple(f"{host}:{self.server_port}" for host in ("127.0.0.1", "localhost"))
        self._explainer: Explainer | None = None
        self.loaded = 1
        self.unit = unit_of_session(names[1], names[2])
        self._stamps = self._stamps_now()
        self._streams: dict[str, tuple[int, Job | None]] = {}
        self._lock = threading.Lock()

    @property
    def address(self) -> str:
        return f"http://127.0.0.1:{self.server_port}/{self.token}/"

    def server_bind(self) -> None:
        # without the look-up of the machine's name that http.server makes, which may wait for a network
        self.socket.setsockopt(socket.SOL_SOCKET, socket.SO_REUSEADDR, 1)
        self.socket.bind(self.server_address)
        self.server_address = address = self.socket.getsockname()
        self.server_name, self.server_port = address[:2]

    def handle_error(self, request: Any, client_address: Any) -> None:
        """A reader that went away is no error; anything else is a fault of this program, and is shown."""
        if not isinstance(sys.exc_info()[1], OSError):
            super().handle_error(request, client_address)

    @property
    def explainer(self) -> Explainer:
        """What explains; its module is read when it is first wanted, as are the files that it needs."""
        if self._explainer is None:
            from .explained import Explainer
            self._explainer = Explainer(self.index, self.names[1], self.names[2])
        return self._explainer

    def begin_asking(self) -> None:
        """Has the waves of the first view asked while the browser loads the page."""
        rows = [row for row in self.document["rows"] if isinstance(row.get("name"), str)]
        window = [[self.document.get("start", 0), self.document.get("stop", 0)]]
        try:
            wanted, _ = _wanted(self, {"rows": [{"row": 0, "name": row["name"], "windows": window} for row in rows]})
        except (KeyError, TypeError, ValueError):
            return
        self.replaced("", 0, self.asker.submit(self.asker.waves(wanted, 1)))

    def replaced(self, page: str, number: int, job: Job) -> None:
        """The job is now the one that asks for the waves of a page; the one before it ends. A request that the page made earlier, of a less
        number, may come later than one that it made after it: then the job itself ends."""
        with self._lock:
            before = [self._streams.pop(one, (0, None)) for one in ("", page)]
            newest = max(((number, job), before[1]), key=lambda stream: stream[0])
            self._streams[page] = newest
        for _, ended in (*before, (number, job)):
            if ended is not None and ended is not newest[1]:
                ended.is_cancelled = True

    def _stamps_now(self) -> list[int]:
        return [os.stat(name).st_mtime_ns if os.path.exists(name) else 0 for name in self.names]

    def state(self) -> Message:
        """What the page is told of the session."""
        stamps = self._stamps_now()
        changed = [os.path.basename(name) for name, stamp, now in zip(self.names, self._stamps, stamps) if stamp != now]
        return {"files": [os.path.abspath(name) for name in self.names], "horizon": self.asker.horizon, "loaded": self.loaded,
                "changed": changed, "stamps": " ".join(map(str, stamps)), "fills": self.asker.fills, "signals": self.index.count, "limit": ROW_LIMIT, "format": FORMAT,
                "unit": str(self.unit) if self.unit else None}

    def reload(self) -> Message:
        """Opens the files anew."""
        stamps = self._stamps_now()
        index = self.index if stamps[0] == self._stamps[0] else Index(self.names[0], self.asker.is_busy)
        _only(self.asker.submit(self.asker.reload()))
        if index is not self.index:
            self.index = index
        self.unit = unit_of_session(self.names[1], self.names[2])
        self._stamps = stamps
        self._explainer = None
        self.loaded += 1
        return self.state()


def _only(job: Job, is_gone: Callable[[], bool] = bool) -> Message:
    """The one message of a job; UsageError where that is an error, or there is none."""
    message = job.next_message(is_gone)
    if message is None:
        raise UsageError("the session has ended")
    if "error" in message:
        raise UsageError(message["error"])
    return message


class _Handler(BaseHTTPRequestHandler):
    """Answers the requests of one connection."""

    protocol_version = "HTTP/1.1"
    server_version = "backsim"
    sys_version = ""
    disable_nagle_algorithm = True
    # a head and its body go together
    wbufsize = 1 << 16
    server: Pages

    def log_message(self, format: str, *args: Any) -> None:
        """Nothing is logged."""

    # what is let in

    def _path(self) -> str | None:
        """The path behind the token, where the request may be answered; else it is refused."""
        host, origin = self.headers.get("Host", ""), self.headers.get("Origin")
        token, _, path = urlsplit(self.path).path.removeprefix("/").partition("/")
        is_own = (host in self.server.hosts and origin in (None, f"http://{host}")
                  and self.headers.get("Sec-Fetch-Site", "none") in ("same-origin", "none")
                  and hmac.compare_digest(token.encode("latin-1", "replace"), self.server.token.encode()))
        if is_own:
            return path
        self.close_connection = True
        self._send(403, b"This address is not for you: open the one that the command printed.\n", "text/plain")
        return None

    def do_GET(self) -> None:
        path = self._path()
        if path is None:
            return
        path = path or "view.html"
        if path in PAGES:
            kind = _TYPES[path.rpartition(".")[2]]
            self._send(200, files(__package__).joinpath(path).read_bytes(), f"{kind}; charset=utf-8")
            return
        query = {key: values[0] for key, values in parse_qs(urlsplit(self.path).query, keep_blank_values=True).items()}
        self._answer(_GET.get(path), query)

    def do_POST(self) -> None:
        path = self._path()
        if path is None:
            return
        length = self.headers.get("Content-Length", "")
        if not length.isdigit() or int(length) > _MOST_BODY:
            self.close_connection = True
            self._send(413, b"too long\n", "text/plain")
            return
        try:
            body = json.loads(self.rfile.read(int(length)) or b"{}")
        except ValueError:
            body = None
        if not isinstance(body, dict):
            self._send_json(400, {"error": "the request is no JSON object"})
        elif path == "waves":
            self._stream(body)
        else:
            self._answer(_POST.get(path), body)

    # what is asked of the session

    def only(self, turns: Callable[[Job], Turns]) -> Message:
        """The one message of a job; UsageError where that is an error. The job ends where the reader goes away."""
        return _only(self.server.asker.submit(turns), self._is_gone)

    def _is_gone(self) -> bool:
        """Whether the reader has closed the connection, as a page does that gives a request up."""
        try:
            return not self.connection.recv(1, socket.MSG_PEEK | socket.MSG_DONTWAIT)
        except BlockingIOError:
            return False
        except OSError:
            return True

    # what is sent

    def _answer(self, answer: Callable[[_Handler, dict[str, Any]], Message | str] | None, given: dict[str, Any]) -> None:
        if answer is None:
            self._send(404, b"there is no such page\n", "text/plain")
            return
        try:
            told = answer(self, given)
        except (BacksimError, OSError) as error:
            self._send_json(400, {"error": str(error)})
        except (KeyError, TypeError, ValueError, AttributeError):
            self._send_json(400, {"error": "the request has not the form that is wanted"})
        else:
            if isinstance(told, str):
                self._send(200, told.encode("latin-1"), "text/plain; charset=latin-1")
            else:
                self._send_json(200, told)

    def _send_json(self, status: int, message: Message) -> None:
        self._send(status, json.dumps(message, separators=(",", ":")).encode(), "application/json")

    def _send(self, status: int, body: bytes, kind: str) -> None:
        self._head(status, kind, ("Content-Length", str(len(body))))
        self.wfile.write(body)

    def _head(self, status: int, kind: str, *more: tuple[str, str]) -> None:
        self.send_response(status)
        for name, value in (("Content-Type", kind), *more, *_HEADERS.items()):
            self.send_header(name, value)
        self.end_headers()

    def _stream(self, body: dict[str, Any]) -> None:
        """Sends what is found of the wanted waves, line by line, until all is or another request of the page comes."""
        try:
            wanted, refused = _wanted(self.server, body)
            step = float(body["step"])
            page, number = str(body["page"]), int(body["number"])
        except (BacksimError, KeyError, TypeError, ValueError, AttributeError) as error:
            self._send_json(400, {"error": str(error) or "the request has not the form that is wanted"})
            return
        asker = self.server.asker
        job = asker.submit(asker.waves(wanted, step))
        self.server.replaced(page, number, job)
        try:
            self._head(200, "application/x-ndjson", ("Transfer-Encoding", "chunked"))
            for messages in _gathered(refused, job, self._is_gone):
                data = b"".join(json.dumps(message, separators=(",", ":")).encode() + b"\n" for message in messages)
                self.wfile.write(b"%x\r\n%b\r\n" % (len(data), data))
                self.wfile.flush()
            self.wfile.write(b"0\r\n\r\n")
            self.wfile.flush()
        except OSError:
            job.is_cancelled = True
            self.close_connection = True
        # the first waves are there
        self.server.index.begin()


def _gathered(first: Iterable[Message], job: Job, is_gone: Callable[[], bool]) -> Iterator[list[Message]]:
    """The messages of a job, those together that are there at a time; the last one says whether all was asked."""
    ready = list(first)
    while True:
        if ready and job.messages.empty():
            yield ready
            ready = []
        message = job.next_message(is_gone)
        if message is None:
            break
        ready.append(message)
    yield [*ready, {"end": True, "whole": not job.is_cancelled}]


# what is asked

def _row(server: Pages, given: dict[str, Any]) -> Row:
    """The row that the page names. UsageError where there is no such signal."""
    fault = given.get("fault")
    if fault is not None:
        site, value = fault
        if value not in ("0", "1") or server.index.bits(site) != (site,):
            raise UsageError(f"{site} is no signal that can be stuck at {value}")
        fault = (site, value)
    name = given["name"]
    return Row(name, server.index.bits(name), fault)


def _rows(server: Pages, given: dict[str, Any]) -> list[Row]:
    """The rows that the page names, each as itself and where there is a fault with it."""
    rows = [_row(server, one) for one in given["rows"][:_MOST_ROWS]]
    return list(dict.fromkeys(rows))


def _wanted(server: Pages, body: dict[str, Any]) -> tuple[list[Wanted], list[Message]]:
    """What is wanted of rows, and what is told of those that are none."""
    wanted: list[Wanted] = []
    refused: list[Message] = []
    for given in body["rows"][:_MOST_ROWS]:
        number = int(given["row"])
        try:
            row = _row(server, given)
        except UsageError as error:
            refused.append({"row": number, "error": str(error)})
            continue
        windows = tuple((max(0, int(start)), min(int(stop), server.asker.horizon + 1)) for start, stop in given["windows"])
        limit = min(max(1, int(given.get("limit") or ROW_LIMIT)), _HIGHEST_LIMIT)
        wanted.append(Wanted(number, row, tuple(window for window in windows if window[0] < window[1]), limit))
    return wanted, refused


def _time(server: Pages, given: Any) -> int:
    time = int(given)
    if not 0 <= time <= server.asker.horizon:
        raise UsageError(f"times are from 0 to {server.asker.horizon:,}")
    return time


def _state(reader: _Handler, query: dict[str, Any]) -> Message:
    return reader.server.state() | ({"view": reader.server.document} if "view" in query else {})


def _found(found: Iterable[Found]) -> list[list[Any]]:
    return [[one.name, one.kind, one.bits] for one in found]


def _names(reader: _Handler, query: dict[str, Any]) -> Message:
    found, count = reader.server.index.find(query["q"], _MOST_FOUND)
    return {"signals": _found(found), "count": count}


def _level(reader: _Handler, query: dict[str, Any]) -> Message:
    level = reader.server.index.level(query.get("scope", ""), _MOST_FOUND)
    return {"scopes": level.scopes, "signals": _found(level.signals), "count": level.count}


def _values(reader: _Handler, body: dict[str, Any]) -> Message:
    server, rows = reader.server, []
    for given in body["rows"][:_MOST_ROWS]:
        try:
            rows.append((int(given["row"]), _row(server, given)))
        except UsageError:
            continue
    return reader.only(server.asker.values(rows, _time(server, body["time"])))


def _search(reader: _Handler, body: dict[str, Any]) -> Message:
    server = reader.server
    row = _row(server, body)
    sought = None if body.get("value") is None else _sought(row, str(body["value"]))
    return reader.only(server.asker.search(row, _time(server, body["time"]), bool(body["forward"]), sought))


def _sought(row: Row, text: str) -> Sought:
    """The value of the row that is written: `x` for any that has an unknown bit, a number, or `b` and all bits (of 0, 1, x and z)."""
    word = text.strip().lower().replace("_", "")
    if word in ("x", "z"):
        return Sought(word, is_any=True)
    letters = word.rpartition("'")[2]
    if letters.startswith("b") and len(letters) == len(row.bits) + 1 and not letters[1:].strip("01xz"):
        return Sought(letters[1:])
    number = written_number(word)
    if number is None:
        raise UsageError(f"{text} is no value of {row.name}: write 25, 0x19, 5'h19, 0b11001, b and all {len(row.bits)} bits, or x")
    if not 0 <= number < 1 << len(row.bits):
        raise UsageError(f"{text} is no value of {row.name}, which has {len(row.bits)} bits")
    return Sought(f"{number:0{len(row.bits)}b}")


def _why(reader: _Handler, body: dict[str, Any]) -> Message:
    server = reader.server
    name, time = str(body["name"]), _time(server, body["time"])
    proofs = reader.only(server.asker.proofs(server.index.bits(name), time))["proofs"]
    return server.explainer.of(name, time, proofs)


def _dump(reader: _Handler, body: dict[str, Any]) -> str:
    """The waves of rows in a window, as a VCD file."""
    server = reader.server
    start, stop = _time(server, body["start"]), _time(server, int(body["stop"]) - 1) + 1
    if start >= stop:
        raise UsageError(f"there is no time from {start:,} on and before {stop:,}")
    answers = reader.only(server.asker.whole(_rows(server, body), start, stop))["answers"]
    text = io.StringIO()
    write_vcd(text, dumped_of(runs_of(answers, "top")), _timescale(server.unit), stop)
    return text.getvalue()


def _timescale(unit: Unit | None) -> str:
    """What a dump says of its ticks: the unit of the files, where it is one that VCD can state (IEEE 1364-2005, section 18), else 1 ns."""
    return str(unit) if unit and unit.count in (1, 10, 100) else "1 ns"


def _reload(reader: _Handler, body: dict[str, Any]) -> Message:
    return reader.server.reload()


_GET: dict[str, Callable[[_Handler, dict[str, Any]], Message | str]] = {"state": _state, "names": _names, "level": _level}
_POST: dict[str, Callable[[_Handler, dict[str, Any]], Message | str]] = {
    "values": _values, "search": _search, "why": _why, "dump": _dump, "reload": _reload}
