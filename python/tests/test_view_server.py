"""What `backsim-tools view` lets in, and what it leaves behind."""
from __future__ import annotations

import http.client
import http.server
import json
import os
import signal
import socket
import threading
from collections.abc import Iterator
from pathlib import Path
from urllib.parse import urlsplit

import pytest
from backsim.view.asker import SEARCH_LIMIT
from backsim.view.store import Known, Span, shown
from backsim.view.index import Index
from array import array
from browser import Browser
from processes import PATIENCE, children_of, is_there, wait_until
from view_page import ring, served


@pytest.fixture
def files(example) -> list[str]:
    return example("s27")


@pytest.fixture
def address(files, program) -> Iterator[str]:
    with served(*files, "--program", program) as (_, found):
        yield found


def asked(address: str, path: str, method: str = "GET", body: str = "", **headers: str) -> tuple[int, bytes]:
    """The status and the text of a request, to the address's port with its token unless the path begins with /."""
    parts = urlsplit(address)
    connection = http.client.HTTPConnection("127.0.0.1", parts.port, timeout=PATIENCE)
    connection.putrequest(method, path if path.startswith("/") else parts.path + path, skip_host="Host" in headers)
    for name, value in headers.items():
        connection.putheader(name.replace("_", "-"), value)
    connection.putheader("Content-Length", str(len(body)))
    connection.endheaders(body.encode())
    answer = connection.getresponse()
    found = answer.status, answer.read()
    connection.close()
    return found


def test_only_who_has_the_address_is_answered(address: str) -> None:
    own = urlsplit(address)
    assert own.hostname == "127.0.0.1" and len(own.path) > 30
    assert asked(address, "state")[0] == 200
    assert asked(address, "state", Origin=f"http://{own.netloc}")[0] == 200
    assert asked(address, "state", Host=f"localhost:{own.port}")[0] == 200
    for path, headers in (("/", {}), ("/state", {}), (f"/{'x' * 32}/state", {}), (f"{own.path[:-3]}/state", {}), ("/../state", {}),
                          ("state", {"Host": "evil.example"}), ("state", {"Host": f"evil.example:{own.port}"}), ("state", {"Host": ""}),
                          ("state", {"Origin": "http://evil.example"}), ("state", {"Origin": "null"}),
                          ("state", {"Origin": f"http://localhost:{own.port}"}), ("view.html", {"Sec_Fetch_Site": "cross-site"}),
                          ("main.js", {"Sec_Fetch_Site": "same-site"})):
        status, text = asked(address, path, **headers)
        assert status == 403 and b"s27" not in text, (path, headers)
        status, text = asked(address, path.replace("state", "values"), "POST", '{"time":1,"rows":[{"row":1,"name":"G17"}]}', **headers)
        assert status == 403 and b"values" not in text, (path, headers)


def test_bad_requests_are_answered_with_a_sentence(address: str) -> None:
    for path, body in (("values", "{"), ("values", "[]"), ("values", "{}"), ("waves", '{"page":"a","step":1}'), ("search", '{"name":"G17"}'),
                       ("why", '{"name":"G99","time":1}'), ("why", '{"name":"G17","time":99}'), ("dump", '{"rows":[],"start":9,"stop":3,"x":0}')):
        status, text = asked(address, path, "POST", body)
        assert status == 400 and json.loads(text)["error"], (path, body)
    assert asked(address, "nothing")[0] == 404
    assert asked(address, "../server.py")[0] == 404
    assert asked(address, "server.py")[0] == 404
    told = json.loads(asked(address, "why", "POST", '{"name":"G99","time":1}')[1])["error"]
    assert told.startswith("there is no signal G99; near it: G9")


class _Evil(http.server.BaseHTTPRequestHandler):
    """A page of another origin that knows the whole address, and tries to read it in every way that a page has."""

    address = ""

    def do_GET(self) -> None:
        text = f"""<!DOCTYPE html><body><script>
        const got = [], there = {self.address!r};
        const note = (what) => (value) => got.push([what, String(value)]);
        Promise.allSettled([
          fetch(there + 'state').then((r) => r.text()).then(note('fetch')),
          fetch(there + 'reload', {{method: 'POST', body: '{{}}', mode: 'no-cors'}}).then((r) => r.text()).then((t) => t && note('post')(t)),
          new Promise((done) => {{ const s = document.createElement('script'); s.src = there + 'main.js'; s.onload = () => {{ note('script')('loaded'); done(); }};
            s.onerror = done; document.body.append(s); }}),
          new Promise((done) => {{ const f = document.createElement('iframe'); f.src = there; f.onload = () => {{
            try {{ if (f.contentDocument && f.contentDocument.querySelector('canvas')) note('frame')('read'); }} catch {{}} done(); }}; document.body.append(f); }}),
          new Promise((done) => {{ const w = new WebSocket(there.replace('http', 'ws')); w.onopen = () => {{ note('socket')('open'); done(); }}; w.onerror = done; }}),
        ]).then(() => {{ window.got = got; }});
        </script>""".encode()
        self.send_response(200)
        self.send_header("Content-Type", "text/html")
        self.send_header("Content-Length", str(len(text)))
        self.end_headers()
        self.wfile.write(text)

    def log_message(self, format: str, *args: object) -> None:
        """Nothing is logged."""


def test_a_page_of_another_origin_gets_nothing(address: str, browser: Browser) -> None:
    _Evil.address = address
    evil = http.server.ThreadingHTTPServer(("127.0.0.1", 0), _Evil)
    threading.Thread(target=evil.serve_forever, daemon=True).start()
    try:
        browser.visit(f"http://127.0.0.1:{evil.server_port}/")
        browser.wait("window.got !== undefined")
        assert browser.value("window.got") == []
        # it did not load the files anew
        assert json.loads(asked(address, "state")[1])["loaded"] == 1
    finally:
        evil.shutdown()
        evil.server_close()


@pytest.mark.parametrize("number", [signal.SIGINT, signal.SIGTERM])
def test_a_signal_ends_all_and_leaves_nothing(files, program, tmp_path: Path, number: signal.Signals) -> None:
    environment = {"TMPDIR": str(tmp_path)}
    with served(*files, "--program", program, env=environment) as (process, address):
        assert asked(address, "state")[0] == 200
        body = json.dumps({"page": "a", "number": 1, "step": 1, "rows": [{"row": 1, "name": "G17", "fault": ["G8", "1"], "windows": [[0, 31]]}]})
        assert b'"end":true' in asked(address, "waves", "POST", body)[1]
        children = children_of(process.pid)
        assert len(children) == 2
        process.send_signal(number)
        assert process.wait(timeout=PATIENCE) == 0
    assert list(tmp_path.iterdir()) == []
    assert not any(map(is_there, children))


@pytest.mark.parametrize("unit, said", [("# unit 10 ps\n", b"10 ps"), ("# unit 25 ps\n", b"1 ns"), ("", b"1 ns")])
def test_a_saved_dump_has_the_unit_of_the_files(write, program, unit: str, said: bytes) -> None:
    """Where VCD can state it: 1, 10 or 100 of a word."""
    files = [write("n.bench", "INPUT(a)\n"), write("n.timing", unit), write("n.stim", "horizon 5\nset a 2 1\n")]
    with served(*files, "--program", program) as (_, address):
        status, text = asked(address, "dump", "POST", json.dumps({"rows": [{"name": "a"}], "start": 0, "stop": 6}))
        assert status == 200 and b"$timescale %b $end" % said in b" ".join(text.split())


def test_a_request_that_comes_late_does_not_end_a_newer_one(address) -> None:
    """A browser gives a request up and makes another; which is read first is open."""
    def whole(page: str, number: int) -> bool:
        rows = [{"row": 1, "name": "G17", "windows": [[0, 31]]}]
        last = asked(address, "waves", "POST", json.dumps({"page": page, "number": number, "step": 1, "rows": rows}))[1].splitlines()[-1]
        found: bool = json.loads(last)["whole"]
        return found

    assert [whole("late", number) for number in (1, 3, 2, 4)] == [True, True, False, True] and whole("other", 1)


def test_the_last_of_many_connections_is_there_when_the_command_goes_on(files, program) -> None:
    """A page gives a request up at each step of a scroll, and opens a further connection, also while the command gets no processor."""
    with served(*files, "--program", program) as (process, address):
        asked(address, "state")
        process.send_signal(signal.SIGSTOP)
        try:
            opened = [socket.create_connection(("127.0.0.1", urlsplit(address).port or 0), timeout=PATIENCE) for _ in range(100)]
        finally:
            process.send_signal(signal.SIGCONT)
        for connection in opened:
            connection.close()
        assert asked(address, "state")[0] == 200


def test_a_question_ends_where_who_asked_goes_away(write, program) -> None:
    """No value is x, which takes SEARCH_LIMIT evaluations to be given up."""
    def fills() -> int:
        found: int = json.loads(asked(address, "state")[1])["fills"]
        return found

    def has_ended(time: int) -> bool:
        """Whether nothing is evaluated while the input is asked for at a time, which takes nothing, in two turns with one of the search between."""
        before = fills()
        told = asked(address, "values", "POST", json.dumps({"time": time, "rows": [{"row": 1, "name": "a"}]}))
        assert json.loads(told[1])["values"] == {"1": str(time // 100 % 2)}
        return fills() == before

    with served(*ring(write), "r0", "--to", "2", "--program", program) as (_, address):
        own = urlsplit(address)
        body = json.dumps({"name": "r0", "time": 0, "forward": True, "value": "x"})
        with socket.create_connection(("127.0.0.1", own.port or 0)) as connection:
            connection.sendall(f"POST {own.path}search HTTP/1.1\r\nHost: {own.netloc}\r\nContent-Length: {len(body)}\r\n\r\n{body}".encode())
            wait_until(lambda: fills() >= 50_000, "the search has begun")
        times = iter(range(50, 100_000, 100))
        wait_until(lambda: has_ended(next(times)), "the search has ended")
        assert fills() < SEARCH_LIMIT


def test_bad_words_and_files_are_refused_in_a_line(tools, files, write) -> None:
    bad = write("bad.stim", "horizon 5\nset G0 0 0\nset G0 9 1\n")
    view = write("bad.view", '{"format": "another"}')
    for words, said in (((*files[:2], bad), f"{bad}:3: "), (files[:2], "say NETLIST TIMING STIMULUS"), ((*files, "G99"), "there is no signal G99"),
                        ((*files, "--from", "9", "--to", "4"), "a window from 9 to 4"), ((view,), f"{view}: this is no saved view"),
                        ((*files, "nothing*"), "no signal is of the pattern nothing*")):
        ran = tools("view", *words, "--no-browser")
        assert ran.returncode == 2 and said in ran.stderr.decode() and ran.stderr.count(b"\n") == 1 and ran.stdout == b"", (words, ran.stderr)


def test_what_is_shown_has_each_change_or_counts_it() -> None:
    """A wave that changes at 1, 2, 3, 50, 97, 98 and 99, at ten times for a pixel."""
    times = [0, 1, 2, 3, 50, 97, 98, 99]
    values = ["x", "1", "0", "1", "0", "1", "0", "1"]
    span = Span(0, 120, array("I", times), values)
    assert shown(span, 1) == list(zip(times, values))
    assert shown(span, 10) == [(0, "x"), (1, "#", 3), (3, "1"), (50, "0"), (97, "#", 3), (99, "1")]
    # activity with less than a pixel between is one
    assert shown(Span(0, 40, array("I", [0, 7, 8, 11, 12, 30]), list("010101")), 10) == [(0, "0"), (7, "#", 4), (12, "0"), (30, "1")]


def test_spans_are_joined_and_gaps_told() -> None:
    known = Known()
    known.add(Span(10, 20, array("I", [10, 15]), ["0", "1"]))
    known.add(Span(30, 40, array("I", [30]), ["1"]))
    assert known.gaps(5, 50) == [(5, 10), (20, 30), (40, 50)]
    known.add(Span(20, 30, array("I", [20, 25]), ["1", "0"]))
    assert [(span.start, span.stop, list(span.times), span.values) for span in known.spans] == [
        (10, 40, [10, 15, 25, 30], ["0", "1", "0", "1"])]
    assert known.gaps(10, 40) == [] and [span.start for span in known.within(12, 14)] == [12]


def test_names_are_found_without_the_whole_netlist(write) -> None:
    path = write("n.bench", "# a comment = AND(x)\nINPUT(clk)\n input ( a[0] )\nINPUT(a[1])\nOUTPUT(q)\nq = DFF(u1.n)\nu1.n = AND(a[0], a[1]) # q = NOT(clk)\n"
                            "u1.alu.s[0] = NOT(clk)\nu1.alu.s[1] = NOT(clk)\n$made.up$1 = BUFF(q)\n")
    index = Index(path)
    assert index.first(10) == ["clk", "a[1:0]", "q"]
    assert [index.full(name) for name in ("u1.alu.s", "a", "q", "a[0:1]", "none")] == ["u1.alu.s[1:0]", "a[1:0]", "q", "a[0:1]", "none"]
    assert len(index) == 8
    top = index.level("", 10)
    assert [one.name for one in top.signals] == ["a[1:0]", "clk", "q"] and [one.kind for one in top.signals] == ["input", "input", "register"]
    assert [scope for scope in top.scopes] == [("u1", "u1."), ("made by tools", "$")]
    assert [one.name for one in index.level("u1.", 10).signals] == ["u1.n"]
    assert [one.name for one in index.level("u1.alu.", 10).signals] == ["u1.alu.s[1:0]"]
    assert [one.name for one in index.find("u1.*s*", 10)[0]] == ["u1.alu.s[1:0]"]
    assert [one.name for one in index.find("ALU", 10)[0]] == ["u1.alu.s[1:0]"]
    netlist = index.netlist()
    assert netlist.names == ("clk", "a[0]", "a[1]", "q", "u1.n", "u1.alu.s[0]", "u1.alu.s[1]", "$made.up$1")
    assert netlist.gates["u1.n"].pins == ("a[0]", "a[1]")
    assert os.path.exists(path)


def test_what_a_converter_has_added_stands_behind(write) -> None:
    """r is a register with an asynchronous reset: a gate behind the flip-flop u7$2, which bears the name of the cell."""
    index = Index(write("n.bench", "INPUT(a)\nINPUT(rn)\nOUTPUT(r)\nu7$1 = AND(a, rn)\nu7$2 = DFF(u7$1)\nr = AND(u7$2, rn)\nup = OR(r, a)\nq = DFF(up)\n"))
    assert [(one.name, one.kind) for one in index.level("", 10).signals] == [
        ("a", "input"), ("rn", "input"), ("q", "register"), ("r", "register"), ("up", "gate"), ("u7$2", "register"), ("u7$1", "gate")]
    assert [one.name for one in index.find("u*", 10)[0]] == ["up"] and [one.name for one in index.find("u*$*", 10)[0]] == ["u7$1", "u7$2"]
    assert [one.name for one in index.find("u", 10)[0]] == ["up", "u7$1", "u7$2"]
