"""The page of waves in a real browser, by clicks and keys. What it shows is compared with the replies of a session that is asked
beside it; what is expected of the examples is worked out by hand (docs/use/EXAMPLES.md) or follows from their files."""
from __future__ import annotations

import json
import os
import random
import re
from collections.abc import Iterator
from contextlib import closing
from pathlib import Path
from xml.etree import ElementTree

import pytest
from backsim import Session
from backsim.formats.vcd import read_vcd
from browser import CONTRASTS, Browser
from processes import wait_until
from view_page import ALT, CTRL, SHIFT, TOP, Oracle, Page, check_shown, ring, viewed

PROCESSOR = "from_verilog"


@pytest.fixture(scope="module")
def oracle(program) -> Iterator[Oracle]:
    stem = TOP / "examples" / PROCESSOR / PROCESSOR
    made = Oracle([f"{stem}.{kind}" for kind in ("bench", "timing", "stim")], program)
    yield made
    made.close()


@pytest.fixture
def session(oracle) -> Session:
    return oracle.session()


@pytest.fixture
def page(browser, example, program) -> Iterator[Page]:
    with viewed(browser, program, example(PROCESSOR)) as opened:
        yield opened


@pytest.fixture
def small(browser, example, program) -> Iterator[Page]:
    with viewed(browser, program, example("s27")) as opened:
        yield opened


def test_the_first_view_shows_the_ports_as_the_session_answers(page, oracle) -> None:
    assert page.names == ["clk", "tick", "reset", "start", "result[15:0]", "valid", "idle", "sum[15:0]", "meter[15:0]", "version[3:0]"]
    assert check_shown(page, oracle) == 10


# For each pixel of a row of a bit whether its line is at the top, at the bottom, or both; between lie the edges.
LEVELS = """((row) => {
  const canvas = document.getElementById('canvas'), y = 30 + 34 * row + 3;
  const probe = new OffscreenCanvas(1, 1).getContext('2d', {willReadFrequently: true});
  const context = new OffscreenCanvas(canvas.width, canvas.height).getContext('2d', {willReadFrequently: true});
  context.drawImage(canvas, 0, 0);
  probe.fillStyle = getComputedStyle(document.documentElement).getPropertyValue('--wave-0');
  probe.fillRect(0, 0, 1, 1);
  const [r, g, b] = probe.getImageData(0, 0, 1, 1).data;
  const line = (top) => { const data = context.getImageData(0, top, canvas.width, 2).data;
    return Array.from({length: canvas.width}, (_, x) => [0, 1].some((dy) => { const at = 4 * (dy * canvas.width + x);
      return Math.abs(data[at] - r) + Math.abs(data[at + 1] - g) + Math.abs(data[at + 2] - b) < 60; })); };
  const high = line(y + 4), low = line(y + 23);
  return high.map((h, x) => h && low[x] ? '|' : h ? '1' : low[x] ? '0' : ' ').join('');
})"""


@pytest.mark.parametrize("theme", ["light", "dark"])
def test_the_pixels_are_those_of_the_replies(page, session, theme: str) -> None:
    if theme == "dark":
        page.press("T", modifiers=SHIFT)
    page.value("backsim.model.selected.clear(); backsim.model.changed()")
    page.settle()
    start, span, width = page.value("[backsim.model.start, backsim.model.span, backsim.frame.width]")
    for row, name in enumerate(("clk", "tick", "reset", "start")):
        wave = session.wave(name, 0, 4000)
        drawn = page.value(f"{LEVELS}({row})")
        edges = [(time - start) * width / span for time, _ in wave.changes[1:]]
        compared = [x for x in range(2, int(width) - 2) if all(abs(x - edge) > 2.5 for edge in edges)]
        assert len(compared) > 600
        assert [drawn[x] for x in compared] == [wave.value_at(int(start + (x + 0.5) * span / width)) for x in compared]


# The times that stand in the ruler, each from where to where, from left to right.
RULER_TIMES = r"""(() => {
  const box = document.createElement('div');
  box.innerHTML = backsim.svg();
  document.body.append(box);
  const times = [...box.querySelectorAll('text')].filter((text) => /^12(\.5)?$/.test(text.getAttribute('y')))
    .map((text) => { const {x, width} = text.getBBox(); return [x, x + width, text.textContent]; });
  box.remove();
  return times.sort((one, other) => one[0] - other[0]);
})()"""


def test_times_in_the_ruler_do_not_overlap(page) -> None:
    page.press("f")
    page.settle()
    assert [time for _, _, time in page.value(RULER_TIMES)][:2] == ["0", "2,000"]
    # the plate of a cursor near the left edge stands beside its line, over the place of 2,000
    page.value("backsim.model.show(1243, 12000)")
    page.value("backsim.model.setCursor(1341)")
    page.settle()
    times = page.value(RULER_TIMES)
    assert times[0][2] == "1,341" and len(times) > 8
    assert all(before[1] < after[0] for before, after in zip(times, times[1:]))


def test_wheel_and_keys_zoom_and_scroll(page, oracle) -> None:
    x, y = page.point(1000, 3)
    page.browser.wheel(x, y, -120, CTRL)
    page.wait("backsim.model.span < 4000")
    page.settle()
    # the time under the pointer stays where it was
    assert abs(page.value(f"({x} - document.getElementById('stage').getBoundingClientRect().x) * backsim.model.span / backsim.frame.width"
                          " + backsim.model.start") - 1000) < 5
    before = page.value("backsim.model.start")
    page.browser.wheel(x, y, 300)
    page.wait(f"backsim.model.start > {before}")
    page.settle()
    check_shown(page, oracle)
    page.press("ArrowRight", "+", "PageDown", "-", "ArrowLeft")
    page.settle()
    check_shown(page, oracle)
    page.press("End")
    page.settle()
    assert page.value("backsim.model.stop") == 14201
    check_shown(page, oracle)
    page.press("f")
    page.settle()
    assert page.value("[backsim.model.start, backsim.model.span]") == [0, 14201]
    assert check_shown(page, oracle) == 10
    a, b = page.point(2000, 3), page.point(5000, 3)
    page.browser.drag(*a, *b, button="right")
    page.settle()
    assert page.value("Math.abs(backsim.model.start - 2000) < 20 && Math.abs(backsim.model.stop - 5000) < 20")


def test_signals_are_found_as_one_types(page, oracle) -> None:
    page.clear()
    page.add("registers[1][*]")
    assert page.names == ["registers[1][15:0]"]
    page.add("meter[11:4]")
    page.add("cou??er*[?]")
    assert page.names[:3] == ["registers[1][15:0]", "meter[11:4]", "counter[4:0]"]
    page.press("Home", "f")
    page.settle()
    assert check_shown(page, oracle) >= 3
    # the hierarchy, by keys alone: the scope `watch` is opened, and what stands first in it is added
    count = len(page.names)
    page.press("/")
    page.write("#find", "x")
    page.press("Escape")
    page.press("ArrowDown")
    assert page.value("document.activeElement.id") == "tree"
    place = page.value("[...document.querySelectorAll('#tree > [role=treeitem]')].findIndex((item) => item.dataset.scope === 'watch.')")
    assert place > 0
    for _ in range(place):
        page.press("ArrowDown")
    page.press("Enter")
    page.wait("document.querySelector('#tree [data-scope=\"watch.\"] [data-name]') !== null")
    page.press("ArrowDown", "Enter")
    page.wait(f"document.querySelectorAll('#list li .name').length === {count + 1}")
    assert page.names[-1].startswith("watch.")


def test_what_is_chosen_in_the_tree_stays_chosen(small) -> None:
    """The page looks for what is typed a moment later, unless it was taken back meanwhile."""
    small.clear()
    small.press("/")
    small.write("#find", "x")
    small.press("Escape", "ArrowDown")
    small.value("new Promise((done) => setTimeout(done, 200))")
    small.press("Enter")
    assert small.names == [small.value("document.querySelector('#tree .at-focus').dataset.name")]


def test_buses_are_words_in_four_forms(page) -> None:
    page.clear()
    page.add("meter[15:0]")
    page.write("#time", "9000")
    page.press("Enter")
    page.settle()
    values = []
    for _ in range(4):
        values.append(page.text("#list .value"))
        page.press("b")
    # the twelfth change of the counter `meter`, from its replies by hand: 9 at 9,000 (docs of the example)
    assert [int(values[0], 16), int(values[1]), int(values[2]), int(values[3], 2)] == [int(values[1])] * 4
    assert len(values[0]) == 4 and len(values[3]) == 16
    # in two's complement 1000 is -8 and 0111 is 7
    assert page.value("import('./model.js').then(({written}) => ['1000', '0111', '1x00', 'zzzz'].map((word) => written(word, 'signed')))") == \
        ["-8", "7", "x", "z"]


def test_a_page_that_is_loaded_anew_shows_what_it_did(page) -> None:
    page.add("counter")
    page.press("b")
    page.write("#time", "9000")
    page.press("Enter")
    before = page.names, page.cursor, page.value("backsim.model.start"), page.value("backsim.model.items.map((item) => item.radix)")
    page.value("window.isOld = true")
    page.browser.call("Page.reload")
    page.wait("!window.isOld && window.backsim && backsim.begun > 0")
    page.settle()
    assert len(before[0]) > 10 and before[1] == 9000 and "dec" in before[3]
    assert (page.names, page.cursor, page.value("backsim.model.start"), page.value("backsim.model.items.map((item) => item.radix)")) == before


def test_rows_are_dragged_moved_grouped_and_coloured(page, oracle) -> None:
    page.clear()
    for name in ("clk", "tick", "reset", "start"):
        page.add(name)
    list_x = page.value("document.getElementById('list').getBoundingClientRect().x") + 60
    y = [page.point(0, row)[1] for row in range(4)]
    page.browser.drag(list_x, y[3], list_x, y[0] - 12)
    assert page.names == ["start", "clk", "tick", "reset"]
    page.press("ArrowDown", modifiers=ALT)
    assert page.names == ["clk", "start", "tick", "reset"]
    page.press("ArrowDown", modifiers=SHIFT)
    page.press("g")
    page.write("#group-name", "both")
    page.press("Enter")
    page.wait("document.querySelectorAll('#list li').length === 5")
    assert page.names == ["clk", "both", "start", "tick", "reset"]
    page.press("Enter")
    assert page.names == ["clk", "both", "reset"]
    page.press("Enter", "ArrowDown", "c")
    assert page.value("backsim.model.items.map((item) => item.colour)") == [0, 0, 1, 0, 0]
    page.press("ArrowUp", "u")
    assert page.names == ["clk", "start", "tick", "reset"]
    page.press("z", modifiers=CTRL)
    assert page.names == ["clk", "both", "start", "tick", "reset"]
    page.settle()
    check_shown(page, oracle)


def test_cursor_and_marker_tell_values_and_their_difference(page, session) -> None:
    page.browser.click_at(*page.point(1010, 1))
    page.press("m")
    page.browser.click_at(*page.point(2510, 1))
    page.settle()
    at = page.cursor
    assert at is not None and abs(at - 2510) < 10
    marker = page.value("backsim.model.marker")
    assert page.text("#difference").replace(",", "") == str(at - marker)
    page.wait("![...document.querySelectorAll('#list .value')].some((value) => value.textContent === '')")
    said = page.value("[...document.querySelectorAll('#list .value')].map((value) => value.textContent)")
    words = [session.at(name, at).value for name in page.names]
    assert [said[0], said[1]] == words[:2]
    assert int(said[8], 16) == int(words[8], 2)
    # what the pointer is over is told, with the whole value
    x, y = page.point(at + 0.5, 8)
    page.browser.call("Input.dispatchMouseEvent", type="mouseMoved", x=x, y=y)
    page.wait("/^meter.* at /.test(document.getElementById('stage').title)")
    name, time, value = re.fullmatch(r"(.*) at ([0-9,]+): ([0-9a-f]+)", page.value("document.getElementById('stage').title")).groups()
    assert (name, int(value, 16)) == ("meter[15:0]", int(session.at(name, int(time.replace(",", ""))).value, 2))


def test_changes_and_values_are_searched(page, session) -> None:
    page.browser.click_at(*page.point(1000, 8))
    page.press("Escape", "n")
    page.wait("/is .* from/.test(document.getElementById('said').textContent)")
    changes = session.wave("meter[15:0]", 0, 14201, 500_000).changes
    at = page.cursor
    assert at == next(time for time, _ in changes if time > 1000)
    page.press("p")
    page.wait(f"backsim.model.cursor < {at}")
    assert page.cursor == max(time for time, _ in changes if time < at)
    page.press("v")
    page.write("#value", "16'd9")
    page.press("Enter")
    nine = next(time for time, word in changes if word == f"{9:016b}")
    page.wait(f"backsim.model.cursor === {nine}")
    assert page.value(f"backsim.model.start <= {nine} && {nine} < backsim.model.stop")
    page.press("ArrowUp", "x")
    word = session.wave("sum[15:0]", 0, 14201, 500_000).changes
    x = next(time for (time, value), (_, before) in zip(word[1:], word) if time > nine and "x" in value and "x" not in before)
    page.wait(f"backsim.model.cursor === {x}")
    page.press("Home", "ArrowUp", "ArrowUp")
    page.write("#time", "0")
    page.press("Enter")
    page.press("v")
    page.write("#value", "1")
    page.press("Enter")
    valid = session.first("valid", 1, 0, 14201).time
    page.wait(f"backsim.model.cursor === 0 || backsim.model.cursor === {valid}")


def test_a_click_on_a_value_walks_to_its_cause(small) -> None:
    """G17 at 4 is x since G11 at 3 is, since G9 at 2 is, since G16 and G15 at 1 are, since G8 and G12 at 0 have not come through yet."""
    assert small.names == ["G0", "G1", "G2", "G3", "G17"]
    x, y = small.point(4.5, 4)
    small.browser.click_at(x, y)
    small.wait("backsim.model.chain !== null")
    assert small.text("#why-head") == "Why G17 is x at 4"
    steps = small.value("[...document.querySelectorAll('#chain button b')].map((step) => step.textContent)")
    assert steps[:3] == ["G17 = x", "G11 = x", "G9 = x"]
    assert steps[-1] in ("G8 = x", "G12 = x")
    # docs/use/GUIDE.md: with the value's own step the chain has five
    assert small.text("#why-state") == f"5 steps back to {steps[-1].removesuffix(' = x')}" and len(steps) == 5
    assert "2 signals had no time to get a value" in small.text("#causes") and small.value("document.getElementById('roots').options.length") == 2
    # its signals are in the waves now, and the way is drawn
    small.settle()
    assert small.names[5] == "Why G17 is x at 4" and small.names[6:8] == ["G11", "G9"]
    pixels = small.value("""(() => { const c = document.getElementById('canvas');
      const copy = new OffscreenCanvas(c.width, c.height).getContext('2d', {willReadFrequently: true});
      copy.drawImage(c, 0, 0);
      const d = copy.getImageData(0, 0, c.width, c.height).data;
      let n = 0; for (let i = 0; i < d.length; i += 4) if (d[i] > 200 && d[i + 1] > 50 && d[i + 1] < 110 && d[i + 2] < 60) n++; return n; })()""")
    assert pixels > 200
    small.press("]")
    assert small.cursor == 3 and small.text("#chain [aria-current] b") == "G11 = x"
    # where rows have little room, that of the step is scrolled into view
    small.browser.call("Emulation.setDeviceMetricsOverride", width=1366, height=330, deviceScaleFactor=1, mobile=False)
    small.press("]")
    small.settle()
    shown = small.value("(() => { const list = document.getElementById('list').getBoundingClientRect(), "
                        "row = document.querySelector('#list .at-focus').getBoundingClientRect(); return [list.top - 1, row.top, row.bottom, list.bottom + 1]; })()")
    assert small.text("#list .at-focus .name") == "G9" and shown == sorted(shown)
    small.browser.call("Emulation.setDeviceMetricsOverride", width=1366, height=768, deviceScaleFactor=1, mobile=False)
    small.press(*"]" * len(steps))
    assert small.cursor == 0 and "before its delay" in small.text("#chain [aria-current] small")
    small.press(*"[" * len(steps))
    assert small.cursor == 4
    small.press("Escape")
    assert small.names == ["G0", "G1", "G2", "G3", "G17"]


@pytest.mark.parametrize(("site", "value"), [("a[1]", "0"), ("idle", "1"), ("valid", "1")])
def test_a_fault_shows_both_waves(page, oracle, session, site: str, value: str) -> None:
    """An input, a register and a gate."""
    page.press("s")
    page.write("#site", site)
    page.browser.click(f"#fault-dialog input[value='{value}']")
    page.browser.click("#fault-dialog button.main")
    page.wait("backsim.model.fault !== null")
    page.settle()
    assert page.text("#the-fault") == f"{site} stuck at {value}"
    assert check_shown(page, oracle) == 20
    shown = page.shown()
    different = [row["name"] for row in shown["rows"] if row["good"] != row["faulty"]]
    assert different
    # the program's own answer where the signal is stuck
    told = session.stuck(site, value, different[-1].replace("[15:0]", "[0]"), 0, 2000, 500_000).wave
    assert told.changes == oracle.wave(told.name, 0, 2000, (site, value)).changes
    page.press("S", modifiers=SHIFT)
    page.settle()
    assert check_shown(page, oracle) == 10


def test_activity_is_shown_where_changes_are_closer_than_pixels(browser, write, program) -> None:
    netlist = write("busy.bench", "INPUT(a)\nOUTPUT(y)\ny = NOT(a)\n")
    stimulus = write("busy.stim", "horizon 50000\n" + "".join(f"set a {time} {time % 2}\n" for time in range(0, 40000)))
    files = [netlist, write("busy.timing", ""), stimulus]
    with viewed(browser, program, files) as page, closing(Oracle(files, program)) as oracle:
        page.press("f")
        page.settle()
        assert check_shown(page, oracle) == 2
        for row in page.shown()["rows"]:
            runs = row["good"]
            edges = sum("value" in before and "value" in run for before, run in zip(runs, runs[1:]))
            # a changes at each time from 1 to 39,999, and y, which is x at 0, at each up to 40,000
            assert sum(run.get("count", 0) for run in runs) + edges == {"a": 39999, "y": 40000}[row["name"]]
            assert 1 <= sum("count" in run for run in runs) <= 4
        for _ in range(12):
            page.press("+")
        page.settle()
        check_shown(page, oracle)
        assert all("value" in run for row in page.shown()["rows"] for run in row["good"])


def test_a_spent_budget_is_grey_with_a_button(browser, write, program) -> None:
    with viewed(browser, program, ring(write), "r0") as page:
        page.press("f")
        page.settle()
        spent = [run for row in page.shown()["rows"] for run in row["good"] if "spent" in run]
        assert spent
        asked = page.value("backsim.link.asked")
        page.browser.click("#over button")
        page.wait(f"backsim.link.asked > {asked}")
        page.settle()
        left = [run for row in page.shown()["rows"] for run in row["good"] if "spent" in run]
        assert sum(run["b"] - run["a"] for run in left) < sum(run["b"] - run["a"] for run in spent)


@pytest.fixture
def saved(page, tmp_path) -> Iterator[Path]:
    page.browser.call("Browser.setDownloadBehavior", behavior="allow", downloadPath=str(tmp_path))
    yield tmp_path


def save(page: Page, folder: Path, form: str, name: str) -> Path:
    page.press("s", modifiers=CTRL)
    page.browser.click(f"#save-dialog button[value={form}]")
    path = folder / name
    page.wait("!document.querySelector('dialog[open]')")
    # the browser gives it its name once it is whole
    wait_until(lambda: path.exists() and path.stat().st_size > 0, f"{name} is saved")
    return path


def test_what_is_in_view_is_saved_and_opened_again(page, oracle, session, saved, browser, program) -> None:
    page.press("ArrowDown", "ArrowDown", "c", "g")
    page.write("#group-name", "kept")
    page.press("Enter")
    page.browser.click_at(*page.point(2500, 0))
    page.press("Escape", "m")
    page.browser.click_at(*page.point(1000, 0))
    page.press("Escape")
    page.settle()
    tree = ElementTree.parse(save(page, saved, "svg", "from_verilog.svg"))
    texts = [element.text for element in tree.iter("{http://www.w3.org/2000/svg}text")]
    assert {"clk", "kept", "meter[15:0]", "0001"} <= set(texts)
    assert save(page, saved, "png", "from_verilog.png").read_bytes().startswith(b"\x89PNG")
    dump = read_vcd(save(page, saved, "vcd", "from_verilog.vcd"))
    for name in ("clk", "idle"):
        changes = [change for change in dump.signal("top", name) if change[0] < 4000]
        assert tuple(changes) == session.wave(name, 0, 4000).changes
    view = save(page, saved, "view", "from_verilog.view")
    kept = json.loads(view.read_text())
    assert kept["files"] == [str(Path(file).resolve()) for file in page.files]
    with viewed(browser, program, [view]) as again:
        opened = again.value("backsim.model.document('', [])")
        assert [[row.get("name"), row.get("group"), row.get("colour")] for row in opened["rows"]] == [
            [row.get("name"), row.get("group"), row.get("colour")] for row in kept["rows"]]
        assert [opened[key] for key in ("start", "stop", "cursor", "marker")] == [kept[key] for key in ("start", "stop", "cursor", "marker")]
        check_shown(again, oracle)


def test_a_changed_stimulus_is_loaded_on_a_key(browser, write, program) -> None:
    files = [write("n.bench", "INPUT(a)\nOUTPUT(y)\ny = NOT(a)\n"), write("n.timing", ""), write("n.stim", "horizon 20\nset a 0 0\n")]
    with viewed(browser, program, files) as page:
        write("n.stim", "horizon 30\nset a 0 0\nset a 7 1\n")
        page.wait("/n.stim changed on disk/.test(document.getElementById('notice').textContent)")
        page.press("r")
        page.wait("backsim.model.horizon === 30")
        page.press("f")
        page.settle()
        with closing(Oracle(files, program)) as oracle:
            assert check_shown(page, oracle) == 2
        assert page.value("document.getElementById('notice').hidden")
        write("n.stim", "horizon 30\nset a 0 2\n")
        page.press("r")
        refusal = f"document.getElementById('notice').textContent.includes({str(files[2]) + ':2: '!r})"
        page.wait(refusal)
        # the page looks at the files every two seconds, and goes on to say why they were refused
        page.value("new Promise((done) => setTimeout(done, 2500))")
        assert page.value(refusal)
        # the browser itself tells of an answer that is a refusal
        assert set(page.browser.errors) <= {"Failed to load resource: the server responded with a status of 400 (Bad Request)"}
        page.browser.errors.clear()
        page.press("+")
        page.settle()
        assert all("value" in run for row in page.shown()["rows"] for run in row["good"])


# Holds the next answer that tells the state of the session, until `held()` is called.
HOLD_STATE = """(() => {
  const fetched = window.fetch;
  window.held = null;
  window.fetch = async (path, options) => {
    const answer = await fetched(path, options);
    if (!path.startsWith('state') || window.held) return answer;
    await new Promise((done) => { window.held = done; });
    return answer;
  };
})()"""


def test_an_answer_of_before_the_files_were_loaded_is_passed_over(browser, write, program) -> None:
    files = [write("n.bench", "INPUT(a)\nOUTPUT(y)\ny = NOT(a)\n"), write("n.timing", ""), write("n.stim", "horizon 20\nset a 0 0\n")]
    with viewed(browser, program, files) as page:
        write("n.stim", "horizon 30\nset a 0 0\n")
        page.wait("!document.getElementById('notice').hidden")
        page.value(HOLD_STATE)
        page.wait("window.held !== null")
        page.press("r")
        page.wait("backsim.model.horizon === 30")
        page.value("""(() => { window.told = []; const notice = document.getElementById('notice');
          new MutationObserver(() => window.told.push(notice.textContent)).observe(notice, {childList: true}); window.held(); })()""")
        page.value("new Promise((done) => setTimeout(done, 200))")
        assert page.value("window.told.filter((text) => text)") == [] and page.value("backsim.model.horizon") == 30


@pytest.mark.parametrize("theme", ["light", "dark"])
def test_a_screen_reader_is_told_all_and_texts_stand_out(page, theme: str) -> None:
    if theme == "dark":
        page.press("T", modifiers=SHIFT)
    page.browser.click_at(*page.point(1010, 1))
    page.settle()
    tree = page.browser.tree()
    named = {(node["role"], node["name"]) for node in tree}
    assert {"main", "banner", "contentinfo"} <= {role for role, _ in named}
    roles = ("button", "textbox", "searchbox", "combobox", "listbox", "option", "treeitem", "tree", "scrollbar", "splitter", "application", "heading")
    assert [node for node in tree if node["role"] in roles and not node["name"]] == []
    assert ("listbox", "Signals in view") in named and ("tree", "Hierarchy") in named
    assert ("option", "clk is 1") in named or ("option", "clk is 0") in named
    assert any(role == "button" and name.startswith("Zoom in (+") for role, name in named)
    found = page.value(CONTRASTS)
    assert len(found) > 40
    assert [text for contrast, text in found if contrast < 4.5] == []


def test_a_narrow_window_has_no_part_out_of_sight(page) -> None:
    page.browser.call("Emulation.setDeviceMetricsOverride", width=700, height=600, deviceScaleFactor=1, mobile=False)
    page.settle()
    assert page.value("document.documentElement.scrollWidth <= window.innerWidth && document.documentElement.scrollHeight <= window.innerHeight")
    assert page.value("backsim.frame.width") > 150
    page.browser.call("Emulation.setDeviceMetricsOverride", width=1366, height=768, deviceScaleFactor=1, mobile=False)


# Holds the next answer to a request for waves: `held.push(line)` gives a line of it, `held.end()` ends it, and `held.rows` are what was asked.
HOLD = """(() => {
  const fetched = window.fetch;
  window.held = null;
  window.fetch = (path, options) => {
    if (path !== 'waves') return fetched(path, options);
    window.fetch = fetched;
    let control;
    const body = new ReadableStream({start(given) { control = given; }});
    window.held = {rows: JSON.parse(options.body).rows, push: (line) => control.enqueue(new TextEncoder().encode(JSON.stringify(line) + '\\n')),
      end: () => control.close()};
    return Promise.resolve(new Response(body));
  };
})()"""


# What stands of a piece from 0 to 100 whose changes at 10, 20, 21, 22, 30 and 60 are shown as an activity from 20 to 22, once another piece is put in.
CUT = """(async ([start, stop]) => {
  const {Track} = await import('./waves.js'), track = new Track();
  const runs = [[0, '0'], [10, '1'], [20, '#', 3], [22, '0'], [30, '1'], [60, '0']];
  track.add({start: 0, stop: 100, step: 4, exact: false, runs});
  track.add({start, stop, step: 1, exact: true, runs: [[start, 'z']]});
  return [[...track.within(0, 100)].map((run) => [run.a, run.b, run.value ?? run.count ?? null]), track.missing(0, 100, 4)];
})"""


@pytest.mark.parametrize("start, stop, before, behind, missing", [
    (40, 50, [[0, 10, "0"], [10, 20, "1"], [20, 22, 3], [22, 30, "0"], [30, 40, "1"]], [[50, 60, "1"], [60, 100, "0"]], []),
    # an activity that is cut is left out, since how many changes each part has is not known
    (21, 25, [[0, 10, "0"], [10, 20, "1"], [20, 21, None]], [[25, 30, "0"], [30, 60, "1"], [60, 100, "0"]], [[20, 21]]),
    (15, 21, [[0, 10, "0"], [10, 15, "1"]], [[21, 22, None], [22, 30, "0"], [30, 60, "1"], [60, 100, "0"]], [[21, 22]])])
def test_an_activity_is_not_cut(start: int, stop: int, before: list, behind: list, missing: list, small) -> None:
    assert small.value(f"{CUT}([{start}, {stop}])") == [[*before, [start, stop, "z"], *behind], missing]


def test_an_answer_that_is_given_up_takes_nothing_from_view(page, oracle) -> None:
    page.value("(backsim.model.show(0, 400), 0)")
    page.settle()
    page.value(HOLD)
    page.value("(backsim.model.show(6000, 100), 0)")
    page.wait("window.held !== null")
    page.value("(backsim.model.show(0, 400), 0)")
    page.settle()
    page.value("(held.push({row: held.rows[0].row, start: 6000, stop: 6100, exact: true, runs: [[6000, '0']]}), held.end(), 0)")
    page.settle()
    assert check_shown(page, oracle) == 10


# Loses the next answer to a request for waves, as where a connection breaks.
LOSE = """(() => {
  const fetched = window.fetch;
  window.fetch = (path, options) => {
    if (path !== 'waves') return fetched(path, options);
    window.fetch = fetched;
    window.isLost = true;
    return Promise.reject(new TypeError('lost'));
  };
})()"""


def test_an_answer_that_was_lost_is_asked_anew(page, oracle) -> None:
    page.value(LOSE)
    page.value("(backsim.model.show(6000, 400), 0)")
    page.wait("window.isLost && document.getElementById('notice').hidden")
    page.wait("backsim.inView.every((item) => backsim.link.track(2 * item.id).missing(6000, 6400, 1).length === 0)")
    page.settle()
    assert check_shown(page, oracle) == 10


def test_an_answer_about_a_fault_before_is_not_that_of_the_next(page) -> None:
    page.value("(backsim.model.show(0, 400), 0)")
    page.settle()
    number = page.value("2 * backsim.inView[0].id + 1")
    page.value(HOLD)
    page.value("(backsim.model.setFault(['clk', '1']), 0)")
    page.wait("window.held !== null")
    # the line comes while the next question waits for its turn
    found = page.value(f"""(async () => {{ backsim.link.forget([{number}]);
      held.push({{row: {number}, start: 0, stop: 400, exact: true, runs: [[0, 'z']]}});
      await new Promise((done) => setTimeout(done, 100));
      return [...backsim.link.track({number}).within(0, 400)].some((run) => run.value === 'z'); }})()""")
    assert found is False


# actions of a random walk: keys, with their modifiers, and moves of the pointer
KEYS = ([(key, 0) for key in ("+", "-", "ArrowLeft", "ArrowRight", "PageUp", "PageDown", "Home", "End", "ArrowUp", "ArrowDown", "b", "c", ".", ",",
                              "m", "i", "z", "n", "p", "f", "e")]
        + [("ArrowUp", ALT), ("ArrowDown", ALT), ("ArrowDown", SHIFT), ("z", CTRL), ("T", SHIFT)])


def walk(page: Page, oracle: Oracle, seed: int, actions: int) -> int:
    """Does so many actions drawn from a seed, and compares what is in view after each; gives how many waves were compared."""
    draw = random.Random(seed)
    compared = 0
    for _ in range(actions):
        kind = draw.random()
        box = page.value("(() => { const b = document.getElementById('stage').getBoundingClientRect(); return [b.x, b.y, b.width, b.height]; })()")
        x, y = box[0] + draw.random() * (box[2] - 2) + 1, box[1] + 32 + draw.random() * (box[3] - 40)
        if kind < 0.5:
            key, modifiers = draw.choice(KEYS)
            page.press(key, modifiers=modifiers)
        elif kind < 0.65:
            page.browser.wheel(x, y, draw.choice((-240, -120, 120, 240)), CTRL)
        elif kind < 0.8:
            page.browser.wheel(x, y, draw.choice((-400, -100, 100, 400)))
        elif kind < 0.88:
            page.browser.click_at(x, y)
        elif kind < 0.92:
            page.browser.drag(x, y, box[0] + draw.random() * (box[2] - 2) + 1, y, button=draw.choice(("left", "right")))
        elif kind < 0.95:
            names = page.names
            row = draw.randrange(max(1, len(names)))
            left = page.value("document.getElementById('list').getBoundingClientRect().x") + 50
            top = page.point(0, row)[1]
            page.browser.drag(left, top, left, top + draw.choice((-40, 40, 80)))
        elif kind < 0.97:
            site = draw.choice(("a[1]", "start", "idle", "clk"))
            page.value(f"backsim.model.fault ? backsim.acts.noFault() : (() => {{ backsim.acts.fault(); }})()")
            if page.value("document.querySelector('#fault-dialog').open"):
                page.write("#site", site)
                page.press("Enter")
        else:
            page.value("document.getElementById('stage').focus()")
            page.press("Escape")
        page.settle()
        compared += check_shown(page, oracle, spent=True)
    return compared


# WALKS_FOR_TESTS=20 has so many walks of 200 actions, which take half an hour; else two of 60
LONG_WALKS = int(os.environ.get("WALKS_FOR_TESTS", "0"))


@pytest.mark.parametrize("seed", range(1, 1 + (LONG_WALKS or 2)))
def test_random_walks_show_what_the_session_answers(page, oracle, seed: int) -> None:
    assert walk(page, oracle, seed, 200 if LONG_WALKS else 60) > 300


def test_times_in_seconds(browser, write, program) -> None:
    files = [write("n.bench", "INPUT(a)\nOUTPUT(y)\ny = NOT(a)\n"), write("n.timing", "# unit 10 ps\n"), write("n.stim", "# unit 10 ps\nhorizon 90000\nset a 0 0\n")]
    with viewed(browser, program, files, "--from", "1ns", "--to", "2ns") as page:
        assert (page.shown()["start"], page.shown()["stop"]) == (100, 200)
        for text, time in (("39.99ns", 3999), ("0.5 us", 50_000), ("7", 7), ("1,200", 1200)):
            page.press("t")
            page.write("#time", text)
            page.press("Enter")
            assert page.cursor == time
        page.press("t")
        page.write("#time", "3ps")
        page.press("Enter")
        assert page.cursor == 1200 and page.text("#said") == "times are from 0 to 90,000, in units of 10 ps, or such as 10ps"
        page.press("Escape", "m", "t")
        page.write("#time", "900")
        page.press("Enter")
        assert page.cursor == 900
        # the cursor at 900 and the marker at 1,200 units of 10 ps
        assert [page.text(f"#{name}-seconds") for name in ("cursor", "marker", "difference")] == ["9 ns", "12 ns", "−3 ns"]
        assert page.text("#unit") == "units of 10 ps" and "units of 10 ps" in page.value("backsim.svg()")
