"""The page of an explanation, in a real browser. What is expected of s27 follows from its netlist by hand: G17 at 4 is x since G11 at 3
is, since G9 at 2 is, since G16 and G15 at 1 are, since G8 and G12 at 0 have not come through yet (docs/use/EXAMPLES.md, s27)."""
from __future__ import annotations

from html.parser import HTMLParser

import pytest
from backsim.formats.proof import parse_proof
from backsim.explanations.cells import explain
from backsim.explanations.explanation import Explanation
from backsim.pictures.page import page_of
from backsim.circuit.rules import read_design
from browser import CONTRASTS, Browser

X_PROOF = b"why G17 4 x\ncell 13 1 2 x\ncell 15 1 2 x\ncell 16 2 3 x\ncell 8 3 4 x\ncell 4 4 5 x\nend\n"
CURRENT = "document.getElementById('cell').textContent"


@pytest.fixture
def page(example, tmp_path):
    design = read_design(*example("s27"))
    path = tmp_path / "why.html"
    path.write_text(page_of(explain(design, parse_proof(X_PROOF, "proof")), 30), encoding="utf-8")
    return path


def buttons(browser: Browser, part: str) -> list[str]:
    return browser.value(f"[...document.querySelectorAll('#{part} button .name')].map((name) => name.textContent)")


def is_at(browser: Browser, text: str) -> None:
    browser.wait(f"{CURRENT}.startsWith({text!r})")


def test_clicks_go_from_the_signal_to_its_causes(browser, page) -> None:
    browser.open(page)
    assert browser.value(CURRENT) == "G17 = x t = 4"
    assert buttons(browser, "causes") == ["G11 = x"]
    browser.click("#causes button")
    is_at(browser, "G11 = x")
    assert buttons(browser, "causes") == ["G9 = x"]
    assert buttons(browser, "others") == ["G5 = 0"]
    browser.click("#causes button")
    is_at(browser, "G9 = x")
    assert buttons(browser, "causes") == ["G16 = x", "G15 = x"]
    assert not browser.value("document.getElementById('part-others').checkVisibility()")
    browser.click("#causes li:nth-child(2) button")
    is_at(browser, "G15 = x")
    assert buttons(browser, "causes") == ["G12 = x", "G8 = x"]
    browser.click("#causes button")
    is_at(browser, "G12 = x")
    assert "before its least delay" in browser.value("document.getElementById('sentence').textContent")
    assert browser.value("document.getElementById('leaf').checkVisibility()")
    steps = browser.value("[...document.querySelectorAll('#trail li')].map((step) => step.textContent)")
    assert steps == ["G17 = x", "G11 = x", "G9 = x", "G15 = x", "G12 = x"]
    browser.click("#trail li:nth-child(2) button")
    is_at(browser, "G11 = x")


def test_keys_do_the_same(browser, page) -> None:
    browser.open(page)
    browser.press("ArrowRight", 39)
    is_at(browser, "G11 = x")
    assert browser.value("document.activeElement.id") == "cell"
    browser.press("ArrowDown", 40)
    browser.press("ArrowDown", 40)
    assert browser.value("document.activeElement.textContent").startswith("2.G5 = 0")
    browser.press("ArrowUp", 38)
    browser.press("Enter", 13)
    is_at(browser, "G9 = x")
    browser.press("2", 50)
    is_at(browser, "G15 = x")
    browser.press("ArrowLeft", 37)
    is_at(browser, "G9 = x")
    browser.press("Home", 36)
    is_at(browser, "G17 = x")
    browser.press("ArrowLeft", 37)
    is_at(browser, "G17 = x")


def test_the_browser_goes_back_by_itself(browser, page) -> None:
    browser.open(page)
    browser.click("#causes button")
    is_at(browser, "G11 = x")
    browser.value("history.back()")
    is_at(browser, "G17 = x")


def test_a_signal_is_found_by_its_name(browser, page) -> None:
    browser.open(page)
    browser.click("#signal")
    browser.write("G15")
    browser.press("Enter", 13)
    is_at(browser, "G15 = x")
    browser.click("#signal")
    browser.value("document.getElementById('signal').value = ''")
    browser.write("nowhere")
    browser.press("Enter", 13)
    browser.wait("document.getElementById('found').textContent === 'The explanation has no such signal.'")


@pytest.mark.parametrize("fragment", ["#0.7.7", "#5", "#nothing", "#0.", "#0.1e9"])
def test_a_bad_address_begins_at_the_beginning(browser, page, fragment: str) -> None:
    browser.open(page, fragment)
    assert browser.value(CURRENT) == "G17 = x t = 4"


def test_strips_show_the_values_on_one_axis(browser, page) -> None:
    browser.open(page, "#0.1")
    labels = browser.value("[...document.querySelectorAll('main svg')].map((strip) => strip.getAttribute('aria-label'))")
    assert labels == ["G11 is x at t = 3; looked at: 3", "G9 is x at t = 2; looked at: 2", "G5 is 0 at 0 ≤ t < 11; looked at: 2"]
    bands = browser.value("[...document.querySelectorAll('main svg')].map((strip) => strip.querySelectorAll('.band').length)")
    assert bands == [1, 1, 0]
    widths = browser.value("[...document.querySelectorAll('main svg')].map((strip) => strip.clientWidth)")
    assert max(widths) - min(widths) < 8


def test_nothing_is_loaded_and_nothing_fails(browser, page) -> None:
    browser.requests.clear()
    browser.errors.clear()
    browser.open(page)
    browser.click("#causes button")
    is_at(browser, "G11 = x")
    assert [url for url in browser.requests if not url.startswith(page.as_uri())] == []
    assert browser.errors == []


def test_a_screen_reader_is_told_all(browser, page) -> None:
    browser.open(page, "#0.1")
    tree = browser.tree()
    named = {(node["role"], node["name"]) for node in tree}
    roles = {node["role"] for node in tree}
    assert {"main", "navigation", "banner", "contentinfo"} <= roles
    assert ("heading", "Why G17 is x at 4") in named
    assert ("navigation", "The way here") in named
    assert any(role in ("textbox", "combobox") and name == "Go to a signal" for role, name in named)
    assert any(role == "button" and name.startswith("1. G9 = x") for role, name in named)
    assert all(node["name"] for node in tree if node["role"] in ("button", "image", "heading", "img"))


def test_a_laptop_shows_it_without_scrolling_sideways(browser, page) -> None:
    browser.open(page, "#0.1.3")
    assert browser.value("document.documentElement.scrollWidth <= window.innerWidth")
    cut = "[...document.querySelectorAll('h1, h2, h3, button, .text, p')].filter((e) => e.scrollWidth > e.clientWidth + 1 && e.clientWidth)"
    assert browser.value(f"{cut}.length") == 0
    assert browser.value("Math.min(...[...document.querySelectorAll('body *')].map((e) => parseFloat(getComputedStyle(e).fontSize)))") >= 12
    assert browser.picture().startswith(b"\x89PNG")


def test_texts_stand_out(browser, page) -> None:
    browser.open(page, "#0.1")
    found = browser.value(CONTRASTS)
    assert len(found) > 20
    assert [text for contrast, text in found if contrast < 4.5] == []


class Outside(HTMLParser):
    """Collects what a page refers to, and its texts."""

    def __init__(self) -> None:
        super().__init__()
        self.found: list[str] = []
        self.scripts = 0

    def handle_starttag(self, tag: str, attributes: list[tuple[str, str | None]]) -> None:
        self.scripts += tag == "script"
        self.found += [f"{tag} {key}" for key, _ in attributes if key in ("src", "href", "srcset", "action")]


def test_names_cannot_break_the_page(browser, write, tmp_path) -> None:
    name = "</script><b>&\"'$\\x"
    netlist = write("n.bench", f"INPUT(a)\n{name} = NOT(a)\n")
    design = read_design(netlist, write("n.timing", ""), write("n.stim", "horizon 5\nset a 0 0\n"))
    text = page_of(explain(design, parse_proof(f"why {name} 3 1\ncell 1 1 6 1\nend\n".encode(), "proof")), 5)
    parser = Outside()
    parser.feed(text)
    assert parser.found == [] and parser.scripts == 2
    path = tmp_path / "names.html"
    path.write_text(text, encoding="utf-8")
    browser.open(path)
    assert browser.value(CURRENT) == f"{name} = 1 1 ≤ t < 6"
    assert browser.value("document.querySelectorAll('b').length") == 0


def test_it_begins_with_the_causes_and_a_step_opens_to_its_cells(browser, example, tmp_path) -> None:
    explanation = Explanation(read_design(*example("s27")), "G17", 4, (parse_proof(X_PROOF, "proof"),))
    path = tmp_path / "why.html"
    path.write_text(page_of(explanation.graph, 30, explanation), encoding="utf-8")
    browser.open(path)
    assert browser.value("[...document.querySelectorAll('#summary .sentences li')].map((line) => line.textContent)") == [
        "x: 2 signals had no time to get a value, their delays had not passed: G8, G12"]
    assert browser.value("[...document.querySelectorAll('#summary > details:first-of-type .step b')].map((step) => step.textContent)") == [
        "G17 = x", "G11 = x", "G9 = x", "G16 = x", "G8 = x"]
    third = "#summary > details:first-of-type li:nth-child(3)"
    assert not browser.value(f"document.querySelector('{third} button').checkVisibility()")
    browser.click(f"{third} summary")
    browser.click(f"{third} button")
    is_at(browser, "G9 = x")
