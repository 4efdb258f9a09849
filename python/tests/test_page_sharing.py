"""Circuits that are given to the page and taken from it: pasted, dropped, in a link, exported; and how its answers are guarded."""

import contextlib
import http.client
import time
import urllib.parse
import xml.etree.ElementTree

import pytest
from browsing import TimeoutException, needs_browser
from test_page_editor import FOUR

pytestmark = needs_browser


@pytest.fixture
def page(open_page):
    return open_page(FOUR)


def test_a_circuit_is_pasted_and_undo_brings_the_old_one_back(page):
    page.browser.execute_script(
        "const data = new DataTransfer(); data.setData('text', arguments[0]);"
        "document.body.dispatchEvent(new ClipboardEvent('paste', {clipboardData: data, bubbles: true, cancelable: true}));", "H 5\nXCZ 5 6\nM 5\n")
    page.wait(lambda: page.history() == ["opened", "open pasted.stim"])
    assert page.circuit() == "H 5\nCX 6 5\nM 5\n" and page.find("left-out").text == "1 line is rewritten."
    page.click("#undo")
    page.wait(lambda: page.circuit() == FOUR)
    assert not page.find("left-out").is_displayed()


def drop(page, is_taken, **data):
    """Drops something on the picture, by events of the browser's own. From one event the browser learns for the next that a drop is taken,
    but some time later: so a drop that is not taken is tried again."""
    box = page.find("picture").rect

    def dropped():
        for kind in ("dragEnter", "dragOver", "dragOver", "drop"):
            told = {"type": kind, "x": box["x"] + 90, "y": box["y"] + 90, "data": {"items": [], "dragOperationsMask": 1, **data}}
            page.browser.execute_cdp_cmd("Input.dispatchDragEvent", told)
            time.sleep(0.3)
        with contextlib.suppress(TimeoutException):
            return page.wait(is_taken, longest=5)

    page.wait(dropped)


def test_a_circuit_is_dropped_as_a_file_or_as_text(page, tmp_path):
    file = tmp_path / "dropped_file.stim"
    file.write_text("R 3\nXCZ 3 2\nM 3\n")
    drop(page, lambda: page.history() == ["opened", "open dropped_file.stim"], files=[str(file)])
    assert page.circuit() == "R 3\nCX 2 3\nM 3\n" and page.find("left-out").text == "1 line is rewritten."
    text = [{"mimeType": "text/plain", "data": "H 2\n"}]
    drop(page, lambda: page.history()[-1] == "open dropped.stim" and page.circuit() == "H 2\n", items=text)


def test_a_dropped_file_is_measured_first_and_what_is_too_long_is_said_at_once(page, tmp_path):
    long = tmp_path / "long.stim"
    with long.open("wb") as file:
        file.truncate(40_000_000)
    drop(page, lambda: page.find("message").text == "long.stim has 40.0 MB, and no more than 33.6 MB are read", files=[str(long)])
    assert page.history() == ["opened"] and page.circuit() == FOUR


def test_a_link_holds_the_circuit(page, open_page):
    page.go_to(1)
    page.type_on(2, "y")
    page.wait(lambda: len(page.history()) == 2)
    page.click("#link")
    page.wait(lambda: "#circuit=" in page.browser.current_url)
    letters = urllib.parse.urlsplit(page.browser.current_url).fragment
    drawn = page.circuit()
    other = open_page("H 0\n", is_opened=False)
    other.browser.get(f"{other.address}#{letters}")
    other.wait(lambda: other.history() == ["opened", "open linked.stim"] and other.circuit() == drawn)
    assert "circuit=" not in other.browser.current_url


def test_what_is_seen_is_exported_as_svg_and_without_a_file_the_browser_saves(page):
    def given(*clicks):
        made = page.browser.execute_async_script(
            "const done = arguments[1]; const make = URL.createObjectURL;"
            "URL.createObjectURL = (blob) => { blob.text().then(done); URL.createObjectURL = make; return make(blob); };"
            "for (const find of arguments[0]) [...document.querySelectorAll('button')].find((it) => it.textContent.startsWith(find)).click();", list(clicks))
        return made

    page.go_to(1)
    svg = xml.etree.ElementTree.fromstring(given("Export", "SVG"))
    words = [text.text for text in svg.iter("{http://www.w3.org/2000/svg}text")]
    # The numbers of the qubits; coordinates are at the edges.
    assert {"0", "1", "2", "3"} <= set(words) and len(list(svg)) > 20
    assert given("Save") == FOUR


def test_answers_are_guarded(page):
    parts = urllib.parse.urlsplit(page.address)
    for path in (f"/?{parts.query}", "/static/main.js", "/nothing"):
        connection = http.client.HTTPConnection(parts.hostname, parts.port)
        connection.request("GET", path)
        headers = connection.getresponse().headers
        connection.close()
        assert headers["X-Content-Type-Options"] == "nosniff" and headers["Referrer-Policy"] == "no-referrer"
        assert headers["Cross-Origin-Resource-Policy"] == "same-origin"
        assert headers["X-Frame-Options"] == "DENY" and "script-src 'self';" in headers["Content-Security-Policy"]


def test_by_a_public_port_the_page_is_open_to_its_tunnel(open_page):
    page = open_page(FOUR, "--public-port", "1", is_opened=False)
    assert page.address.startswith("http://127.0.0.1:1/?token=")


def paste(page, text):
    page.browser.execute_script(
        "const data = new DataTransfer(); data.setData('text', arguments[0]);"
        "document.body.dispatchEvent(new ClipboardEvent('paste', {clipboardData: data, bubbles: true, cancelable: true}));", text)


def test_a_refusal_names_the_line_marks_the_word_and_says_what_to_do(page):
    paste(page, "R 0\n" + "TICK\n" * 1399 + "BADGATE 3\n")
    page.wait(lambda: page.texts("#message mark") == ["BADGATE"])
    said = page.find("message").get_attribute("textContent")
    assert said == "line 1401: BADGATE 3 · No instruction has this name. Look at its spelling, or take the line out."


def test_what_became_of_lines_is_told_in_one_line_with_a_list(page):
    paste(page, "R 0 1\nX_ERROR(0.1) 0\nMXX 0 1\n")
    page.wait(lambda: page.find("left-out").text == "1 line is rewritten.")
    page.click("#left-out")
    page.wait(lambda: page.texts("#choice button") == ["line 3: MXX 0 1 is MPP X0*X1"])
