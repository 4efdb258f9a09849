"""What a person has on the page stays: what is chosen if it is still there, and work that is not saved."""

import contextlib
import signal
import socket

import pytest
from browsing import Keys, needs_browser
from test_page_editor import FOUR

pytestmark = needs_browser

BLOCK = "R 0\nTICK\nREPEAT 3 {\n    H 0\n    TICK\n}\nM 0\n"


def undo(page):
    """Takes the last entry back by keys."""
    page.focus("#picture")
    page.press("z", held=[Keys.CONTROL])
    page.wait(lambda: page.texts("#edits .undone button") == page.history()[-1:])
    page.settle()


def banner(page):
    return page.texts("#banner p span")


def is_well(page):
    """Whether nothing was thrown on the page, and nothing is said in its banner; the browser's log is read from its beginning, or from where it was read last."""
    return banner(page) == [] and page.browser.get_log("browser") == []


def test_undo_of_the_detector_that_is_chosen_lets_go_of_it(open_page):
    page = open_page("R 0\nTICK\nM 0\n")
    page.browser.get_log("browser")
    page.press("]")
    page.choose_qubit(0)
    page.press("d")
    page.wait(lambda: len(page.history()) == 2)
    page.click_bit("D0")
    page.wait(lambda: page.ask("page.shown.bit") == "D0")
    undo(page)
    assert page.ask("page.shown.bit") is None and "No detector chosen" in page.find("about-detector").text
    assert "· 0 detectors · 0 observables ·" in page.find("numbers").text and is_well(page)


def test_undo_of_the_block_that_holds_the_chosen_item_leaves_its_place_chosen(open_page):
    page = open_page("R 0\nTICK\nM 0\n")
    page.browser.get_log("browser")
    page.ask("page.send([{kind: 'insert', place: '2', item: 'REPEAT 3 {\\n H 0\\n TICK\\n}'}])")
    page.wait(lambda: len(page.history()) == 2)
    page.unfold(2)
    page.choose("2/1")
    undo(page)
    assert page.row("2") == "2M 0"
    page.wait(lambda: page.texts("#text [aria-selected=true]") == ["2M 0"])
    assert is_well(page)


def test_what_is_chosen_goes_with_its_item(open_page):
    page = open_page(FOUR)
    page.choose("6")
    page.wait(lambda: page.texts("#text [aria-selected=true]") == ["6CX 0 1 2 3"])
    page.ask("page.send([{kind: 'insert', place: '4', item: 'X 1'}])")
    page.wait(lambda: page.texts("#text [aria-selected=true]") == ["7CX 0 1 2 3"])
    undo(page)
    page.wait(lambda: page.texts("#text [aria-selected=true]") == ["6CX 0 1 2 3"])


def test_the_tick_that_is_shown_stays_so_if_ticks_come_and_go_before_it(open_page):
    page = open_page("R 0 1\nTICK\nH 1\nTICK\nM 0 1\n")
    page.go_to(1)
    page.ask("page.send([{kind: 'insert', place: '0', item: 'TICK'}])")
    page.wait(lambda: len(page.history()) == 2)
    page.settle()
    assert page.find("moment-said").text == "tick 2" and ["gate", "H"] in page.glyphs()
    undo(page)
    assert page.find("moment-said").text == "tick 1" and ["gate", "H"] in page.glyphs()
    # A gate beside another one makes a moment of its own, and undo leaves its tick in sight.
    page.choose_qubit(1)
    page.press("s", held=[Keys.ALT])
    page.wait(lambda: page.find("moment-said").text == "tick 1.2")
    undo(page)
    assert page.find("moment-said").text == "tick 1" and ["gate", "H"] in page.glyphs()
    # So does undo of a tick that was put in.
    page.press("t")
    page.wait(lambda: page.find("moment-said").text == "tick 2")
    undo(page)
    assert page.find("moment-said").text == "tick 1" and ["gate", "H"] in page.glyphs()


def test_a_block_stays_unfolded_if_an_edit_of_it_is_taken_back(open_page):
    page = open_page(BLOCK)
    page.unfold(2)
    page.ask("page.send([{kind: 'replace', place: '2', item: 'REPEAT 5 {\\n H 0\\n TICK\\n}'}])")
    page.wait(lambda: page.row("2").startswith("2▾REPEAT 5"))
    undo(page)
    assert page.row("2").startswith("2▾REPEAT 3") and page.row("2/0") == "2/0H 0"


def test_what_is_written_is_not_put_in_the_place_of_another_item(open_page):
    page = open_page(FOUR)
    page.choose("5")
    page.press(Keys.ENTER)
    page.wait(lambda: page.focused() == "words")
    page.ask("page.send([{kind: 'delete', place: '5'}])")
    page.wait(lambda: page.find("entry-label").text == "before item 5")


def test_a_mark_that_leaves_the_history_counts_from_where_it_goes_on(open_page):
    page = open_page("R 0\nM 0\nDETECTOR rec[-1]\n")
    page.choose_qubit(0)
    for count in (2, 3):
        page.press("x")
        page.wait(lambda: len(page.history()) == count)
    page.click("#mark")
    page.settle()
    page.click("#edits li:nth-child(1) button")
    page.wait(lambda: len(page.texts("#edits .undone")) == 2)
    page.choose_qubit(0)
    page.press("z")
    page.wait(lambda: len(page.history()) == 2 and page.history()[1].endswith(" Z 0"))
    assert page.ask("[page.shown.state.markedAt, page.shown.state.marked.size]") == [0, 0]
    assert page.texts("#edits .marked button") == ["opened"]


# Has a view lack the function by which it is shown anything, once or from now on.
SLIP = """(() => {
  const view = page.views[words[0]];
  Object.defineProperty(view, 'show', {configurable: true, get: () => { if (words[1]) delete view.show; }});
})()"""


@pytest.mark.parametrize("view", ["timeline", "text", "layout"])
def test_a_view_that_goes_wrong_is_told_and_drawn_anew(open_page, view):
    page = open_page(FOUR)
    page.ask(SLIP, view, True)
    page.ask("page.send([{kind: 'insert', place: '4', item: 'X 1'}])")
    page.wait(lambda: banner(page) and banner(page)[0].endswith("show is not a function. It is drawn anew, as the circuit is."))
    page.wait(lambda: page.row("4") == "4X 1" and page.history()[-1] == "insert 4 X 1")
    page.click("#banner button")
    page.wait(lambda: banner(page) == [])
    page.browser.get_log("browser")


def test_a_view_that_goes_wrong_again_is_not_asked_for_again(open_page):
    page = open_page(FOUR)
    page.ask(SLIP, "timeline", False)
    page.ask("page.send([{kind: 'insert', place: '4', item: 'X 1'}])")
    page.wait(lambda: banner(page) and banner(page)[0].endswith("show is not a function. Load it anew."))
    page.browser.get_log("browser")


# Has what is given out as a file answered, once a button is clicked.
GIVEN = """const [click, done] = arguments; const make = URL.createObjectURL;
URL.createObjectURL = (blob) => { blob.text().then(done); URL.createObjectURL = make; return make(blob); };
for (const find of click) [...document.querySelectorAll('button')].find((it) => it.textContent.startsWith(find)).click();"""


def test_a_tab_whose_server_has_ended_still_gives_the_circuit_out(open_page, tmp_path):
    page = open_page(FOUR, "--save", str(tmp_path / "saved.stim"))
    page.type_on(2, "y")
    page.wait(lambda: len(page.history()) == 2)
    drawn = page.circuit()
    page.server.send_signal(signal.SIGINT)
    page.wait(lambda: banner(page) == ["The server is gone: Save, Export and Link still work in this tab. Start it again, and open the address that it prints."])
    for clicks in (["Save"], ["Export", "circuit"]):
        assert page.browser.execute_async_script(GIVEN, clicks) == drawn
    page.click("#link")
    page.wait(lambda: "#circuit=" in page.browser.current_url)
    page.browser.get_log("browser")


def test_work_that_is_not_saved_has_a_dot_until_it_is_saved(open_page, tmp_path):
    page = open_page(FOUR, "--save", str(tmp_path / "saved.stim"))
    assert page.browser.title == "circuit.stim · stabsim"
    page.type_on(2, "y")
    page.wait(lambda: page.browser.title == "● circuit.stim · stabsim")
    page.click("#save")
    page.wait(lambda: page.browser.title == "circuit.stim · stabsim")
    undo(page)
    assert page.browser.title.startswith("● ")
    # What was saved is no longer in the history.
    page.press("x")
    page.wait(lambda: page.history() == ["opened", "insert 5 X 2"])
    page.wait(lambda: page.browser.title.startswith("● "))
    page.browser.execute_async_script(GIVEN, ["Export", "circuit"])
    page.wait(lambda: page.browser.title == "circuit.stim · stabsim")


def free_port():
    with contextlib.closing(socket.socket()) as trying:
        trying.bind(("127.0.0.1", 0))
        return str(trying.getsockname()[1])


def test_work_that_was_not_saved_is_offered_by_the_next_page_of_its_port(open_page):
    port = free_port()
    page = open_page("# mine\n" + FOUR, "--port", port)
    page.type_on(2, "y")
    page.wait(lambda: len(page.history()) == 2)
    drawn = page.circuit()
    page.wait(lambda: page.browser.execute_script("return Object.keys(localStorage).length") == 1)
    page.server.send_signal(signal.SIGINT)
    page.server.wait()
    other = open_page("H 0\n", "--port", port)
    other.wait(lambda: banner(other) and banner(other)[0].startswith("circuit.stim of ") and banner(other)[0].endswith(" was not saved."))
    other.click("#banner button")
    other.wait(lambda: other.circuit() == drawn and banner(other) == [])
    assert other.ask("page.link.ask({ ask: 'written' }).then(({ text }) => text)").startswith("# mine\nQUBIT_COORDS")
    # It is not saved yet, and is kept on by the page that has it now.
    other.wait(lambda: other.browser.title.startswith("● "))
    other.wait(lambda: other.browser.execute_script("return Object.keys(localStorage).length") == 1)
    other.browser.get_log("browser")


def test_a_link_leaves_the_address_with_the_first_edit(open_page):
    page = open_page(FOUR)
    page.click("#link")
    page.wait(lambda: "#circuit=" in page.browser.current_url)
    page.type_on(2, "y")
    page.wait(lambda: len(page.history()) == 2)
    assert "#" not in page.browser.current_url
    page.browser.refresh()
    page.wait(lambda: page.history() == ["opened", "insert 5 Y 2"])


def test_a_file_that_is_too_long_is_not_read(open_page, tmp_path):
    page = open_page(FOUR)
    long = tmp_path / "long.stim"
    with long.open("wb") as file:
        file.truncate(40_000_000)
    page.find("file").send_keys(str(long))
    page.wait(lambda: page.find("message").text == "long.stim has 40.0 MB, and no more than 33.6 MB are read")
    assert page.history() == ["opened"]


def test_a_circuit_of_thirteen_megabytes_is_opened_and_said_to_be_read(open_page, tmp_path):
    back = " ".join(f"rec[-{number}]" for number in range(1, 9))
    lines = f"MR 0 1 2 3\nDETECTOR {back}\nDETECTOR {back}\nDETECTOR {back}\nTICK\n"
    page = open_page(FOUR)
    file = tmp_path / "great.stim"
    file.write_text("MR 0 1 2 3 0 1 2 3\n" + lines * (13_000_000 // len(lines)))
    page.ask("(() => { window.said = []; new MutationObserver(() => said.push(document.getElementById('message').textContent))"
             ".observe(document.getElementById('message'), {childList: true}); })()")
    page.find("file").send_keys(str(file))
    page.wait(lambda: page.history() == ["opened", "open great.stim"])
    page.wait(lambda: page.find("message").text.startswith("great.stim is opened"))
    assert page.browser.execute_script("return said[0]") == "great.stim: 13.0 MB are being read …"


def test_a_bit_that_is_not_there_is_not_chosen(open_page):
    page = open_page("R 0\nTICK\nM 0\nDETECTOR rec[-1]\n")
    page.browser.get_log("browser")
    for bit, found in (("D0", "D0"), ("D7", None), ("L0", None)):
        page.ask("page.shown.chooseBit(words[0])", bit)
        assert page.ask("page.shown.bit") == found
    assert "No detector chosen" in page.find("about-detector").text and page.browser.get_log("browser") == []
