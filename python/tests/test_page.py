"""The page in a real browser: what a person does there, and who is refused."""

import contextlib
import http.client
import pathlib
import subprocess
import urllib.parse

import pytest
import stabsim
from browsing import USUAL, needs_browser
from stabsim import codes

pytestmark = needs_browser

CODE = codes.surface_code(3, 3)
LINES = [line for line in CODE.splitlines() if not line.startswith(("#", " ", "}"))]
BLOCK = [line.split(" ")[0] for line in LINES].index("REPEAT")


@pytest.fixture
def page(open_page):
    return open_page(CODE)


def status_of(address, path="/", host=None, origin=None, token=True):
    """The status of a request for the page."""
    parts = urllib.parse.urlsplit(address)
    connection = http.client.HTTPConnection(parts.hostname, parts.port)
    headers = {"Host": host or parts.netloc} | ({"Origin": origin} if origin else {})
    connection.request("GET", f"{path}?{parts.query}" if token else path, headers=headers)
    with contextlib.closing(connection):
        return connection.getresponse().status


def test_strangers_are_refused(page):
    assert status_of(page.address) == 200
    assert status_of(page.address, "/session", token=False) == 403
    assert status_of(page.address.replace("token=", "token=x"), "/session") == 403
    assert status_of(page.address, host="example.org") == 403
    assert status_of(page.address, origin="http://example.org") == 403
    assert status_of(page.address.replace("token=", "token=x")) == 403


def test_the_token_leaves_the_address_and_a_page_without_it_says_so(page):
    bare = page.address.partition("?")[0]
    assert page.browser.current_url == bare
    page.browser.refresh()
    page.wait(lambda: page.find("numbers").text)
    page.browser.execute_script("sessionStorage.clear()")
    page.browser.get(bare)
    page.wait(lambda: page.texts("#banner p span") == ["The address lacks the token that the server printed: open that address."])
    page.browser.get_log("browser")


def test_it_shows_the_circuit_and_folds_its_blocks(page):
    numbers = stabsim.Circuit(CODE).numbers()
    # Numbers that no item names are no qubits of the picture.
    qubits = len({qubit for line in CODE.splitlines() if line.startswith("QUBIT_COORDS") for qubit in line.split(") ")[1].split()})
    assert qubits < numbers.qubits
    assert page.find("numbers").text.startswith(f"{qubits} qubits · {numbers.steps} steps · {numbers.records} records")
    inner = f"#text .row[data-path='{BLOCK}/0']"
    assert not page.texts(inner)
    page.unfold(BLOCK)
    page.wait(lambda: page.texts(inner))


def fills_its_pane(page, width):
    """Whether the picture, between its two bars, is as high as the pane leaves room for, in a window this wide."""
    [_, top, _, height], [_, picture, _, drawn], [_, bar, _, low] = (page.box(it) for it in ("#layout", "#picture", "#stage .bar.low"))
    inner = page.browser.execute_script("return innerWidth")
    return inner == width and picture + drawn == bar and bar + low == top + height and drawn > 100


@pytest.mark.parametrize("size", [(1920, 1080), (2560, 1440), (1280, 700), USUAL])
def test_the_picture_fills_its_pane_at_any_size(page, size):
    try:
        page.browser.set_window_size(*size)
        page.wait(lambda: fills_its_pane(page, size[0]))
    finally:
        page.browser.set_window_size(*USUAL)


def test_an_item_is_put_in_and_taken_back(page):
    page.choose("0+")
    page.click("#insert")
    page.put_in("X 1")
    page.wait(lambda: page.history() == ["opened", "insert 0 X 1"])
    page.wait(lambda: page.row("0") == "0X 1")
    page.click("#undo")
    page.wait(lambda: page.texts("#edits .undone"))
    page.wait(lambda: not page.texts("#text .row[data-path='0']"))
    page.click("#redo")
    page.wait(lambda: page.row("0") == "0X 1")


def test_a_refusal_is_shown_at_its_item(page):
    place = LINES.index("TICK")
    page.choose(str(place))
    page.click("#insert")
    page.put_in("X 1000")
    page.wait(lambda: "refused" in page.row(str(place)))
    assert page.history() == ["opened"]


def test_a_pauli_on_a_qubit_flips_detectors_and_is_exported(page, tmp_path):
    page.go_to(6)
    page.type_on(10, "x")
    page.wait(lambda: len(page.history()) == 2)
    with stabsim.Circuit(CODE).edit() as session:
        session.insert(page.history()[1].split()[1], "X 10")
        flipped = session.changed().detectors.tolist()
    told = page.texts("#edits .now .told")[0]
    assert flipped and told.startswith(" ".join(f"D{number}" for number in flipped))


def test_a_place_says_what_a_fault_would_flip(page):
    page.go_to(6)
    with stabsim.Circuit(CODE).edit() as session:
        tick = [line.split("(")[0].split(" ")[0] for line in session.circuit().splitlines() if not line.startswith((" ", "}"))]
        at = [place for place, name in enumerate(tick) if name == "TICK"][6]
        session.insert(at, "X 10")
        flipped = " ".join(f"D{number}" for number in session.changed().detectors)
    assert flipped
    page.point_at("#picture", *page.spot(10)).perform()
    page.wait(lambda: [line.strip() for line in page.texts("#about-errors .error")][:1] == [f"X{flipped}"])


def test_two_tabs_see_one_session(page):
    first = page.browser.current_window_handle
    page.browser.switch_to.new_window("tab")
    page.open()
    page.go_to(6)
    page.type_on(10, "z")
    page.wait(lambda: len(page.history()) == 2)
    page.browser.close()
    page.browser.switch_to.window(first)
    page.wait(lambda: len(page.history()) == 2)


# Keeps the first edit from a tab, as if its machine slept.
DEAF_ONCE = """
const Real = window.WebSocket;
window.WebSocket = class extends Real {
  set onmessage(hear) {
    let heard = 0;
    super.onmessage = (message) => {
      const isFirst = message.data.startsWith('{"event": "edited"') && heard++ === 0;
      if (!isFirst) hear(message);
    };
  }
};
"""


def test_a_tab_that_missed_an_edit_catches_up(page):
    page.browser.switch_to.new_window("tab")
    page.browser.execute_cdp_cmd("Page.addScriptToEvaluateOnNewDocument", {"source": DEAF_ONCE})
    page.open()
    page.go_to(6)
    page.type_on(10, "x")
    page.settle()
    assert page.history() == ["opened"]
    page.type_on(12, "z")
    page.wait(lambda: [line.split()[-2:] for line in page.history()] == [["opened"], ["X", "10"], ["Z", "12"]])
    page.browser.close()
    page.browser.switch_to.window(page.browser.window_handles[0])


# Keeps the connection at hand.
KEPT = """
const Real = window.WebSocket;
window.WebSocket = class extends Real {
  constructor(...words) {
    super(...words);
    window.socket = this;
  }
};
"""


def test_a_tab_that_the_server_closed_says_why(page):
    page.browser.switch_to.new_window("tab")
    page.browser.execute_cdp_cmd("Page.addScriptToEvaluateOnNewDocument", {"source": KEPT})
    page.open()
    page.browser.execute_script("socket.dispatchEvent(new CloseEvent('close', {code: 4000, reason: 'Too slow: load the page anew.'}))")
    page.wait(lambda: page.texts("#banner p span") == ["Too slow: load the page anew."])
    page.browser.close()
    page.browser.switch_to.window(page.browser.window_handles[0])


# Sends texts by a socket of its own, and answers the last answer to a question that is put after them.
SEND = """const [address, texts, done] = arguments;
const socket = new WebSocket(address);
socket.onopen = () => [...texts, JSON.stringify({ ask: 'sign', pauli: 'Z0', id: 7 })].forEach((text) => socket.send(text));
socket.onmessage = ({ data }) => { const answer = JSON.parse(data); if (answer.id === 7) done(answer); };
socket.onclose = () => done('closed');"""


def test_deeply_nested_json_closes_no_tab(page):
    address = page.address.replace("http:", "ws:").replace("/?", "/session?")
    for deep in ("[" * 200_000, '{"ask":' * 100_000, "[" * 200_000 + "]" * 200_000):
        answer = page.browser.execute_async_script(SEND, address, [deep])
        assert answer["sign"] in "0+-", answer
    page.ask("page.send([{ kind: 'insert', place: '0', item: 'X 1' }])")
    page.wait(lambda: page.history() == ["opened", "insert 0 X 1"])
    assert page.texts("#banner p") == []


def test_a_round_is_taken_out_of_its_block(page):
    page.unfold(BLOCK)
    page.choose(f"{BLOCK}/1")
    page.click("#insert")
    page.click(".split")
    page.wait(lambda: page.history() == ["opened", f"round 0 of {BLOCK} by itself"])
    assert page.texts("#edits .now .told") == [""]
    page.wait(lambda: page.texts(f"#text [aria-selected=true][data-path='{BLOCK}/1']"))


def test_a_pauli_in_a_block_is_put_in_one_round_by_one_edit(page):
    page.go_to(page.ask("page.moments()") - 3)
    page.type_on(10, "x")
    page.wait(lambda: len(page.history()) == 2)
    assert page.history()[1].startswith("insert ") and page.history()[1].endswith(f" of {BLOCK} alone")
    page.click("#undo")
    page.wait(lambda: page.texts("#edits .undone"))
    page.wait(lambda: page.row(str(BLOCK)).startswith(f"{BLOCK}▾REPEAT 2"))


def test_what_is_exported_makes_the_same_circuit(open_page, tmp_path):
    saved = tmp_path / "saved.stim"
    page = open_page(CODE, "--save", str(saved))
    page.go_to(6)
    page.type_on(10, "y")
    page.wait(lambda: len(page.history()) == 2)
    page.click("#save")
    page.wait(saved.is_file)
    script = page.browser.execute_async_script(
        "const done = arguments[0]; const make = URL.createObjectURL;"
        "URL.createObjectURL = (blob) => { blob.text().then(done); return make(blob); };"
        "document.getElementById('export').click();"
        "[...document.querySelectorAll('#choice button')].find((it) => it.textContent.startsWith('script')).click();")
    program = stabsim.find_program()
    replayed = subprocess.run([program, "edit", "--in", str(tmp_path / "circuit.stim")], input=script + "show circuit\n",
                              capture_output=True, text=True, check=True).stdout
    # What is saved has the comments of the file too.
    without = "".join(line for line in saved.read_text().splitlines(keepends=True) if not line.startswith("#"))
    assert replayed == "ok\n" * len(script.splitlines()) + without and len(without) < len(saved.read_text())


@pytest.mark.parametrize("path", [pathlib.PurePosixPath("/static/../board.py"), pathlib.PurePosixPath("/static/none.js")])
def test_no_other_file_is_given(page, path):
    parts = urllib.parse.urlsplit(page.address)
    connection = http.client.HTTPConnection(parts.hostname, parts.port)
    connection.request("GET", str(path))
    with contextlib.closing(connection):
        assert connection.getresponse().status in (403, 404)
