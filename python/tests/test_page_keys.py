"""The page's keys, by events that the browser itself makes: which one does what, and what a held key does."""

import pytest
from browsing import Keys, needs_browser

pytestmark = needs_browser

# Four qubits, of which an X on the first, in each moment, flips the one detector.
CODE = "R 0 1 2 3\nTICK\nCX 0 1\nTICK\nM 1\nDETECTOR rec[-1]\n"


@pytest.fixture
def page(open_page):
    return open_page(CODE)


def undone(page):
    return page.texts("#edits .undone button")


def put_x(page):
    """An X on qubit 0, which stays in focus."""
    page.type_on(0, "x")
    page.wait(lambda: page.history() == ["opened", "insert 1 X 0"])
    page.settle()


def choose_known(page, qubit):
    """Chooses a qubit, and waits until it is known what each error there would flip."""
    page.choose_qubit(qubit)
    page.wait(lambda: page.find("about-errors").text and "not known yet" not in page.find("about-errors").text)
    page.settle()


def put_z_last(page):
    """A Z on qubit 3: when it has its entry, all that was asked before has been answered. Returns the entries."""
    page.type_on(3, "z")
    page.wait(lambda: page.history()[-1].endswith("Z 3"))
    return page.history()


def test_ctrl_z_and_ctrl_y_on_a_qubit_undo_and_redo(page):
    put_x(page)
    page.press("z", held=[Keys.CONTROL])
    page.wait(lambda: undone(page) == ["insert 1 X 0"])
    page.press("y", held=[Keys.CONTROL])
    page.wait(lambda: undone(page) == [])
    page.press("z", held=[Keys.CONTROL])
    page.wait(lambda: undone(page) == ["insert 1 X 0"])
    page.press("z", held=[Keys.CONTROL, Keys.SHIFT])
    page.wait(lambda: undone(page) == [])
    assert page.history() == ["opened", "insert 1 X 0"]


def test_undo_that_is_asked_for_twice_at_once_takes_two_edits_back(page):
    put_x(page)
    put_z_last(page)
    page.browser.execute_script("for (const name of ['undo', 'undo']) document.getElementById(name).click()")
    page.wait(lambda: len(undone(page)) == 2)


def test_a_letter_with_another_key_held_is_no_gate(page):
    page.choose_qubit(0)
    for held in (Keys.CONTROL, Keys.META):
        page.press("m", held=[held])
    assert put_z_last(page) == ["opened", "insert 1 Z 3"]


@pytest.mark.parametrize("key", [Keys.DELETE, "o", "<", ">"])
def test_a_key_for_the_chosen_says_so_if_none_is(page, key):
    page.focus("#picture")
    page.press(key)
    page.wait(lambda: page.find("message").text == "choose qubits first: click them, or drag a box")
    assert page.history() == ["opened"] and not page.find("asking").is_displayed()


def test_what_has_nothing_to_be_copied_says_so(open_page):
    page = open_page("R 0\nTICK\nH 1\n")
    page.choose_qubit(1)
    page.press("c", held=[Keys.CONTROL])
    page.wait(lambda: page.find("message").text == "nothing acts on these qubits here: nothing is copied")
    page.press("]")
    page.press("c", held=[Keys.CONTROL])
    page.wait(lambda: page.find("message").text == "copied: H 1")


def test_a_key_that_is_held_down_puts_in_one_pauli(page):
    page.choose_qubit(0)
    page.hold("x")
    assert put_z_last(page) == ["opened", "insert 1 X 0", "insert 2 Z 3"]


def test_enter_on_a_qubit_opens_its_menu_and_enter_there_chooses(page):
    page.type_on(0, Keys.ENTER)
    page.wait(lambda: page.find("choice").is_displayed())
    assert page.history() == ["opened"]
    box = page.find("choice").rect
    assert box["x"] >= 0 and box["x"] + box["width"] <= page.browser.execute_script("return innerWidth")
    page.press(Keys.TAB, Keys.ENTER)
    page.wait(lambda: page.history() == ["opened", "insert 1 Y 0"])
    assert not page.find("choice").is_displayed()


def test_space_on_a_qubit_opens_its_menu_too(page):
    page.type_on(0, Keys.SPACE)
    page.wait(lambda: page.find("choice").is_displayed())
    assert page.history() == ["opened"]


def test_enter_that_is_held_down_only_opens_the_menu(page):
    page.choose_qubit(0)
    page.hold("Enter")
    page.wait(lambda: page.find("choice").is_displayed())
    page.press(Keys.ESCAPE)
    page.wait(lambda: not page.find("choice").is_displayed() and page.focused() == "picture")
    assert page.chosen() == [0]
    assert put_z_last(page) == ["opened", "insert 1 Z 3"]


def test_with_the_timeline_in_focus_keys_do_what_they_do_elsewhere(page):
    put_x(page)
    page.focus("#timeline")
    for key, tick in (("]", 1), (Keys.ARROW_RIGHT, 2), (Keys.HOME, 0)):
        page.press(key)
        page.wait(lambda: page.find("moment-said").text == f"tick {tick}")
    page.press("z", held=[Keys.CONTROL])
    page.wait(lambda: undone(page) == ["insert 1 X 0"])
    page.press("y", held=[Keys.CONTROL])
    page.wait(lambda: undone(page) == [])


# Presses a key, and another one once what the first asks for is sent, and before it is answered.
TWO_KEYS = """
const [first, second, done] = arguments;
const press = (key) => document.getElementById("picture").dispatchEvent(new KeyboardEvent("keydown", {key, bubbles: true}));
(async () => {
  press(first);
  for (let turn = 0; turn < 20; turn += 1) await null;
  press(second);
  done();
})();
"""


def test_who_goes_on_before_an_edit_is_answered_stays_there(page):
    page.choose_qubit(0)
    page.browser.execute_async_script(TWO_KEYS, "x", "]")
    page.wait(lambda: page.history() == ["opened", "insert 1 X 0"])
    page.settle()
    assert page.find("moment-said").text == "tick 1" and page.ask("page.shown.bit") == "D0"


def is_writing(page):
    return page.focused() == "words"


def test_in_the_text_letters_with_ctrl_open_no_form(page):
    page.choose("1")
    page.press("a", held=[Keys.CONTROL])
    page.press("i", held=[Keys.ALT])
    assert not is_writing(page)
    page.press("a")
    page.wait(lambda: is_writing(page))


def test_a_letter_that_is_held_down_opens_an_empty_form(page):
    page.choose("1")
    page.hold("i")
    page.wait(lambda: is_writing(page))
    assert page.browser.execute_script("return document.getElementById('words').value") == ""
    page.press("X 2", Keys.ENTER)
    page.wait(lambda: page.history() == ["opened", "insert 1 X 2"])


def test_enter_that_is_held_down_opens_the_form_and_sends_nothing(page):
    page.choose("1")
    page.hold("Enter")
    page.wait(lambda: is_writing(page))
    page.press(Keys.ESCAPE)
    page.wait(lambda: page.focused() == "text")
    assert put_z_last(page) == ["opened", "insert 1 Z 3"]


def test_delete_that_is_held_down_takes_one_item_out(page):
    page.choose("1")
    page.hold("Delete")
    page.wait(lambda: len(page.history()) == 2)
    # Without the tick the CX ends the moment, since it acts on a qubit of the R.
    assert put_z_last(page) == ["opened", "delete 1", "insert 1 Z 3"]


def test_the_tree_says_its_items_and_panes_are_one_tab_stop(page):
    page.choose("1")
    page.press(Keys.ARROW_DOWN)
    rows = "[...document.querySelectorAll('#text [role=treeitem]')].map((it) => [it.id, it.ariaLevel, it.ariaSelected])"
    sizes = "[...document.querySelectorAll('#text [role=treeitem]')].map((it) => [it.ariaPosInSet, it.ariaSetSize])"
    # Six items, and the row after them.
    page.wait(lambda: page.ask(sizes) == [[str(place), "7"] for place in range(1, 8)] and ["row-2", "1", "true"] in page.ask(rows))
    assert page.ask("document.getElementById('text').getAttribute('aria-activedescendant')") == "row-2"
    assert [row[2] for row in page.ask(rows)].count("true") == 1
    stops = "['tools', 'palette', 'view'].map((id) => document.querySelectorAll(`#${id} button[tabindex='0']`).length)"
    assert page.ask(stops) == [1, 1, 1]
    page.focus("#palette [data-tool='pick']")
    page.press(Keys.ARROW_RIGHT)
    page.wait(lambda: page.focused("data-tool") == "qubit" and page.ask(stops) == [1, 1, 1])


# What the Tab key stops at, by panes of buttons and single fields; that of a round is there in a block alone.
STOPS = ["tools", "line-tools", "text", "words", "round", "palette", "rounds-of-edits", "view", "picture", "faces", "wires-there", "timeline", "inspector", "since", "split-left", "split-right", "split-time"]
PANE = "const it = document.activeElement; return it.closest('#tools, #line-tools, #palette, #rounds-of-edits, #view')?.id ?? (it.id || it.closest('aside')?.id || 'none')"


def next_stop(page):
    """Goes on by the Tab key, and says in which pane it stops."""
    page.browser.execute_script("window.left = document.activeElement")
    page.press(Keys.TAB)
    page.wait(lambda: page.browser.execute_script("return document.activeElement !== window.left"))
    return page.browser.execute_script(PANE)


def test_the_tab_key_stops_once_in_each_pane(open_page):
    page = open_page("R 0 1\nREPEAT 3 {\n    TICK\n    CX 0 1\n    TICK\n    MR 1\n    DETECTOR rec[-1]\n}\nTICK\nM 0\n")
    page.go_to(3)
    choose_known(page, 0)
    page.focus("#mark")
    found = [page.browser.execute_script(PANE)]
    while len(found) < 20 and (len(found) < 2 or found[-1] != "none"):
        found.append(next_stop(page))
    assert found[:-1] == STOPS


def test_in_the_inspector_arrows_lead_from_button_to_button(page):
    page.choose_qubit(0)
    page.wait(lambda: page.texts("#about-errors .link") == ["D0", "D0"])
    page.focus("#about-qubit .link")
    page.press(Keys.ARROW_DOWN, Keys.ARROW_DOWN)
    page.wait(lambda: page.browser.execute_script("return document.activeElement.textContent") == "D0")
    page.press(Keys.ENTER)
    page.wait(lambda: page.ask("page.shown.bit") == "D0")
    page.wait(lambda: page.ask("document.querySelectorAll(`#inspector button[tabindex='0']`).length") == 1)


def test_arrows_move_between_detectors_on_the_timeline(open_page):
    # Two places with a detector each at two times.
    measured = "MR 0 1\nDETECTOR(0, 0, {0}) rec[-2]\nDETECTOR(0, 1, {0}) rec[-1]\nTICK\n"
    page = open_page("R 0 1\nTICK\n" + measured.format(0) + measured.format(1))
    choose_known(page, 0)
    page.focus("#timeline")
    shift = [Keys.SHIFT]
    for key, held, chosen in ((Keys.ARROW_DOWN, (), "D0"), (Keys.ARROW_DOWN, (), "D1"), (Keys.ARROW_RIGHT, shift, "D3"), (Keys.ARROW_UP, (), "D2"),
                              (Keys.ARROW_LEFT, shift, "D0")):
        page.press(key, held=held)
        page.wait(lambda: page.ask("page.shown.bit") == chosen)
    assert page.find("seen").get_attribute("textContent").startswith("D0 at (0, 0, 0) is 0")


def test_escape_gives_the_focus_back(page):
    page.focus("#export")
    page.press(Keys.ENTER)
    page.wait(lambda: page.find("choice").is_displayed())
    page.press(Keys.ESCAPE)
    page.wait(lambda: page.focused() == "export")
    page.choose_qubit(0)
    page.press("?")
    page.wait(lambda: page.find("keys").is_displayed())
    page.press(Keys.ESCAPE)
    page.wait(lambda: page.focused() == "picture" and not page.find("keys").is_displayed())
    # What has the focus has an outline.
    page.press(Keys.F6)
    outline = "const it = getComputedStyle(document.activeElement); return it.outlineStyle + it.outlineWidth"
    page.wait(lambda: page.focused() != "picture" and page.browser.execute_script(outline) == "solid2px")


def test_enter_in_the_field_of_a_round_takes_it_out(open_page):
    page = open_page("R 0\nREPEAT 4 {\n    TICK\n    H 0\n}\n")
    page.unfold(1)
    page.choose("1/1")
    page.focus("#round")
    page.press("a", held=[Keys.CONTROL])
    page.press("2", Keys.ENTER)
    page.wait(lambda: page.history() == ["opened", "round 2 of 1 by itself"])


def test_the_timeline_says_where_it_is(page):
    page.go_to(1)
    slider = page.find("timeline")
    assert [slider.get_attribute(f"aria-{name}") for name in ("valuemin", "valuemax", "valuenow", "valuetext")] == ["0", "2", "1", "tick 1, outside blocks"]


SHORT = "R 0 1\nTICK\nM 0 1\nDETECTOR rec[-1]\n"
# What is opened, and what has the focus then.
PLACES = {
    "the picture": ("picture", "#picture"), "the text": ("text", "#text"), "the entry line": ("words", "#words"), "the field for search": ("search-words", None),
    "the circuit as text": ("source-text", None), "a button": ("undo", None), "the number that is asked for": ("asked", None), "the list of keys": ("keys", None),
    "a menu": ("choice", None),
}


@pytest.mark.parametrize("place", PLACES)
def test_ctrl_s_saves_from_everywhere(open_page, tmp_path, place):
    saved = tmp_path / "saved.stim"
    page = open_page(SHORT, "--save", str(saved))
    name, selector = PLACES[place]
    page.choose_qubit(0)
    if selector:
        page.focus(selector)
    elif name == "search-words":
        page.press("/")
    elif name == "source-text":
        page.click("#as-text")
        page.wait(lambda: page.focused() == name)
    elif name == "undo":
        page.press("x")
        page.wait(lambda: len(page.history()) == 2)
        page.focus("#undo")
    elif name == "asked":
        page.press("o")
    elif name == "keys":
        page.press("?")
    else:
        page.press(Keys.ENTER)
    page.wait(lambda: page.browser.execute_script("return document.getElementById(arguments[0]).contains(document.activeElement)", name))
    if name == "source-text":
        page.press("H 1", Keys.ENTER)
    page.press("s", held=(Keys.CONTROL,))
    page.wait(saved.exists)
    assert saved.read_text() == {"undo": page.circuit(), "source-text": "H 1\n" + SHORT}.get(name, SHORT)
