"""The page in small windows, zoomed and in both themes: what is seen of it, and that all of it can be reached."""

import pytest
from browsing import Keys, needs_browser
from random_hands import settled_emulation
from selenium.webdriver.common.action_chains import ActionChains
from stabsim import codes
from test_codes import SEVENTY_TWO

pytestmark = needs_browser

CODE = codes.surface_code(3, 3)
# Width, height, and by how much it is zoomed: 1,440 x 900 at 200 % has half as many pixels of the page each way.
SIZES = {"1024 x 768": (1024, 768, 1), "800 x 600": (800, 600, 1), "390 x 844": (390, 844, 1), "1440 x 900 at 200 %": (720, 450, 2)}
# The names of buttons and fields that no scrolling brings to where a click reaches them, and of those that are smaller than 24 pixels.
UNREACHED = """(() => {
  const found = [];
  for (const it of document.querySelectorAll('button, select, textarea, input:not([type=file])')) {
    if (!it.checkVisibility({visibilityProperty: true}) || it.disabled) continue;
    it.scrollIntoView({block: 'nearest', inline: 'nearest'});
    const {left, top, right, bottom} = it.getBoundingClientRect();
    const hit = document.elementFromPoint((left + right) / 2, (top + bottom) / 2);
    const isSmall = bottom - top < 24 || (right - left < 24 && !it.matches('.link'));
    if (!(hit && (it.contains(hit) || it.closest('p, li, .line')?.contains(hit))) || isSmall) found.push((it.id || it.textContent || it.className) + (isSmall ? ' is small' : ''));
  }
  return found;
})()"""
# What is written in letters of less than 12.5 pixels.
SMALL_WORDS = """[...document.querySelectorAll('body *')].filter((it) => [...it.childNodes].some((node) => node.nodeType === 3 && node.data.trim())
  && !it.closest('svg, script') && it.checkVisibility() && parseFloat(getComputedStyle(it).fontSize) < 12.5).map((it) => it.textContent)"""


def show(page, width, height, zoom):
    page.browser.execute_cdp_cmd("Emulation.setDeviceMetricsOverride", {"width": width, "height": height, "deviceScaleFactor": zoom, "mobile": False})
    page.wait(lambda: page.browser.execute_script("return innerWidth") == width)
    page.settle()


@pytest.mark.parametrize("size", SIZES)
def test_in_a_small_window_the_picture_has_half_of_it_and_all_is_reached(open_page, size):
    page = open_page(CODE)
    page.browser.get_log("browser")
    width, height, zoom = SIZES[size]
    with settled_emulation(page.browser):
        show(page, width, height, zoom)
        page.go_to(6)
        page.choose_qubit(10)
        page.press("x")
        page.wait(lambda: len(page.history()) == 2)
        for pane, inside in (("time", "#timeline"), ("inspector", "#about-qubit"), ("circuit", "#text")):
            page.click(f"#tabs [data-pane={pane}]")
            page.settle()
            assert page.box(inside) and page.ask(UNREACHED) == [], pane
            _, _, across, down = page.box("#picture")
            assert across * down >= width * height / 2, pane
        # The tab of the pane that is there folds it.
        page.click("#tabs [data-pane=circuit]")
        page.settle()
        _, _, more, lower = page.box("#picture")
        assert more * lower > across * down and not page.find("text").is_displayed()
        # F6 brings the pane that it leads to.
        page.focus("#tools button")
        page.press(Keys.F6)
        page.wait(lambda: page.focused() == "text" and page.find("text").is_displayed())
    assert [it["message"] for it in page.browser.get_log("browser")] == []


# What is seen of the chosen ticks on the timeline: from where to where a frame reaches, and the columns of the first and the last of them.
FRAMES = """(() => {
  const { timeline } = page.views;
  const frames = timeline.elements().filter(({ stroke, width }) => stroke === 'accent' && width === 1.5);
  return [frames.map(({ path: [[, left], [, right]] }) => [left, right]), words.map((moment) => timeline.columnOf(moment)[0])];
})()"""


@pytest.mark.parametrize("size", [(800, 600), (390, 844)])
def test_in_a_small_window_the_chosen_ticks_are_seen_and_keys_are_for_them(open_page, size):
    page = open_page("R 0 1\nTICK\nCX 0 1\nTICK\nH 0\nTICK\nM 1\n")
    with settled_emulation(page.browser):
        show(page, *size, 1)
        page.click("#tabs [data-pane=time]")
        page.go_to(1)
        chain = ActionChains(page.browser, duration=0).key_down(Keys.SHIFT)
        page.point_at("#timeline", *page.seen("timeline.columnOf(words[0])", 2), chain=chain).click().key_up(Keys.SHIFT).perform()
        page.wait(lambda: page.ask("page.views.timeline.range") == [1, 2])
        frames, (first, last) = page.ask(FRAMES, 1, 2)
        [left, right], now = frames
        assert left < first < last < right and right - left == pytest.approx(2 * (last - first)) and now == pytest.approx([left, (first + last) / 2])
        assert page.find("message").text == "ticks 1 to 2: 4 lines are chosen" and page.focused() == "timeline"
        page.press(Keys.DELETE)
        page.wait(lambda: page.circuit() == "R 0 1\nTICK\nM 1\n")
        page.settle()
        assert page.ask("page.views.timeline.range") is None


@pytest.mark.parametrize("width", [1180, 1280, 1600])
def test_all_marks_of_the_legend_are_in_sight(open_page, width):
    page = open_page(codes.surface_code(11, 2))
    with settled_emulation(page.browser):
        show(page, width, 800, 1)
        left, top, across, down = page.box("#legend")
        boxes = page.ask("[...document.querySelectorAll('#legend span')].map((it) => it.getBoundingClientRect()).map((it) => [it.left, it.top, it.right, it.bottom])")
        assert len(boxes) == 9
        assert all(left <= x and top <= y and right <= left + across and bottom <= top + down for x, y, right, bottom in boxes)


# The tools that are not in sight, as their palette is first seen.
HIDDEN_TOOLS = """(() => {
  const {left, top, right, bottom} = document.getElementById('palette').getBoundingClientRect();
  return [...document.querySelectorAll('#palette button')].filter((it) => {
    const box = it.getBoundingClientRect();
    return box.left < left || box.right > right || box.top < top || box.bottom > bottom;
  }).map((it) => it.dataset.tool);
})()"""
TOOL_LETTERS = "[...document.querySelectorAll('#palette svg text')].map((it) => [it.textContent, Number(it.getAttribute('font-size'))])"


@pytest.mark.parametrize("size", [(1280, 900), (1024, 768), (800, 600), (720, 450), (390, 844), (375, 667)])
def test_all_tools_are_in_sight_with_letters_that_can_be_read(open_page, size):
    page = open_page(CODE)
    with settled_emulation(page.browser):
        show(page, *size, 1)
        assert page.ask(HIDDEN_TOOLS) == []
        letters = dict(page.ask(TOOL_LETTERS))
        assert {"H", "MX", "√Y", "M", "P"} <= letters.keys() and min(letters.values()) >= 12.5


def test_words_are_large_enough_to_be_read_and_buttons_to_be_hit(open_page):
    page = open_page(CODE)
    page.choose_qubit(10)
    page.click_bit("D3")
    assert page.ask(UNREACHED) == [] and page.ask(SMALL_WORDS) == []
    sizes = page.ask("[...page.views.layout.elements(), ...page.views.timeline.elements()].filter((it) => it.words).map((it) => it.size)")
    assert sizes and min(sizes) >= 12.5


# Of all words on the picture and on the timeline their sizes, those on glyphs too.
WORD_SIZES = """import('/static/glyphs.js').then(({elementsOf}) => [page.views.layout, page.views.timeline]
  .flatMap((view) => view.elements()).flatMap((it) => (it.glyph ? elementsOf(it) : [it])).filter((it) => it.words).map((it) => [it.words, it.size]))"""
LETTERED = "C_XYZ 1\nSQRT_X_DAG 3\nMRX 5\nS_DAG 10\nMX 12\nMR 8\nMPP X15*!Z17*Y19 X17*Z16\nCX rec[-1] 14\nX_ERROR(0.1) 25\n"


def test_letters_are_as_large_at_any_zoom_or_left_out(open_page):
    page = open_page(codes.surface_code(3, 3) + "TICK\n" + LETTERED)
    page.wait(lambda: page.ask("page.shown.state.deterministic !== null"))
    page.go_to(22)
    page.choose_qubit(10)
    seen = set()
    for _ in range(9):
        said = page.ask(WORD_SIZES)
        assert min(size for _, size in said) >= 12.5
        seen.add(len(said))
        page.press("-")
        page.settle()
    assert len(seen) > 2
    page.press("0", "+", "+")
    page.settle()
    said = page.ask(WORD_SIZES)
    assert min(size for _, size in said) >= 12.5 and {"C", "√X†", "MX", "S†", "M", "X", "!Z"} <= {words for words, _ in said}


@pytest.mark.parametrize("splitter, pane, by, side", [("split-left", "#circuit", (60, 0), 2), ("split-right", "#inspector", (-60, 0), 2), ("split-time", "#time", (0, -60), 3)])
def test_splitters_make_panes_larger_by_a_drag_and_by_keys(open_page, splitter, pane, by, side):
    page = open_page(CODE)
    before = page.box(pane)[side]
    chain = page.point_at(f"#{splitter}").click_and_hold()
    chain.w3c_actions.pointer_action.move_by(*by)
    chain.w3c_actions.key_action.pause()
    chain.release().perform()
    page.wait(lambda: page.box(pane)[side] == pytest.approx(before + 60, abs=1))
    page.focus(f"#{splitter}")
    page.press({2: Keys.ARROW_RIGHT if by[0] > 0 else Keys.ARROW_LEFT, 3: Keys.ARROW_UP}[side])
    page.wait(lambda: page.box(pane)[side] == pytest.approx(before + 84, abs=1))


# The colour of the ground of the picture and of the timeline, and what the style says.
GROUNDS = """(() => {
  const hex = ([r, g, b]) => '#' + [r, g, b].map((part) => part.toString(16).padStart(2, '0')).join('');
  const at = (selector, x, y) => hex(document.querySelector(selector).getContext('2d').getImageData(x, y, 1, 1).data);
  return [at('#picture canvas', 8, 8), at('#timeline', 4, 40), getComputedStyle(document.documentElement).getPropertyValue('--sheet').trim()];
})()"""


def follow_system(page, theme):
    page.browser.execute_cdp_cmd("Emulation.setEmulatedMedia", {"features": [{"name": "prefers-color-scheme", "value": theme}]})


def test_a_change_of_the_systems_theme_draws_all_anew_until_one_is_chosen(open_page):
    page = open_page(CODE)
    with settled_emulation(page.browser):
        for theme, sheet in (("dark", "#171b22"), ("light", "#ffffff"), ("dark", "#171b22")):
            follow_system(page, theme)
            page.wait(lambda: page.ask(GROUNDS) == [sheet] * 3)
        page.click("#theme")
        page.wait(lambda: page.ask(GROUNDS) == ["#ffffff"] * 3)
        page.browser.refresh()
        page.wait(lambda: page.ask("page.shown.state !== null") and page.ask(GROUNDS) == ["#ffffff"] * 3)


def test_from_the_entry_line_f6_leads_on_and_ctrl_s_saves(open_page, tmp_path):
    saved = tmp_path / "saved.stim"
    page = open_page(CODE, "--save", str(saved))
    page.choose("0+")
    page.press("i")
    page.wait(lambda: page.focused() == "words")
    page.press("s", held=[Keys.CONTROL])
    page.wait(saved.is_file)
    page.press(Keys.F6)
    page.wait(lambda: page.focused("data-tool") == "pick")
    saved.unlink()
    page.focus("#picture")
    page.press("?")
    page.press("s", held=[Keys.CONTROL])
    page.wait(saved.is_file)


def test_what_an_edit_flips_is_said_to_readers(open_page):
    page = open_page("R 0\nTICK\nM 0\nDETECTOR rec[-1]\n")
    page.type_on(0, "x")
    page.wait(lambda: page.find("told").get_attribute("textContent") == "flips D0")
    assert page.find("told").get_attribute("aria-live") == "polite"
    page.type_on(0, "z")
    page.wait(lambda: page.find("told").get_attribute("textContent") == "flips nothing")


def test_random_detectors_are_counted_first_and_in_colour(open_page):
    page = open_page("RX 0\nR 1\nM 0 1\nDETECTOR rec[-1]\nDETECTOR rec[-2]\n")
    page.wait(lambda: page.find("random").text == "1 of 2 random")
    assert page.box("#random")[0] < page.box("#numbers")[0]
    colours = "['random', 'numbers'].map((id) => getComputedStyle(document.getElementById(id)).color)"
    assert len(set(page.ask(colours))) == 2
    page.choose("0")
    page.press(Keys.DELETE)
    page.wait(lambda: page.find("random").get_attribute("textContent") == "")


def test_the_history_has_the_room_that_is_left_whatever_is_chosen(open_page):
    page = open_page(CODE)
    foot = page.box("#inspector")[1] + page.box("#inspector")[3]
    for choose in (lambda: None, lambda: page.choose_qubit(10), lambda: page.click_bit("D3")):
        choose()
        page.settle()
        # What is being computed has a line until it is there.
        page.wait(lambda: page.box("#edits")[3] > 300)
        _, top, _, height = page.box("#edits")
        assert top + height == pytest.approx(foot, abs=1)


def test_what_says_nothing_takes_no_room(open_page):
    page = open_page(CODE)
    page.wait(lambda: page.texts("#about-detector h3") == ["No detector chosen"])
    assert not page.find("about-errors").is_displayed() and page.box("#about-detector")[3] < 40
    page.choose_qubit(10)
    page.wait(lambda: page.find("about-errors").is_displayed())


def test_one_switch_says_in_which_rounds_edits_are_made(open_page):
    page = open_page("R 0\nTICK\nREPEAT 3 {\n    H 0\n    TICK\n}\nM 0\n")
    page.go_to(2)
    page.click("[data-rounds=all]")
    page.type_on(0, "x")
    page.wait(lambda: page.history()[-1] == "insert 2/1 X 0")
    page.click("[data-rounds=this]")
    page.type_on(0, "s")
    page.wait(lambda: page.history()[-1].endswith("S 0, in round 1 of 2 alone"))
    assert page.texts("#rounds-of-edits [aria-pressed=true]") == ["this round"]


FACES = "page.views.layout.elements().filter(({fill}) => fill?.endsWith('-face')).length"


def test_faces_of_checks_have_colour_and_strokes_and_can_be_switched_off(open_page):
    page = open_page(CODE)
    page.wait(lambda: page.ask(FACES) == 8)
    kinds = "page.views.layout.elements().filter(({fill}) => fill?.endsWith('-face')).map((it) => it.fill).sort()"
    assert page.ask(kinds) == ["x-face"] * 4 + ["z-face"] * 4
    assert page.ask("page.views.layout.elements().filter(({hatch}) => hatch === 'Z').length") == 4
    page.click("#faces")
    page.wait(lambda: page.ask(FACES) == 0)
    page.click("#faces")
    page.wait(lambda: page.ask(FACES) == 8)


def test_a_click_on_a_face_chooses_its_detector(open_page):
    page = open_page(CODE)
    page.go_to(3)
    page.wait(lambda: page.ask(FACES) == 8)
    bits = page.ask("page.views.layout.elements().filter(({fill}) => fill?.endsWith('-face')).map(({bit}) => bit)")
    # Between the ancilla of a check and one of its corners.
    places = "[...page.shown.state.placement.places].filter(([qubit]) => page.shown.state.ancillas.has(qubit)).map(([qubit, at]) => at)"
    across, down = next(at for at in page.ask(places) if 1 < at[0] < 5 and 1 < at[1] < 5)
    page.point_at("#picture", *page.spot_of_place(across + 0.6, down)).click().perform()
    page.wait(lambda: page.ask("page.shown.bit") in bits)
    assert page.chosen() == []


ACROSS = {"toric": lambda: codes.toric_code(4, 2), "Bacon–Shor": lambda: codes.bacon_shor_code(4, 2), "bicycle": lambda: codes.bivariate_bicycle_code(6, 6, *SEVENTY_TWO, rounds=2)}


@pytest.mark.parametrize("code", ACROSS)
def test_checks_that_lie_across_each_other_have_no_faces(open_page, code):
    page = open_page(ACROSS[code]())
    page.wait(lambda: page.ask("page.shown.state.deterministic !== null"))
    page.choose_qubit(*page.ask("[[...page.shown.state.placement.places.keys()][0]]"))
    page.wait(lambda: page.texts("#about-errors .error") and "not known yet" not in page.find("about-errors").text)
    page.settle()
    assert page.ask(FACES) == 0


def test_the_ring_of_what_is_chosen_is_tight_and_numbers_at_the_edges_lie_on_nothing(open_page):
    page = open_page(CODE)
    page.choose_qubit(10)
    rings = "page.views.layout.elements().filter(({stroke, path}) => stroke === 'accent' && path).map(({path}) => path[1][3])"
    side = page.ask("page.views.layout.elements().find(({glyph}) => glyph === 'R0' || glyph === 'reset' || glyph).side")
    [radius] = page.ask(rings)
    assert side / 2 < radius <= side * 0.75
    # Where nothing acts, the ring is as tight at the qubit's own.
    page.go_to(3)
    page.choose_qubit(17)
    [radius] = page.ask(rings)
    [own] = page.ask("page.views.layout.elements().filter(({glyph, x, y}) => glyph === 'data' && Math.hypot(x - words[0], y - words[1]) < 1).map(({side}) => side * 0.74 / 2)", *page.spot(17))
    assert own + 2 < radius <= own * 1.6
    spots = page.ask("page.views.layout.elements().filter(({words, size, align}) => words && size === 12.5 && align !== 'left').map(({x, y}) => [x, y])")
    assert spots and all(x < 32 or y < 22 for x, y in spots)


@pytest.mark.parametrize("qubit", [10, 17])
def test_the_ring_does_not_cross_the_number_of_its_qubit(open_page, qubit):
    # At tick 3 a gate acts on qubit 10, and none on qubit 17.
    page = open_page(CODE)
    page.go_to(3)
    page.choose_qubit(qubit)
    page.settle()
    x, y = page.spot(qubit)
    [radius] = page.ask("page.views.layout.elements().filter(({stroke, path}) => stroke === 'accent' && path).map(({path}) => path[1][3])")
    [number] = page.ask("page.views.layout.elements().filter((it) => it.words === words[0])", str(qubit))
    # The upper left corner of the number is nearest to the middle of the ring, and digits are as high as three quarters of their size.
    corner = (number["x"] - x, number["y"] - y - number["size"] * 0.375)
    assert (corner[0] ** 2 + corner[1] ** 2) ** 0.5 > radius + 1.25


def test_a_long_item_is_seen_whole_and_what_is_refused_of_it_is_in_sight(open_page):
    page = open_page("R " + " ".join(map(str, range(28))) + "\nM 0\n")
    page.choose("0")
    page.settle()
    sizes = "(({scrollWidth, clientWidth, scrollHeight, clientHeight}) => [scrollWidth - clientWidth, scrollHeight - clientHeight])(document.getElementById('words'))"
    assert page.ask(sizes) == [0, 0]
    page.find("words").send_keys(" BAD", Keys.ENTER)
    page.wait(lambda: page.texts("#fault") and page.texts("#fault")[0].endswith("^^^"))
    # Carets are at the end of what is shown.
    assert page.ask("(({scrollLeft, scrollWidth, clientWidth}) => scrollLeft + clientWidth >= scrollWidth - 1 && scrollLeft > 0)(document.getElementById('fault'))")


# The rows whose words have no room, and how high each row is.
CUT_ROWS = """[...document.querySelectorAll('#text .row')].filter((it) => it.scrollHeight > it.clientHeight || it.scrollWidth > it.clientWidth).map((it) => it.dataset.path)"""
HEIGHTS = "Object.fromEntries([...document.querySelectorAll('#text .row')].map((it) => [it.dataset.path, [it.offsetTop, it.offsetHeight]]))"


@pytest.mark.parametrize("size", [(1280, 900), (800, 600)])
def test_long_items_are_wrapped_in_rows_that_have_room_for_them(open_page, size):
    page = open_page(CODE)
    with settled_emulation(page.browser):
        show(page, *size, 1)
        assert "17" in page.ask(CUT_ROWS) and {height for _, height in page.ask(HEIGHTS).values()} == {24}
        page.click("#lines")
        page.press("l")
        page.settle()
        found = page.ask(HEIGHTS)
        # A folded block says no more than there is room for.
        assert set(page.ask(CUT_ROWS)) <= {"36", "0+"} and found["17"][1] >= 48
        tops = sorted(found.values())
        assert all(top + height == after for (top, height), (after, _) in zip(tops, tops[1:]))
        # Arrows go from row to row.
        page.choose("17")
        page.press(Keys.ARROW_DOWN)
        assert page.ask("page.views.text.selected") == "18"
        page.press(Keys.ARROW_UP)
        assert page.ask("page.views.text.selected") == "17"
        page.click("#lines")
        page.press("l")
        page.settle()
        assert {height for _, height in page.ask(HEIGHTS).values()} == {24}


def test_the_circuit_as_one_text_is_wrapped_until_that_is_switched_off(open_page):
    page = open_page("R " + " ".join(map(str, range(40))) + "\nM 0\n")
    page.click("#as-text")
    page.wait(lambda: page.focused() == "source-text")
    across = "(({scrollWidth, clientWidth}) => scrollWidth - clientWidth)(document.getElementById('source-text'))"
    assert page.ask(across) == 0
    page.click("#wrap")
    assert page.ask(across) > 0
