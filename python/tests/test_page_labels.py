"""What is written on the page in windows of any size: none of it is cut off, and nothing lies over it."""

import pytest
from browsing import Keys, needs_browser
from random_hands import settled_emulation
from stabsim import codes
from test_page_marks import mark, take_layer
from test_page_sizes import CODE, SIZES, UNREACHED, show

pytestmark = needs_browser

# Words and fields that reach out of what cuts them off, as a pane does, or out of the window. What is scrolled is left out, and so are rows of the
# text and the text as one, which are wrapped if that is asked for.
CUT_OFF = """(() => {
  const found = [];
  const cuts = (style, way) => /strict|paint|content/.test(style.contain) || ['hidden', 'clip'].includes(style[`overflow${way}`]);
  const scrolls = (style, way) => ['auto', 'scroll'].includes(style[`overflow${way}`]);
  const isOut = (box, from) => {
    const left = { X: true, Y: true };
    for (let it = from; it; it = it.parentElement) {
      const [style, room] = [getComputedStyle(it), it.getBoundingClientRect()];
      if (left.X && !scrolls(style, 'X') && cuts(style, 'X') && (box.left < room.left - 1 || box.right > room.right + 1)) return true;
      if (left.Y && !scrolls(style, 'Y') && cuts(style, 'Y') && (box.top < room.top - 2 || box.bottom > room.bottom + 2)) return true;
      for (const way of 'XY') left[way] &&= !scrolls(style, way);
    }
    return (left.X && (box.left < -1 || box.right > innerWidth + 1)) || (left.Y && (box.top < -2 || box.bottom > innerHeight + 2));
  };
  const isThere = (it) => it.checkVisibility({ visibilityProperty: true }) && !it.closest('script, svg, .unseen, #text, #source, #seen');
  const walker = document.createTreeWalker(document.body, NodeFilter.SHOW_TEXT);
  for (let node = walker.nextNode(); node; node = walker.nextNode()) {
    if (!node.data.trim() || !isThere(node.parentElement)) continue;
    const range = document.createRange();
    range.selectNodeContents(node);
    if ([...range.getClientRects()].some((box) => isOut(box, node.parentElement))) found.push(node.data);
  }
  for (const it of document.querySelectorAll('input:not([type=file]), textarea, select')) {
    if (isThere(it) && (isOut(it.getBoundingClientRect(), it.parentElement) || it.scrollWidth > it.clientWidth)) found.push(it.id);
  }
  return found;
})()"""
ALL_SIZES = ((1280, 900, 1), (1440, 900, 1), *SIZES.values(), (375, 667, 1))
# The first item of the block, and a moment in a round of it.
INSIDE = (36, 1)


@pytest.fixture
def at_sizes(open_page):
    """Gives the page with a circuit, in windows of all sizes one after another."""
    def shown(text):
        page = open_page(text)
        with settled_emulation(page.browser):
            for size in ALL_SIZES:
                show(page, *size)
                yield page

    return shown


def show_pane(page, pane):
    """Shows a pane, if tabs do."""
    if page.find("tabs").is_displayed() and page.ask("document.querySelector('main').dataset.pane") != pane:
        page.click(f"#tabs [data-pane={pane}]")
    page.settle()


def cut_off_beside_the_foot(page):
    return [it for it in page.ask(CUT_OFF) if it not in page.find("message").get_attribute("textContent")]


def test_no_words_are_cut_off_and_all_of_an_item_in_a_block_is_reached(at_sizes):
    for page in at_sizes(CODE):
        page.ask("page.shown.select(words[0])", INSIDE)
        page.choose_qubit(10)
        page.ask("page.shown.select(words[0])", INSIDE)
        for pane in ("circuit", "inspector", "time"):
            show_pane(page, pane)
            assert cut_off_beside_the_foot(page) == [], pane
        show_pane(page, "circuit")
        assert page.find("round").is_displayed() and page.ask(UNREACHED) == []
        page.ask("page.shown.showItem([page.shown.state.items.length])")
        assert page.find("entry-label").get_attribute("textContent") == "the end" and cut_off_beside_the_foot(page) == []


def test_a_refusal_is_seen_whole_at_its_item_and_below_it(at_sizes):
    for page in at_sizes(CODE):
        show_pane(page, "circuit")
        page.ask("page.shown.select(words[0])", INSIDE)
        page.focus("#text")
        page.press("i")
        page.wait(lambda: page.focused() == "words")
        page.find("words").send_keys("BADGATE 3", Keys.ENTER)
        page.wait(lambda: page.find("refusal").text)
        page.settle()
        # What the foot has no room for is said by a click there too.
        assert cut_off_beside_the_foot(page) == [] and "Look at its spelling" in page.find("why").text
        left, _, across, _ = page.box("#text .refusal")
        row, _, width, _ = page.box("#text .row.selected")
        assert row <= left and left + across <= row + width + 1
        page.press(Keys.ESCAPE)


def test_the_field_of_an_item_shows_whole_lines(at_sizes):
    for page in at_sizes("R " + " ".join(map(str, range(90))) + "\nM 0\n"):
        show_pane(page, "circuit")
        page.ask("page.shown.select([0])")
        page.settle()
        height = page.box("#words")[3]
        # Lines of 18 pixels, between rims of 4.
        assert height >= 44 and (height - 8) % 18 == pytest.approx(0, abs=0.1)


# Of words on the picture from where to where they reach across.
REACH = """words[0].map((said) => page.views.layout.elements().find(({ words }) => words === said)).map(({ words, x, size }) => {
  const pen = new OffscreenCanvas(1, 1).getContext('2d');
  pen.font = `${size}px ${getComputedStyle(document.documentElement).getPropertyValue('--sans')}`;
  return [x - pen.measureText(words).width / 2, x + pen.measureText(words).width / 2];
})"""
HINT = ["Press q, and click where a qubit shall be.", "A circuit may be dropped here, pasted or opened."]
# How wide the gutter at the left is, and how high the one at the top.
LEFT, TOP = 32, 22


def test_what_is_said_of_an_empty_picture_is_beside_its_gutter(at_sizes):
    for page in at_sizes(None):
        across = page.box("#picture")[2]
        assert all(LEFT <= left and right <= across for left, right in page.ask(REACH, HINT))


# From where to where what is drawn round a qubit reaches, with letters and numbers beside it.
AROUND = """(() => {
  const [x, y] = words[0];
  const near = page.views.layout.elements().filter(({ path, stroke }) => path?.[1]?.[0] === 'A' && ['ink', 'accent'].includes(stroke) && Math.hypot(path[1][1] - x, path[1][2] - y) < 1);
  const letters = page.views.layout.elements().filter((it) => it.words === '7' && it.weight === 700);
  return [near.map(({ path: [, [, left, top, radius]] }) => [left - radius, top - radius]), letters.map((it) => [it.x - 4.5, it.y - 5])];
})()"""


def test_nothing_round_the_outermost_qubits_lies_below_the_gutters(at_sizes):
    marked = []
    for page in at_sizes(CODE):
        if not marked:
            # The ancillas at (0, 4) and at (2, 0).
            marked = [page.ask("[...page.shown.state.placement.places].find(([, [x, y]]) => x === words[0] && y === words[1])[0]", *at) for at in ((0, 4), (2, 0))]
            take_layer(page, 7)
            for qubit in marked:
                mark(page, 6, qubit, "x")
            page.wait(lambda: page.ask("page.shown.layers.way(7)"))
        page.click("#fit")
        for qubit in marked:
            page.choose_qubit(qubit)
            page.settle()
            rings, letters = page.ask(AROUND, page.spot(qubit))
            assert len(rings) >= 2 and letters
            assert all(left >= LEFT and top >= TOP for left, top in rings + letters)


def test_numbers_in_the_gutters_are_whole(at_sizes):
    for page in at_sizes(CODE):
        _, _, across, down = page.box("#picture")
        for _ in range(12):
            page.ask("page.views.layout.pan(5, 5)")
            page.settle()
            numbers = page.ask("page.views.layout.elements().filter(({ words, size, fill, halo }) => words && size === 12.5 && fill === 'quiet' && !halo)"
                               ".map(({ words, x, y, align }) => [words.length, x, y, align ?? 'center'])")
            assert len(numbers) > 6
            assert all(x + letters * 4 <= across if align == "center" else y + 6 <= down for letters, x, y, align in numbers)


@pytest.mark.parametrize("size", [(390, 844, 1), (720, 450, 2)])
def test_menus_and_all_keys_have_the_width_of_a_small_window(open_page, size):
    page = open_page(CODE)
    with settled_emulation(page.browser):
        show(page, *size)
        show_pane(page, "inspector")
        page.click("#about-rate .ask")
        page.wait(lambda: page.find("choice").is_displayed())
        assert "phenomenological: data qubits and records of checks, each round" in page.texts("#choice button")
        boxes = page.ask("[...document.querySelectorAll('#choice button')].map((it) => it.getBoundingClientRect()).map(({ left, right }) => [left, right])")
        assert all(0 <= left and right <= size[0] for left, right in boxes)
        assert page.ask("[...document.querySelectorAll('#choice button')].every((it) => it.scrollWidth <= it.clientWidth)")
        page.press(Keys.ESCAPE)
        page.focus("#picture")
        page.press("?")
        page.wait(lambda: page.find("keys").is_displayed())
        assert page.ask("document.getElementById('keys').scrollWidth <= document.getElementById('keys').clientWidth")
        # Its lines are no narrower than a few words.
        assert min(page.ask("[...document.querySelectorAll('#keys dd')].map((it) => it.clientWidth)")) > 120


def test_a_message_that_has_no_room_is_told_whole_by_a_click(open_page):
    page = open_page(CODE)
    with settled_emulation(page.browser):
        show(page, 390, 844, 1)
        page.ask("page.send([{ kind: 'insert', place: '0', item: 'BADGATE 3' }])")
        page.wait(lambda: page.find("message").text.startswith("BADGATE 3"))
        page.point_at("#message").click().perform()
        page.wait(lambda: page.texts("#choice button") == ["BADGATE 3 · No instruction has this name. Look at its spelling, or take the line out."])
        page.press(Keys.ESCAPE)
        page.settle()
        # One that has room opens nothing.
        page.ask("page.send([{ kind: 'insert', place: '0', item: 'TICK' }])")
        page.wait(lambda: page.find("message").text == "")
        page.browser.execute_script("document.getElementById('message').click()")
        assert not page.find("choice").is_displayed()


def test_the_text_as_one_begins_with_its_first_line_and_shows_the_word_at_fault(open_page):
    lines = ["H 0", "TICK"] * 101
    page = open_page("\n".join(lines) + "\n")
    page.click("#as-text")
    page.wait(lambda: page.focused() == "source-text")
    field = "(({ scrollTop, clientHeight, scrollHeight }) => [scrollTop, clientHeight, scrollHeight])(document.getElementById('source-text'))"
    top, height, all_of_it = page.ask(field)
    assert top == 0 and all_of_it > 2 * height
    # Unwrapped and wrapped: lines of 18 pixels, below a rim of 4, none of which is so long that it takes two.
    for line, name in ((5, "BAD_A"), (120, "BAD_B"), (120, "BAD_C"), (201, "BAD_D"), (201, "BAD_E")):
        page.click("#wrap")
        page.browser.execute_script("const it = document.getElementById('source-text'); it.value = arguments[0]; it.focus(); it.scrollTo(0, 900);",
                                    "\n".join([*lines[:line], f"{name} 3", *lines[line:]]) + "\n")
        page.press(Keys.ENTER, held=[Keys.CONTROL])
        page.wait(lambda: page.texts("#message mark") == [name])
        page.settle()
        top, height, _ = page.ask(field)
        assert top <= 4 + 18 * line and 4 + 18 * (line + 1) <= top + height


# What is written on the wires, each with its box, and the rings there.
ON_WIRES = """(() => {
  const elements = page.views.wires.elements();
  const partners = elements.filter((it) => it.words && it.fill === 'quiet' && it.halo).map(({ words, x, y }) => [words, x - 4 * words.length, y - 5, x + 4 * words.length, y + 5]);
  const rings = elements.filter(({ path, stroke }) => stroke === 'ink' && path[1]?.[0] === 'A').map(({ path: [, [, x, y, radius]] }) => [x, y, radius]);
  const pairs = elements.filter(({ glyph }) => glyph === 'control' || glyph === 'xtarget').map(({ x, y, side }) => [x, y, 0.84 * side / 2 + 0.8]);
  return [partners, rings.concat(pairs), document.querySelector('#wires canvas').clientHeight];
})()"""


def test_numbers_of_partners_on_the_wires_lie_on_no_mark_and_are_whole(open_page):
    page = open_page("R 0 1 25\nTICK\nCX 0 25 1 24\nTICK\nCX 25 0\nTICK\nM 0 1 25\n")
    page.click("#wires-there")
    take_layer(page, 3)
    for qubit in (0, 1):
        mark(page, 1, qubit, "x")
    page.wait(lambda: page.ask("page.shown.layers.way(3)"))
    page.choose_qubit(0, 1)
    page.settle()
    partners, marks, height = page.ask(ON_WIRES)
    # Two rings, and what acts on both lines.
    assert sorted(words for words, *_ in partners) == ["24", "25", "25"] and len(marks) == 2 + 3
    for _, left, top, right, bottom in partners:
        assert bottom <= height
        for x, y, radius in marks:
            across, down = max(left - x, x - right, 0), max(top - y, y - bottom, 0)
            # What is written has a rim that nothing else is seen through.
            assert (across ** 2 + down ** 2) ** 0.5 >= radius + 1.5


def test_marks_of_ticks_do_not_cross_the_numbers_of_ticks(open_page):
    page = open_page(codes.surface_code(3, 3))
    with settled_emulation(page.browser):
        for size in ((390, 844, 1), (1280, 900, 1)):
            show(page, *size)
            show_pane(page, "time")
            marks = page.ask("page.views.timeline.elements().filter(({ stroke, width }) => stroke === 'edge' && width === 2).flatMap(({ path }) => path).filter(([kind]) => kind === 'L').map(([, x, y]) => [x, y])")
            numbers = page.ask("page.views.timeline.elements().filter((it) => it.words && it.y === 30 && !it.align).map(({ words, x, y }) => [words.length * 4, x, y - 5])")
            assert len(marks) > 9 and len(numbers) > 2
            assert all(low <= top or abs(x - middle) >= half for x, low in marks for half, middle, top in numbers)
