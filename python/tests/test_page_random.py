"""A person who does anything at all on the page: nothing goes wrong, and at the end it shows what a page loaded anew shows."""

import pytest
from browsing import needs_browser
from random_hands import Hands, settled_emulation
from stabsim import codes

pytestmark = needs_browser

BLOCK = "R 0 1\nREPEAT 3 {\n    TICK\n    CX 0 1\n    TICK\n    MR 1\n    DETECTOR rec[-1]\n}\nTICK\nM 0\nOBSERVABLE_INCLUDE(0) rec[-1]\n"
COIN = "RX 0\nR 1 2\nTICK\nM 0 1\nDETECTOR rec[-1]\nDETECTOR rec[-2]\nMPP X0*Z1 Z2\nDETECTOR(0, 0, 1) rec[-1]\n"
NESTED = "R 3 5\nREPEAT 2 {\n    REPEAT 2 {\n        H 3\n        TICK\n    }\n    M 3\n}\n"
# Gates that the program reads as others, with comments.
WRITTEN = "# two\nRX 0 1\nTICK\nISWAP 0 1 # and more\nREPEAT 2 {\n    H_XY 0\n    MXX 0 1\n    TICK\n}\nDETECTOR rec[-1] rec[-2]\n"
NOISY = "R 0 1\nX_ERROR(0.1) 0 1\nTICK\nCX 0 1\nDEPOLARIZE2(0.01) 0 1\nREPEAT 2 {\n    TICK\n    MR(0.02) 1\n    E(0.1) X0 Z1\n    DETECTOR rec[-1]\n}\nHERALDED_ERASE(0.1) 0\nM 0\n"
CIRCUITS = (BLOCK, codes.surface_code(3, 3), COIN, NESTED, WRITTEN, NOISY)
RUNS, EVENTS = 20, 300
# Lets go of all that a page loaded anew does not have, and answers what is chosen.
LET_GO = """(() => {
  const { shown, views } = page;
  for (const name of ['keys', 'asking']) document.getElementById(name).close();
  for (const name of ['source', 'search-words']) document.getElementById(name).hidden = true;
  document.getElementById('choice').hidden || document.body.click();
  shown.takeTool('pick');
  for (const layer of shown.layers.used) shown.layers.clear(layer);
  if (shown.layers.at !== null) shown.layers.take(shown.layers.at);
  shown.hover(null);
  document.getElementById('since').value = 'edit';
  shown.showSince('edit');
  shown.takeFaces(true);
  shown.takeWires(false);
  views.text.takeWrap(false);
  document.documentElement.removeAttribute('style');
  document.querySelector('main').dataset.pane === 'circuit' || document.querySelector('#tabs button').click();
  const kept = { chosen: shown.chosen, moment: shown.moment, bit: shown.bit, theme: document.documentElement.dataset.theme };
  return kept;
})()"""
# Chooses the same, and has all panes show what they show at first.
CHOOSE = """(async () => {
  const { shown, views } = page;
  const { chosen, moment, bit } = words[0];
  document.activeElement.blur();
  views.text.letGo();
  views.entry.show(null, null, 0);
  shown.goTo(0);
  shown.goTo(moment);
  shown.chooseAll(chosen);
  views.text.letGo();
  views.entry.show(null, null, 0);
  await shown.chooseBit(bit);
  views.layout.fit();
})()"""
# Of how many pixels what is seen on a view's canvas is another than on one that is drawn anew. Where only a part is drawn anew the rims of
# lines come out a little otherwise: so a pixel is the same if its colours lie between those next to it on the other, or near them: two
# colours of the page that lie beside each other are at least 30 apart.
UNLIKE = """(() => {
  const MOST = 24;
  const seenOn = (canvas) => {
    const { width, height } = canvas;
    const pen = new OffscreenCanvas(width, height).getContext('2d', {willReadFrequently: true});
    pen.fillStyle = getComputedStyle(canvas.closest('section')).backgroundColor;
    pen.fillRect(0, 0, width, height);
    pen.drawImage(canvas, 0, 0);
    return { width, height, colours: pen.getImageData(0, 0, width, height).data };
  };
  const isSeen = ({ width, height, colours }, at, value) => {
    const [x, y] = [(at >> 2) % width, Math.floor((at >> 2) / width)];
    let [least, most] = [255, 0];
    for (let down = Math.max(0, y - 1); down <= Math.min(height - 1, y + 1); down += 1) {
      for (let across = Math.max(0, x - 1); across <= Math.min(width - 1, x + 1); across += 1) {
        const it = colours[4 * (down * width + across) + (at & 3)];
        [least, most] = [Math.min(least, it), Math.max(most, it)];
      }
    }
    return value >= least - MOST && value <= most + MOST;
  };
  return ['layout', 'timeline'].map((name) => {
    const canvas = document.querySelector(name === 'layout' ? '#picture canvas' : '#timeline');
    if (!canvas.width || !canvas.height) return 0;
    const before = seenOn(canvas);
    canvas.width += 1;
    page.views[name].drawNow();
    const anew = seenOn(canvas);
    const unlike = new Set();
    anew.colours.forEach((value, at) => {
      const other = before.colours[at];
      if (Math.abs(value - other) > MOST && !(isSeen(before, at, value) && isSeen(anew, at, other))) unlike.add(at >> 2);
    });
    return unlike.size;
  });
})()"""
# All that views show.
SHOWN = """(() => {
  const { shown, views } = page;
  const text = (id) => document.getElementById(id).textContent;
  return {
    title: document.title, numbers: text('numbers'), name: text('name'), moment: text('moment-said') + text('round-said'),
    rows: [...document.querySelectorAll('#text .row')].map((it) => it.dataset.path + ' ' + it.className + ' ' + it.textContent),
    inspector: text('inspector'), history: [...document.querySelectorAll('#edits li')].map((it) => it.className + it.textContent), layout: JSON.stringify(views.layout.elements()),
    timeline: JSON.stringify(views.timeline.elements()), undo: document.getElementById('undo').disabled, redo: document.getElementById('redo').disabled,
    circuit: page.text(), bits: [shown.state.detectors.join(''), shown.state.observables.join(''), [...shown.state.flipped].join(), shown.state.deterministic?.join('')],
  };
})()"""


# Whether the server's table of what errors flip is there, which is made after an edit.
HAS_TABLE = "page.link.ask({ ask: 'faults', moment: 0, qubit: 0 }).then(({ flips }) => (flips ?? null) !== null)"


def shown_with(page, kept):
    """All that the page shows with the same chosen, once nothing more is to come."""
    page.settle()
    page.wait(lambda: page.ask("page.shown.state.deterministic !== null"))
    page.wait(lambda: page.ask(HAS_TABLE))
    page.ask(CHOOSE, kept)
    page.settle()
    assert page.ask(UNLIKE) == [0, 0]
    return page.ask(SHOWN)


@pytest.mark.parametrize("seed", range(RUNS))
def test_after_random_events_all_is_as_on_a_page_loaded_anew(open_page, seed):
    page = open_page(CIRCUITS[seed % len(CIRCUITS)])
    page.browser.get_log("browser")
    with settled_emulation(page.browser):
        hands = Hands(page, seed, CIRCUITS)
        hands.play(EVENTS)
        page.settle()
        kept = page.ask(LET_GO)
        before = shown_with(page, kept)
        page.browser.refresh()
        page.wait(lambda: page.ask("page.shown.state !== null"))
        page.ask("words[0] === document.documentElement.dataset.theme || document.getElementById('theme').click()", kept["theme"])
        after = shown_with(page, kept)
    assert [it["message"] for it in page.browser.get_log("browser")] == [], hands.done
    assert {name: (value, after[name]) for name, value in before.items() if after[name] != value} == {}


# What another picture follows from: (what is done, whether it is seen on the qubits, and on time).
ACTS = (
    ("shown.choose(13)", True, False), ("shown.goTo(5)", True, True), ("shown.takeFaces(false)", True, False), ("views.layout.pan(3, 0)", True, False),
    ("shown.chooseBit('D3')", True, True), ("shown.showSince('mark')", False, False),
)


@pytest.mark.parametrize("act, on_qubits, on_time", ACTS)
def test_what_was_not_drawn_anew_is_unlike_what_is(open_page, act, on_qubits, on_time):
    page = open_page(CIRCUITS[1])
    page.wait(lambda: page.ask(HAS_TABLE))
    page.go_to(6)
    page.settle()
    assert page.ask("page.shown.scene().faces.length")
    assert page.ask(UNLIKE) == [0, 0]
    page.ask("(() => { for (const view of [page.views.layout, page.views.timeline]) view.draw = () => {}; })()")
    page.ask(f"(() => {{ const {{ shown, views }} = page; {act}; }})()")
    page.settle()
    assert [count > 0 for count in page.ask(UNLIKE)] == [on_qubits, on_time]
