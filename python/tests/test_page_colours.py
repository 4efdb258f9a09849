"""The contrast of the page's colours, by the formula of WCAG 2: 4.5 for text and 3 for marks, on each ground on which they are drawn."""

import json
import pathlib
import re

import pytest
from browsing import Keys, needs_browser
from stabsim import codes, page

FOLDER = pathlib.Path(page.__file__).parent / "static"
LEAST = {"text": 4.5, "mark": 3.0}
# On which grounds each colour is drawn, as text and as a mark.
GROUNDS = {
    "text": {
        "ink": "sheet paper well hover chosen flip-soft x-face y-face z-face op-face", "quiet": "sheet paper well hover chosen", "accent": "sheet well hover chosen", "bad": "sheet",
        "flip": "sheet well", "x": "sheet x-soft op-soft", "y": "sheet y-soft op-soft", "z": "sheet z-soft op-soft", "op": "sheet op-soft",
        "on-accent": "accent", "on-measure": "measure", "on-pauli": "x y z", "sheet": "ink",
    },
    "mark": {
        "qubit": "sheet x-face z-face op-face", "edge": "sheet well", "zero": "sheet well hover chosen", "one": "sheet well hover chosen",
        "wire": "sheet x-face z-face op-face", "accent": "sheet well hover x-face z-face", "flip": "sheet well hover chosen",
        "x": "sheet well hover chosen x-soft z-soft x-face z-face", "y": "sheet well hover chosen x-soft z-soft x-face z-face", "z": "sheet well hover chosen x-soft z-soft x-face z-face",
        "measure": "sheet x-face z-face", "quiet": "sheet well hover chosen", "ink": "sheet well hover chosen",
    },
}


def themes():
    """The colours of both themes; what the dark one does not name is as in the light one."""
    light, dark = ((FOLDER / "colours.css").read_text()).split(':root[data-theme="dark"]')
    found = [dict(re.findall(r"--([\w-]+): (#[0-9a-f]{6})", part)) for part in (light, dark)]
    return {"light": found[0], "dark": found[0] | found[1]}


def luminance(colour):
    parts = [int(colour[place : place + 2], 16) / 255 for place in (1, 3, 5)]
    linear = [part / 12.92 if part <= 0.03928 else ((part + 0.055) / 1.055) ** 2.4 for part in parts]
    return 0.2126 * linear[0] + 0.7152 * linear[1] + 0.0722 * linear[2]


def contrast(one, other):
    low, high = sorted((luminance(one), luminance(other)))
    return (high + 0.05) / (low + 0.05)


def test_the_formula_gives_what_is_known():
    assert contrast("#000000", "#ffffff") == pytest.approx(21)
    # The lightest grey that is text on white.
    assert contrast("#767676", "#ffffff") == pytest.approx(4.54, abs=0.01)


@pytest.mark.parametrize("kind", GROUNDS)
@pytest.mark.parametrize("theme", ["light", "dark"])
def test_colours_stand_out_from_their_grounds(theme, kind):
    colours = themes()[theme]
    low = {
        f"{name} on {ground}": round(contrast(colours[name], colours[ground]), 2)
        for name, grounds in GROUNDS[kind].items() for ground in grounds.split() if contrast(colours[name], colours[ground]) < LEAST[kind]
    }
    assert low == {}


def colour_in(tone):
    """How far a colour is from grey: by how much its greatest part is more than its least."""
    parts = [int(tone[at:at + 2], 16) for at in (1, 3, 5)]
    return max(parts) - min(parts)


@pytest.mark.parametrize("theme", ["light", "dark"])
def test_faces_of_checks_have_two_to_three_times_the_colour_of_regions(theme):
    colours = themes()[theme]
    assert all(2 <= colour_in(colours[f"{letter}-face"]) / colour_in(colours[f"{letter}-soft"]) <= 3 for letter in "xyz")


def test_each_role_of_the_shapes_is_measured():
    shapes = json.loads((FOLDER / "shapes.json").read_text())
    solid = {role[0] for role in shapes["roles"].values()} - {"op"}
    assert solid <= set(GROUNDS["mark"])


# The least contrast of what is written on the page, of each text with the ground under it, as the browser has computed both.
WRITTEN = """
const parse = (colour) => (colour.match(/[\\d.]+/g) ?? []).map(Number);
const groundOf = (it) => {
  for (; it; it = it.parentElement) {
    const [r, g, b, clear = 1] = parse(getComputedStyle(it).backgroundColor);
    if (clear === 1) return [r, g, b];
  }
  return [255, 255, 255];
};
const hex = (parts) => '#' + parts.slice(0, 3).map((part) => Math.round(part).toString(16).padStart(2, '0')).join('');
const found = [];
for (const it of document.querySelectorAll('body *')) {
  const isWritten = [...it.childNodes].some((node) => node.nodeType === 3 && node.data.trim());
  if (!isWritten || it.closest('svg, script') || !it.checkVisibility()) continue;
  found.push([it.tagName + ' ' + it.className + ' ' + it.textContent.trim().slice(0, 30), hex(parse(getComputedStyle(it).color)), hex(groundOf(it))]);
}
return [document.documentElement.dataset.theme, found];
"""


@needs_browser
@pytest.mark.parametrize("theme", ["light", "dark"])
def test_what_is_written_on_the_page_stands_out(open_page, theme):
    opened = open_page(codes.surface_code(3, 3))
    opened.browser.execute_cdp_cmd("Emulation.setEmulatedMedia", {"features": [{"name": "prefers-color-scheme", "value": theme}]})
    opened.go_to(6)
    opened.type_on(10, "x")
    opened.wait(lambda: len(opened.history()) == 2)
    opened.click("#about-distance .ask")
    opened.choose("0+")
    opened.press("i", "MXX 1", Keys.ENTER)
    opened.wait(lambda: opened.find("refusal").text)
    seen, written = opened.browser.execute_script(WRITTEN)
    opened.browser.execute_cdp_cmd("Emulation.setEmulatedMedia", {"features": []})
    assert seen == theme and len(written) > 100
    assert {text: round(contrast(*colours), 2) for text, *colours in written if contrast(*colours) < LEAST["text"]} == {}
