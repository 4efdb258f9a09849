"""Pictures as SVG, in the colours of the light or the dark theme, or of that which their reader has."""

import html
from collections.abc import Iterable, Sequence
from typing import Literal

from stabsim.diagrams.elements import Element, Glyph, Path, Words, number
from stabsim.diagrams.shapes import elements_of, families, palettes, table

Theme = Literal["auto", "light", "dark"]
# What a pattern draws in a square of 6 pixels.
MARKS = {
    "dots": '<path d="M2 2h2v2h-2z" class="fill-{name}"/>',
    "rising": '<path d="M-1 1L1 -1M0 6L6 0M5 7L7 5" class="line-{name}"/>',
    "level": '<path d="M0 3.5H6" class="line-{name}"/>',
}


def svg_of(elements: Sequence[Element], width: float, height: float, theme: Theme, title: str) -> str:
    """A whole picture. Its classes and patterns have the theme in their names, so that several pictures may be in one notebook."""
    if theme not in ("auto", "light", "dark"):
        raise ValueError(f"the theme is auto, light or dark, and not {theme}")
    drawn: list[Path | Words] = []
    for it in elements:
        drawn += elements_of(it) if isinstance(it, Glyph) else [it]
    size = f'width="{number(width)}" height="{number(height)}" viewBox="0 0 {number(width)} {number(height)}"'
    lines = [f'<svg xmlns="http://www.w3.org/2000/svg" {size} class="stabsim-{theme}" role="img">', f"<title>{html.escape(title)}</title>"]
    lines += ["<style>", *style_of(drawn, theme), "</style>", *patterns_of(drawn, theme)]
    lines.append('<rect width="100%" height="100%" class="fill-sheet"/>')
    lines += [path_text(part, theme) if isinstance(part, Path) else words_text(part) for part in drawn]
    return "\n".join([*lines, "</svg>"]) + "\n"


def style_of(drawn: Iterable[Path | Words], theme: Theme) -> list[str]:
    """The rules of the colours that are used."""
    fills, lines = {"sheet"}, set()
    for it in drawn:
        fills.add(it.fill)
        lines.add(it.stroke if isinstance(it, Path) else it.halo)
        if isinstance(it, Path) and it.hatch:
            fills.add(it.hatch.lower())
            lines.add(it.hatch.lower())
    light, dark = palettes()
    rules = [f".stabsim-{theme} .{family}{{font-family:{letters}}}" for family, letters in sorted(families().items())]
    rules += rules_of(dark if theme == "dark" else light, fills, lines, theme)
    if theme == "auto":
        rules += ["@media (prefers-color-scheme:dark){", *rules_of(dark, fills, lines, theme), "}"]
    return rules


def rules_of(palette: dict[str, str], fills: set[str], lines: set[str], theme: Theme) -> list[str]:
    """The rules of a theme's colours, in the order of their names."""
    found = [f".stabsim-{theme} .fill-{name}{{fill:{palette[name]}}}" for name in sorted(fills - {""})]
    return found + [f".stabsim-{theme} .line-{name}{{stroke:{palette[name]}}}" for name in sorted(lines - {""})]


def patterns_of(drawn: Iterable[Path | Words], theme: Theme) -> list[str]:
    """The patterns of letters that are used."""
    letters = sorted({it.hatch for it in drawn if isinstance(it, Path) and it.hatch})
    found = []
    for letter in letters:
        mark = MARKS[table()["hatch"][letter]].format(name=letter.lower())
        found.append(f'<pattern id="stabsim-{theme}-{letter}" width="6" height="6" patternUnits="userSpaceOnUse"><g opacity=".55">{mark}</g></pattern>')
    return ["<defs>", *found, "</defs>"] if found else []


def path_text(path: Path, theme: Theme) -> str:
    """A path, and its pattern over it."""
    classes = [f"fill-{path.fill}"] * bool(path.fill) + [f"line-{path.stroke}"] * bool(path.stroke)
    words = [f'd="{"".join(path.commands)}"', f'class="{" ".join(classes)}"']
    words += ['fill="none"'] * (not path.fill)
    if path.stroke:
        words.append(f'stroke-width="{number(path.width)}" stroke-linejoin="round" stroke-linecap="round"')
    if path.dash:
        words.append(f'stroke-dasharray="{" ".join(map(number, path.dash))}"')
    if path.alpha < 1:
        words.append(f'opacity="{number(path.alpha)}"')
    whole = f"<path {' '.join(words)}/>"
    if path.hatch:
        whole += f'<path d="{"".join(path.commands)}" fill="url(#stabsim-{theme}-{path.hatch})"/>'
    return whole


def words_text(words: Words) -> str:
    """A line of text, whose place is its middle."""
    family = "mono" if words.is_mono else "sans"
    rim = f' line-{words.halo}" stroke-width="3" paint-order="stroke' if words.halo else ""
    place = f'x="{number(words.x)}" y="{number(words.y + words.size * 0.35)}"'
    look = f'font-size="{number(words.size)}" font-weight="{words.weight}" text-anchor="{words.anchor}"'
    return f'<text {place} {look} class="{family} fill-{words.fill}{rim}">{html.escape(words.text)}</text>'
