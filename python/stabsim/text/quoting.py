"""Refusals that quote the user's lines, of texts that were made of them."""

import re
from collections.abc import Sequence

from stabsim import program
from stabsim.errors import Refused
from stabsim.text.reading import PARTS, SPACING, WORD, Item, Line, content_of, items_of, lines_of, walk

# The path of an item, or of the item that takes a coin, as in c40@66/3.
ITEM = re.compile(r"(\bitem |\bc\d+@)(\d+(?:/\d+)*)")

# A line of more bytes is quoted in part: this many of them, of which some are in front of what carets are under, between these dots.
MOST_WHOLE = 120
WINDOW = 100
BEFORE = 40
CUT = ".."

# An argument, which has no spacing around it.
ARGUMENT = re.compile(r"[^(),\s](?:[^(),]*[^(),\s])?")

# Where a word begins and ends in its line.
Span = tuple[int, int]


def quoted(line: Line, word: str | int, *sentences: str, is_argument: bool = False) -> str:
    """A line with carets under one of its targets, or of its arguments, by its text or number, or under all of its content, and what is
    said of it."""
    spans = (argument_spans if is_argument else target_spans)(line.text)
    hit = spans[word : word + 1] if isinstance(word, int) else [span for span in spans if line.text[slice(*span)] == word]
    return "\n".join([*marked(by_bytes(line), hit[0] if hit else content_span(line)), *sentences])


def by_bytes(line: Line) -> Line:
    """A line in which each byte is a character, so that columns are bytes, as `check` counts them."""
    text = program.bytes_of(line.text).decode("latin-1").removesuffix("\r")
    return Line(line.number, text, content_of(text))


def shown(text: str) -> str:
    """A line's bytes as `check` shows them."""
    return "".join(" " if byte in SPACING else byte if "!" <= byte <= "~" else "?" for byte in text)


def marked(line: Line, span: Span) -> list[str]:
    """A line with its number, and carets below a part of it. A long line is shown in part, as by `check`."""
    start, end = 0, len(line.text)
    if end > MOST_WHOLE:
        start = max(span[0] - BEFORE, 0)
        end = min(start + WINDOW, end)
    head = f"{line.number}: {CUT if start else ''}"
    carets = max(min(span[1], end) - span[0], 1)
    return [head + shown(line.text[start:end]) + (CUT if end < len(line.text) else ""), " " * (len(head) + span[0] - start) + "^" * carets]


def as_written(refused: Refused, made: Sequence[str], origins: Sequence[int], items: Sequence[Item], text: str) -> Refused:
    """A refusal of a text that was made of the user's, as one of the user's.

    made: its lines; origins: the number of the user's line that each comes from; items: its items, with the user's lines, if there are
    such; text: the user's.
    """
    lines = refused.explanation.split("\n")
    number = lines[0].partition(": ")[0]
    if number.isdigit() and len(lines) > 1:
        place = int(number) - 1
        written = next(line for line in lines_of(text) if line.number == origins[place])
        made_line = by_bytes(Line(place + 1, made[place], ""))
        lines[:2] = requoted(by_bytes(written), made_line, lines[0], lines[1])
    line = None if refused.line is None else origins[refused.line - 1]
    explanation = "\n".join(lines)
    if ITEM.search(explanation):
        paths = paths_in(items, text)
        explanation = ITEM.sub(lambda found: found[1] + paths.get(found[2], found[2]), explanation)
    return Refused(refused.number, refused.name, line, explanation)


def requoted(line: Line, made: Line, quote: str, carets: str) -> list[str]:
    """The user's line with carets under what is in a made one above those of its quote."""
    head = len(f"{made.number}: ")
    part = quote[head:]
    if part != shown(made.text):
        # A part of a long line is between dots where it was cut.
        head += len(CUT) * part.startswith(CUT)
        part = part.removeprefix(CUT).removesuffix(CUT)
    start = shown(made.text).find(part) + carets.find("^") - head
    span = (start, start + carets.count("^"))
    return marked(line, span if made.text == line.text else moved(span, made.text, line))


def moved(span: Span, made: str, line: Line) -> Span:
    """Where the user's line has what a made one has at a span of targets: at the same targets, or at one of the same words or number."""
    start, end = span
    ours, theirs = target_spans(made), target_spans(line.text)
    hit = [place for place, (first, behind) in enumerate(ours) if first < end and start < behind]
    if not hit:
        return content_span(line)
    words = [line.text[slice(*place)] for place in theirs]
    wanted = made[slice(*ours[hit[0]])]
    # Letters in front of a qubit, as those of errors, are no part of what is judged.
    if len(ours) == len(theirs) and words[hit[0]].endswith(wanted):
        first, last = theirs[hit[0]], theirs[hit[-1]]
        return first[1] - (ours[hit[0]][1] - start), last[1] - (ours[hit[-1]][1] - end)
    number = re.findall(r"\d+", made[start:end])[:1]
    same = [place for place, word in zip(theirs, words) if word == wanted]
    alike = [place for place, word in zip(theirs, words) if number and number[0] in re.findall(r"\d+", word)]
    return (same or alike or [content_span(line)])[0]


def target_spans(text: str) -> list[Span]:
    """Where the targets of a line are."""
    cut = PARTS.match(text.split("#", 1)[0])
    return [found.span() for found in WORD.finditer(cut.string, cut.start(5))] if cut else []


def argument_spans(text: str) -> list[Span]:
    """Where the arguments of a line are."""
    cut = PARTS.match(text.split("#", 1)[0])
    return [found.span() for found in ARGUMENT.finditer(cut.string, cut.start(4), cut.end(4))] if cut else []


def content_span(line: Line) -> Span:
    """Where a line's content is."""
    start = len(line.indentation)
    return start, start + len(line.content)


def paths_in(items: Sequence[Item], text: str) -> dict[str, str]:
    """For each path of items that were made of a text, that of the text's item which they come from."""
    by_line = {item.line: item.path for item in walk(items_of(text))}
    return {item.path: by_line[item.line] for item in walk(items) if item.line in by_line}
