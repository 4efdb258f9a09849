"""Stim's text as one that the program reads and prints, in which noise, comments and instructions that it does not read ride along.

Each item stays one item. If the program would lose something of it, all of it is in the item's tag, after a mark and escaped: of a channel,
which has no steps, in that of a TICK; of a measurement with a chance of a wrong record in its own; of an instruction that becomes several
in that of a block of one round with these. Comments and blank lines ride with the item below them, and those below all items of a list with
a TICK after these. So the program edits and prints noise as it does all else, and the way back is exact.
"""

import functools
import re
from collections.abc import Callable, Iterable, Iterator, Sequence
from dataclasses import replace

from stabsim.program import text_of
from stabsim.text.names import FIRST, NOISE
from stabsim.text.profile import Made, made_of, spare_qubit
from stabsim.text.reading import SPACING, Block, Instruction, Item, Line, Parts, content_of, headed, lines_of, parts_of, walk
from stabsim.text.written import printed

MARK = "~"
MARKED = f"[{MARK}"
ESCAPES = {"\\": "\\B", "]": "\\C", "#": "\\H", "\n": "\\n", "\r": "\\r"}
ESCAPED = {letters[1]: letter for letter, letters in ESCAPES.items()}
# A line with what rides in its tag; and what rides with a block of the user's, less the number of rounds.
RIDDEN = re.compile(rf"([ \t]*)([A-Z_0-9]+)\[{MARK}([^\]]*)\](.*)")
OWN_BLOCK = re.compile(r"(REPEAT(?:\[[^\]]*\])?)\{(.*)", re.DOTALL)
# What rides with an instruction that the program has as it is, less its arguments and targets, in whose place this sign is.
OWN = "&"
OWN_LINE = re.compile(rf"([A-Z_0-9]+(?:\[[^\]]*\])?){OWN}(.*)", re.DOTALL)
CLOSING = "}"
# A blank line; the end of the last line makes none.
BLANK = re.compile(r"\n[ \t\r]*(?:\n|(?<=[ \t\r])\Z)")


def escaped(text: str) -> str:
    """A text as a tag has it."""
    return re.sub(r"[\\\]#\n\r]", lambda it: ESCAPES[it[0]], text)


def unescaped(tag: str) -> str:
    """The text that a tag has."""
    return re.sub(r"\\([BCHnr])", lambda it: ESCAPED[it[1]], tag)


def ridden(name: str, riding: Sequence[str], arguments: Sequence[str] = (), targets: Sequence[str] = ()) -> str:
    """An instruction with lines in its tag."""
    return str(Instruction(0, name, MARK + escaped("\n".join(riding)), tuple(arguments), tuple(targets)))


def carried(text: str, comments: bool = True, others: Callable[[], str] = lambda: "") -> str:
    """A text of Stim's that was judged, as the program's; comments: whether they ride along; others: answers a text whose qubits known
    records leave alone too. An edit may have parted an ELSE_CORRELATED_ERROR from those that it follows: an error model refuses that."""
    if not text:
        return ""
    spare = functools.cache(lambda: spare_qubit(f"{others()}\n{text}"))
    lines: list[str] = []
    above: list[str] = []
    for line in lines_of(text.removesuffix("\n")):
        if not line.content:
            above += [line.text.strip(SPACING)] if comments else []
            continue
        lines += list(carried_line(line, above, comments, functools.partial(made_of, before=FIRST, spare=spare)))
        above = []
    return "\n".join([*lines, *trailing(above), ""])


def with_comments(text: str) -> str:
    """A text in which only comments and blank lines ride: instructions stay as they are. Other lines than those are not looked at."""
    if not text:
        return ""
    if "#" not in text and MARKED not in text and not BLANK.search(f"\n{text}"):
        return text.removesuffix("\n") + "\n"
    lines: list[str] = []
    above: list[str] = []
    for number, written in enumerate(text.removesuffix("\n").split("\n"), start=1):
        if not above and "#" not in written and MARKED not in written and written.strip(SPACING):
            lines.append(written)
            continue
        line = Line(number, written, content_of(written))
        if line.content:
            lines += list(carried_line(line, above, True, made_of_itself))
            above = []
        else:
            above.append(written.strip(SPACING))
    return "\n".join([*lines, *trailing(above), ""])


def made_of_itself(line: Line, parts: Parts) -> Made:
    """What a line becomes that stays as it is."""
    return Made([line.text], [line.text], [line.text])


def trailing(above: Sequence[str]) -> list[str]:
    """What comments become that no item of their list follows."""
    return [ridden("TICK", above)] if above else []


def carried_line(line: Line, above: Sequence[str], comments: bool, make: Callable[[Line, Parts], Made]) -> Iterator[str]:
    """What a line becomes with the comments above it; make: what an instruction becomes by itself."""
    written = line.text.strip(SPACING) if comments else line.content
    has_comment = written != line.content
    if line.closes:
        yield from trailing([*above, written] if has_comment else above)
        yield CLOSING
        return
    parts = line.parts
    is_plain = not above and not has_comment and not (parts and parts.tag.startswith(MARK))
    if parts is None or line.opens:
        yield line.content if is_plain or parts is None else carried_head(line, above, written)
        return
    made = make(line, parts)
    if is_plain and made.circuit == [line.text]:
        yield line.content
    else:
        own = f"{headed(parts.name, parts.tag)}{OWN}"
        if made.circuit != [line.text]:
            # As the program prints it, which it does of all else.
            own = str(Instruction(line.number, parts.name, parts.tag, parts.arguments, tuple(map(printed, parts.targets))))
        yield from carried_instruction([*above, own + written[len(line.content):]], made)


def carried_head(line: Line, above: Sequence[str], written: str) -> str:
    """What the line that opens a block becomes."""
    assert line.parts, "a block has a count"
    comment = written[len(line.content) :]
    head = f"{headed('REPEAT', line.parts.tag)}{{{comment}"
    return f"{ridden('REPEAT', [*above, head], targets=line.parts.targets)} {{"


def carried_instruction(riding: Sequence[str], made: Made) -> Iterator[str]:
    """What an instruction becomes, of which these lines ride along."""
    quiet = [parts_of(content_of(line)) for line in made.circuit]
    if not quiet:
        yield ridden("TICK", riding)
    elif len(quiet) == 1 and quiet[0]:
        yield ridden(quiet[0].name, riding, quiet[0].arguments, quiet[0].targets)
    else:
        yield f"{ridden('REPEAT', riding, targets=['1'])} {{"
        yield from carried_gates(quiet, map(content_of, made.noisy))
        yield CLOSING


def carried_gates(quiet: Sequence[Parts | None], noisy: Iterable[str]) -> Iterator[str]:
    """What the lines that one instruction becomes are by themselves; quiet: those of them that are no channels, without noise."""
    without = iter(quiet)
    for line in noisy:
        own = parts_of(line)
        assert own, "what is made are instructions"
        parts = None if own.name in NOISE else next(without)
        if parts is None:
            yield ridden("TICK", [line])
        else:
            yield line if own == parts else ridden(parts.name, [line], parts.arguments, parts.targets)


def written_back(text: str, comments: bool = True) -> str:
    """The text of Stim's that one of the program's carries; comments: with those that ride along."""
    if MARKED not in text:
        return text
    return "".join(its for its, _ in lines_back(text.removesuffix("\n").split("\n"), comments))


def lines_back(lines: Iterable[str], comments: bool) -> Iterator[tuple[str, bool]]:
    """What lines of the program's become, each with line ends; and whether the next one is part of what came before."""
    is_skipped, closing = False, ""
    for line in lines:
        its: Sequence[str] = (line,)
        if is_skipped:
            its, is_skipped = (), line.strip(SPACING) != CLOSING
        elif MARKED in line:
            its, is_skipped, ending = line_back(line, comments)
            closing = closing if ending is None else ending
        elif closing and line.strip(SPACING) == CLOSING:
            its, closing = (line + closing,), ""
        yield "".join([f"{it}\n" for it in its]), is_skipped or bool(closing)


class TextBack:
    """The text of Stim's that one of the program's carries, without comments; after an edit the lines that changed are looked at alone."""

    def __init__(self) -> None:
        self.lines: list[bytes] = []
        # What each line becomes, and whether the next one is part of what came before.
        self.parts: list[tuple[str, bool]] = []

    def of(self, lines: list[bytes]) -> str:
        """The text of lines of the program's."""
        first, old, parts = alike(self.lines, lines, 1), self.lines, self.parts
        while first and parts[first - 1][1]:
            first -= 1
        last = min(alike(old, lines, -1), len(old) - first, len(lines) - first)
        while last and len(old) > last and parts[len(old) - last - 1][1]:
            last -= 1
        new = list(lines_back(map(text_of, lines[first : len(lines) - last]), False))
        if last and new and new[-1][1]:
            last, new = 0, list(lines_back(map(text_of, lines[first:]), False))
        self.lines, self.parts = lines, [*parts[:first], *new, *parts[len(old) - last :]]
        return "".join([its for its, _ in self.parts])


def alike(one: Sequence[object], other: Sequence[object], way: int) -> int:
    """How many letters or lines two texts have alike: the first ones, if the way is 1, or the last ones, if it is -1."""
    low, high = 0, min(len(one), len(other)) + 1
    while low + 1 < high:
        middle = (low + high) // 2
        some = [slice(low, middle) if way > 0 else slice(len(its) - middle, len(its) - low) for its in (one, other)]
        low, high = (middle, high) if one[some[0]] == other[some[1]] else (low, middle)
    return low


@functools.lru_cache(maxsize=1 << 16)
def line_back(line: str, comments: bool) -> tuple[tuple[str, ...], bool, str | None]:
    """The lines that ride in one of the program's, or itself; whether the rest of a block that it opens is left out; and if it stands for
    comments below a list, what is after the brace that closes this."""
    found = RIDDEN.fullmatch(line)
    if not found:
        return (line,), False, None
    indentation, name, tag, rest = found.groups()
    riding = unescaped(tag).split("\n")
    own = (OWN_BLOCK if name == "REPEAT" else OWN_LINE).fullmatch(riding[-1])
    if own:
        riding[-1] = f"{own[1]}{rest}{own[2]}"
    ending = None
    if name == "TICK" and riding[-1].startswith(CLOSING):
        ending = riding.pop()[1:] if comments else riding.pop()[:0]
    its = riding if comments else filter(None, map(content_of, riding))
    return tuple((indentation + it).rstrip(SPACING) for it in its), name == "REPEAT" and not own, ending


def below_comments(old: Item, new: Item) -> Item:
    """An item of `with_comments` in the place of another, below the comments of that."""
    above = riding_of(old)[:-1]
    return replace(new, tag=MARK + escaped("\n".join([*above, *riding_of(new)]))) if above else new


def riding_of(item: Item) -> list[str]:
    """The lines that ride with an item, its own line the last; of a block, without its rounds."""
    if item.tag.startswith(MARK):
        return unescaped(item.tag[1:]).split("\n")
    return [headed(item.name, item.tag) + ("{" if isinstance(item, Block) else OWN)]


def above_in(text: str) -> list[str]:
    """The comments that ride above the item of a text of the program's."""
    found = RIDDEN.fullmatch(text.split("\n", 1)[0])
    return unescaped(found[3]).split("\n")[:-1] if found else []


def stands_for_one(item: Item) -> bool:
    """Whether an item of the program's is a block that stands for one instruction of the user's."""
    return isinstance(item, Block) and item.tag.startswith(MARK) and not OWN_BLOCK.fullmatch(unescaped(item.tag[1:]).split("\n")[-1])


def original_of(item: Instruction) -> Instruction:
    """The instruction that a carried one was, or itself."""
    if not item.tag.startswith(MARK):
        return item
    riding = unescaped(item.tag[1:]).split("\n")[-1]
    own = OWN_LINE.fullmatch(riding)
    parts = parts_of(content_of(own[1] if own else riding))
    assert parts, "an instruction rides in its own tag"
    return replace(item, tag=parts.tag) if own else Instruction(item.line, *parts, item.path)


def cut_path(path: str, made: frozenset[str]) -> str:
    """The path of the user's item that a path of the program's leads to or into."""
    places = path.split("/")
    return next((head for head in ("/".join(places[:count]) for count in range(1, len(places))) if head in made), path)


def paths_made(items: Sequence[Item]) -> frozenset[str]:
    """The paths of the blocks that stand for one instruction."""
    return frozenset(item.path for item in walk(items) if stands_for_one(item))
