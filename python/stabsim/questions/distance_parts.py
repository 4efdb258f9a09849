"""Parts of a search for a distance, as `stabsim distance --part K/N` writes them, and the answer that all of them give together.

Part K of N tries only sets that begin with every Nth error, so what it has not found says nothing by itself. This needs no numpy.
"""

import re
from collections.abc import Iterable
from dataclasses import dataclass

PART = re.compile(r"part (?P<number>[1-9]\d*)/(?P<count>[1-9]\d*)\ntable (?P<table>\d+)\n(?P<none>(?:none of [1-9]\d*\n)*)"
                  r"(?:first (?P<first>\d+)\n(?P<found>distance (?P<size>[1-9]\d*) of [ -~]+\n(?P<errors>(?:\d+ [ -~]+\n)+))|(?P<nothing>none\n))?end\n")
BEGINNING = re.compile(r"part \d+/\d+\n")
NONE_OF = re.compile(r"none of (\d+)")


@dataclass(frozen=True)
class Part:
    """What a part says: of which search it is, up to how many errors it found no set, and what it answers, if anything.

    name: of its file; number: from 1 to `count`, how many parts there are; table: the digest of what is searched; first: of the set that it
    found, the number of the error that this begins with; size: how many errors the set has, 0 if there is none; answer: what `distance`
    writes of the set, or if no set of any size is unseen, and else an empty text.
    """

    name: str
    number: int
    count: int
    table: str
    excluded: int
    first: int
    size: int
    answer: str

    def has(self, size: int) -> bool:
        """Whether it has a set of this many errors, and was the first to look for as many. One that looked for more may find it too."""
        return self.size == size == self.excluded + 1


def part_of(name: str, text: str) -> Part:
    """The part that a text is; ValueError if it is none, or was cut off."""
    if not BEGINNING.match(text):
        raise ValueError(f"{name} is no part of a distance")
    if not text.endswith("\nend\n"):
        raise ValueError(f"{name} is torn: its last line is not `end`, so run that part again")
    read = PART.fullmatch(text)
    if read:
        none, size = [int(number) for number in NONE_OF.findall(read["none"])], int(read["size"] or 0)
        if none == [*range(1, len(none) + 1)] and size <= len(none) + 1 and size == (read["errors"] or "").count("\n"):
            return Part(name, int(read["number"]), int(read["count"]), read["table"], len(none), int(read["first"] or 0), size,
                        read["found"] or read["nothing"] or "")
    raise ValueError(f"{name} was changed: it is not what `distance --part` writes")


def merged(texts: Iterable[tuple[str, str]]) -> str:
    """What one run of `distance` writes, of all parts of it: the name of each, and its text. A ValueError says in a line what is wrong.

    If no part found a set, the answer is of sets of as many errors as each of them looked for.

    >>> one = "part 1/2\\ntable 81985529216486895\\nnone of 1\\nfirst 4\\ndistance 2 of all marked errors\\n2 1 X0 L0\\n2 1 X1\\nend\\n"
    >>> other = "part 2/2\\ntable 81985529216486895\\nnone of 1\\nnone of 2\\nend\\n"
    >>> print(merged([("a", one), ("b", other)]), end="")
    distance 2 of all marked errors
    2 1 X0 L0
    2 1 X1
    """
    parts = [part_of(name, text) for name, text in texts]
    expect_all(parts)
    without = [part for part in parts if part.answer and not part.size]
    if without:
        if len(without) < len(parts):
            other = next(part for part in parts if part not in without)
            raise ValueError(f"{without[0].name} says that there is no set of any size, and {other.name} does not")
        return without[0].answer
    sizes = [part.size for part in parts if part.size]
    if not sizes:
        return f"none up to {min(part.excluded for part in parts)}\n"
    size = min(sizes)
    found = sorted((part for part in parts if part.has(size)), key=lambda part: part.first)
    silent = next((part for part in parts if part.excluded < size and part not in found), None)
    if silent:
        raise ValueError(f"{silent.name} says nothing of {size} errors, and another part has such a set: "
                         f"run part {silent.number} again with --most {size}")
    if not found:
        raise ValueError(f"each part has no set of {size} errors by itself, and then one has such a set")
    return found[0].answer


def expect_all(parts: list[Part]) -> None:
    """Raises ValueError unless these are all parts of one search, each once."""
    if not parts:
        raise ValueError("there are no parts")
    expect_one(parts, "count", "they are not of as many parts")
    expect_one(parts, "table", "they are of different errors, so of other circuits, options or versions")
    names: dict[int, str] = {}
    for part in parts:
        if part.number in names:
            raise ValueError(f"{names[part.number]} and {part.name} are both part {part.number}")
        names[part.number] = part.name
    count = parts[0].count
    if max(names) > count:
        raise ValueError(f"{names[max(names)]} is no part: there are {count}")
    missing = sorted({*range(1, count + 1)} - {*names})
    if missing:
        raise ValueError(f"of {count} parts these are missing: {ranges_of(missing)}")


def ranges_of(numbers: list[int]) -> str:
    """Ascending numbers, as 2,5-7, which Slurm takes for an array."""
    known = {*numbers}
    firsts, lasts = ([number for number in numbers if number + step not in known] for step in (-1, 1))
    return ",".join(str(first) if first == last else f"{first}-{last}" for first, last in zip(firsts, lasts))


def expect_one(parts: list[Part], what: str, why: str) -> None:
    """Raises ValueError if parts differ in this."""
    other = next((part for part in parts if getattr(part, what) != getattr(parts[0], what)), None)
    if other:
        raise ValueError(f"{parts[0].name} and {other.name}: {why}")
