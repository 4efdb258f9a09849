"""Rounds of a block that are blocks by themselves."""

import re
from typing import NamedTuple

from stabsim import program
from stabsim.session.history import Request
from stabsim.session.script import delete_line
from stabsim.text.reading import block_of, headed, lines_like

LINE = re.compile(r"^.*$", re.MULTILINE)


class Part(NamedTuple):
    """A block of some rounds of another."""

    rounds: int
    text: str


def head_of(text: str) -> tuple[int, int, str]:
    """Of a block, the number of the line that opens it, its rounds, and its tag; ValueError if a text is none. No more than that line is
    looked at, since the block may be long."""
    for line in lines_like(text, LINE):
        if line.opens:
            head = block_of(line, "")
            return line.number, head.repeat, head.tag
        if line.content:
            break
    raise ValueError("this is no block")


def parts_of_block(text: str, round_number: int) -> list[Part]:
    """The blocks that a block becomes if one of its rounds, counted from 0, is split off: the rounds before it, that round,
    and the rounds after it, without those that have none. ValueError if the text is no block or has no such round."""
    opening, repeat, tag = head_of(text)
    if not 0 <= round_number < repeat:
        raise ValueError("there is no such round")
    body = text.rstrip().split("\n", opening)[opening]
    rounds = (round_number, 1, repeat - round_number - 1)
    return [Part(count, f"{headed('REPEAT', tag)} {count} {{\n{body}") for count in rounds if count]


def longest_part(parts: list[Part]) -> int:
    """Which of these blocks has the most rounds: the first that does, counted from 0."""
    rounds = [part.rounds for part in parts]
    return rounds.index(max(rounds))


def place_behind(place: str, number: int = 1) -> str:
    """The path of the item this many places after the one at a path, in the same list."""
    *outer, last = place.split("/")
    return "/".join([*outer, str(int(last) + number)])


def joining(path: str, block: str, round_number: int) -> tuple[Request, ...]:
    """The edits that take a split back: the longest part becomes the whole block, and the others go, the last one first. So there
    are never fewer records than at the end, and no lookback is refused on the way. None if the block has no such round: the split
    itself is then refused."""
    try:
        parts = parts_of_block(block, round_number)
    except ValueError:
        return ()
    longest = longest_part(parts)
    places = [place_behind(path, number) for number in range(len(parts))]
    replaced = f"replace {places[longest]}"
    whole = Request(lines_of_block(replaced, block), lines_of_block(replaced, parts[longest].text))
    others = [(place, part.text) for place, part in zip(places, parts, strict=True) if place != places[longest]]
    return (whole, *(Request(delete_line(place), lines_of_block(f"insert {place}", part)) for place, part in reversed(others)))


def lines_of_block(words: str, block: str) -> bytes:
    """`edit_lines` of a block that is known to be whole, since the session wrote it: it is not looked through."""
    return program.bytes_of(f"{words} {block.strip()}\n")
