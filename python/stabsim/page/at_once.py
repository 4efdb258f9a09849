"""Many edits of a circuit's text at once: a session is opened on what they make sooner than it makes them one by one."""

from collections.abc import Iterable, Iterator, Sequence
from dataclasses import dataclass

import numpy as np
from numpy.typing import NDArray

from stabsim.page.edits import Edit, undoing
from stabsim.page.explaining import refuse_unread
from stabsim.page.nearby import lines_and_begins, touched
from stabsim.session.rounds import parts_of_block
from stabsim.session.script import edit_lines
from stabsim.text.carrying import written_back


@dataclass
class Opened:
    """A block: the line that opens it, without its spacing, and what is in it."""

    head: str
    nodes: "list[Node]"


# A line without the spacing around it, or a block.
Node = str | Opened


def made_at_once(text: str, edits: Sequence[Edit], is_printed: bool) -> tuple[str, list[list[Edit]]]:
    """The text that edits make of a circuit's, as a session writes it, or with noise in tags as the program prints it, and for each what takes it
    back. Refused, ValueError or IndexError if one can't be made; whether the program takes what they make all in all is not looked at."""
    lines, begins, letters = lines_and_begins(text)
    first, end = touched(edits, len(begins) - 1)
    nodes = nodes_of(lines[begins[first]:begins[end]])
    taken = [apply(nodes, edit, first) for edit in edits]
    undone = [undoing(edit, written_back(old, comments=False) if is_printed else old) for edit, old in zip(edits, taken, strict=True)]
    made = "".join(f"{line}\n" for line in lines_in(nodes))
    return text[:letters[begins[first]]] + made + text[letters[begins[end]]:], undone


def apply(nodes: list[Node], edit: Edit, first: int) -> str:
    """Makes one edit of items, of which the outermost list's first has this number; answers the text of the item that was at its place, if it is
    no new one."""
    if edit.kind == "open":
        raise ValueError("another circuit is opened by itself")
    *outer, place = map(int, edit.place.split("/"))
    for number in outer:
        block = nodes[number - first]
        if not isinstance(block, Opened):
            raise ValueError(f"there is no block on the way to {edit.place}")
        nodes, first = block.nodes, 0
    place -= first
    if edit.kind == "insert":
        if place > len(nodes):
            raise IndexError(f"there is no place {edit.place}")
        nodes.insert(place, node_of(edit.item))
        return ""
    old = "\n".join(lines_in([node])) if isinstance(node := nodes[place], Opened) else node
    if edit.kind == "split":
        nodes[place:place + 1] = [node_of(part.text) for part in parts_of_block(old, int(edit.item))]
    else:
        nodes[place:place + 1] = [node_of(edit.item)] if edit.kind == "replace" else []
    return old


def node_of(item: str) -> Node:
    """The node of one item's text; Refused or ValueError if it is not one line or one whole block, or if the page shows no such item."""
    refuse_unread(item)
    if "{" in item or "\n" in item:
        edit_lines("insert 0", item)
    elif item.strip() not in ("", "}"):
        return item.strip()
    [node] = nodes_of(item.split("\n"))
    return node


def nodes_of(lines: Iterable[str]) -> list[Node]:
    """The nodes of lines whose blocks are whole."""
    open_lists: list[list[Node]] = [[]]
    for line in map(str.strip, lines):
        if line == "}":
            open_lists.pop()
        elif line.endswith("{"):
            block = Opened(line, [])
            open_lists[-1].append(block)
            open_lists.append(block.nodes)
        elif line:
            open_lists[-1].append(line)
    return open_lists[0]


def lines_in(nodes: Iterable[Node], depth: int = 0) -> Iterator[str]:
    """The lines of nodes, indented as deep as they are."""
    margin = "    " * depth
    for node in nodes:
        if isinstance(node, str):
            yield margin + node
        else:
            yield margin + node.head
            yield from lines_in(node.nodes, depth + 1)
            yield margin + "}"


def differing(before: Sequence[NDArray[np.bool_]], now: Sequence[NDArray[np.bool_]]) -> list[str]:
    """Which detectors and observables differ, of those that are there before and now."""
    found = []
    for letter, was, there in zip("DL", before, now, strict=True):
        both = min(len(was), len(there))
        found += [f"{letter}{number}" for number in np.flatnonzero(was[:both] != there[:both]).tolist()]
    return found
