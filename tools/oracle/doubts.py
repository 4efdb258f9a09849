"""Marks that may be meant in another way, and what is told of them."""

from .numbers import unrolled
from .reading import Items, Operation

# Tags that are taken as they say; XYZ says what a mark without a tag does.
PLAIN = (b"", b"X", b"Y", b"Z", b"XZ", b"XYZ", b"pairs")


def doubt_about(mark: Operation) -> str | None:
    """What is doubtful in a mark."""
    pairs = list(zip(mark.targets[::2], mark.targets[1::2]))
    if mark.tag == b"pairs" and any(first == second for first, second in pairs):
        return "a pair of a qubit with itself"
    if mark.tag == b"pairs" and len(mark.targets) % 2:
        return "pairs of an odd number of targets, so the last is marked by itself"
    is_almost_plain = not mark.tag.upper().strip(b"XYZ") or mark.tag.upper() == b"PAIRS"
    return "the tag is none of X, Y, Z, XZ and pairs, so all letters are marked" if is_almost_plain and mark.tag not in PLAIN else None


def told(items: Items) -> bytes:
    """The lines of the doubtful marks of a circuit, one for each item."""
    marks = {path: it for path, it in unrolled(items) if it.name == "I" and it.targets}
    doubts = ((path, doubt_about(mark)) for path, mark in marks.items())
    return "".join(f"stabsim: item {path}: {doubt}\n" for path, doubt in doubts if doubt).encode()
