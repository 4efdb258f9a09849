"""The one text of a list of items."""

from collections.abc import Iterable, Iterator
from typing import Any

from .reading import COLLAPSES, CONTROLLED, WITH_COORDINATES, Block, Item, Operation


def target_text(name: str, target: Any) -> str:
    if name in ("DETECTOR", "OBSERVABLE_INCLUDE"):
        return f"rec[-{target}]"
    if name == "MPP":
        return "*".join(f"{'!' if inverted else ''}{letter}{qubit}" for letter, qubit, inverted in target)
    if name in CONTROLLED and isinstance(target, tuple):
        return f"rec[-{target[1]}]"
    if name in COLLAPSES:
        return f"{'!' if target[1] else ''}{target[0]}"
    return str(target)


def head_text(name: str, tag: bytes) -> bytes:
    return name.encode() + (b"[" + tag + b"]" if tag else b"")


def arguments_text(operation: Operation) -> bytes:
    if operation.number is not None:
        return f"({operation.number})".encode()
    if operation.name in WITH_COORDINATES and operation.arguments:
        return b"(" + b", ".join(operation.arguments) + b")"
    return b""


def lines_of(items: Iterable[Item], depth: int = 0) -> Iterator[bytes]:
    """The lines, each with four spaces for every open block."""
    indent = b"    " * depth
    for item in items:
        if isinstance(item, Block):
            yield indent + head_text("REPEAT", item.tag) + f" {item.count} {{".encode()
            yield from lines_of(item.body, depth + 1)
            yield indent + b"}"
        else:
            targets = "".join(" " + target_text(item.name, target) for target in item.targets)
            yield indent + head_text(item.name, item.tag) + arguments_text(item) + targets.encode()


def printed(items: Iterable[Item]) -> bytes:
    return b"".join(line + b"\n" for line in lines_of(items))
