"""What the tools read of the crates: the functions in their sources, with their types and the labels of their clauses."""

import functools
import re
from collections.abc import Iterator
from dataclasses import dataclass, field
from pathlib import Path

from program import TOP

FUNCTION = re.compile(r"( *)(?:pub(?:\([^)]*\))? )?fn (\w+)")
IMPL = re.compile(r"impl.*?(\w+)(?:<[^{]*>)? \{")
CLAUSE = re.compile(r" *(requires|ensures)\*? (\w+) \{")


@dataclass
class Function:
    """A function: the number of its first line, or of its attributes', its type, if any, whether a trait states it, and its clauses' labels."""

    start: int
    type: str
    name: str
    in_trait: bool
    requires: list[str] = field(default_factory=list)
    ensures: list[str] = field(default_factory=list)

    def full_name(self) -> str:
        return f"{self.type}::{self.name}" if self.type else self.name


@functools.cache
def functions_of(file: Path) -> list[Function]:
    """The functions of a source, in order."""
    found: list[Function] = []
    owner, in_trait, in_head, attributes = "", False, False, 0
    for number, line in enumerate(file.read_text(encoding="utf-8").split("\n")):
        if re.match(r"\S", line):
            in_trait = "trait " in line or in_trait and not line.startswith("}")
        if impl := IMPL.match(line):
            owner = impl[1]
        attributes = attributes + 1 if line.lstrip().startswith("#[") else attributes
        if function := FUNCTION.match(line):
            found.append(Function(number - attributes, owner if function[1] else "", function[2], in_trait))
            in_head = True
        elif in_head and (clause := CLAUSE.match(line)):
            getattr(found[-1], clause[1]).append(clause[2])
        elif in_head and (line.strip() == "{" or line.endswith(";")):
            in_head = False
        attributes = attributes if line.lstrip().startswith("#[") else 0
    return found


def sources_of() -> Iterator[Path]:
    yield from sorted(TOP.glob("crates/*/src/**/*.rt"))
