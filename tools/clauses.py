"""Which definitions the clauses of a public function name."""

import functools
import re
from collections.abc import Iterator
from pathlib import Path

from program import TOP

USE = re.compile(r"\s*ghost use Rattle\.(\w+\.)specs\.([\w.]+)\.\{(.*)\};")
USE_AS = re.compile(r"\s*ghost use Rattle\.(\w+\.)specs\.([\w.]+) as (\w+);")
FUNCTION = re.compile(r" *(?:pub )?fn (\w+)")
CLAUSE = re.compile(r" *(?:requires|ensures)\*? \w+ \{(.*)\}$")
NAME = re.compile(r"[^\s()\[\]{},;:.λ→×⊎≡∷]+")

# A file of definitions, as a crate and a path with dots, and a name in it.
Place = tuple[str, str]


def imported(lines: list[str]) -> dict[str, Place]:
    """Where the names of a source's clauses are from; `a.` is for all names of a file that is used as a."""
    found: dict[str, Place] = {}
    for line in lines:
        if used := USE.match(line):
            pairs = (name.strip().partition(" as ") for name in used[3].split(","))
            found |= {here or there: (used[1] + used[2], there) for there, _, here in pairs}
        elif used := USE_AS.match(line):
            found[f"{used[3]}."] = used[1] + used[2], ""
    return found


def places_in(text: str, known: dict[str, Place]) -> Iterator[Place]:
    """What a text names, operators as they are defined: with a place for what is on each side."""
    words = set(NAME.findall(text))
    yield from (known[word] for word in words | {f"◌{word}◌" for word in words} if word in known)
    yield from ((known[used][0], name) for used, name in re.findall(r"(\w+\.)(\w+)", text) if used in known)


@functools.cache
def clauses_of(file: Path) -> dict[str, str]:
    """The clauses of each function of a source, by its name."""
    found: dict[str, str] = {}
    name = ""
    for line in file.read_text(encoding="utf-8").split("\n"):
        if function := FUNCTION.match(line):
            name = function[1]
        elif name and (clause := CLAUSE.match(line)):
            found[name] = found.get(name, "") + "\n" + clause[1]
    return found


def named_by(call: str) -> set[str]:
    """What the clauses of public functions name: of one of a crate, as `stab_session::apply`, or of all of a crate or of one of its modules,
    as `stab_io::*` and `stab_session::session::*`."""
    crate, *module, function = call.split("::")
    source = TOP / "crates" / crate / "src"
    files = [file for it in module for file in (source / f"{it}.rt", *(source / it).rglob("*.rt"))] or source.rglob("*.rt")
    found: set[Place] = set()
    for file in sorted(files):
        known = imported(file.read_text(encoding="utf-8").split("\n"))
        for name, text in clauses_of(file).items():
            if function in ("*", name):
                found |= set(places_in(text, known))
    return {f"{file}.{name}" for file, name in found}
