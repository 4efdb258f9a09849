#!/usr/bin/env python3
"""Prints the reference of the library: each name that crates/stabsim_library passes on, with its doc comment and signature, and of a type
its public calls, as the sources have them. Words choose: tools/reference.py Session."""

import re
import sys
from collections.abc import Iterator
from string import ascii_uppercase

from program import TOP

FACADE = "stabsim_library"
PASSED_ON = re.compile(r"^pub use (stab_\w+)::(?:(\w+)|\{([^}]*)\});", re.MULTILINE)
ITEM = re.compile(r"pub (?:fn|struct|enum|trait) (\w+)\b")
IMPL = re.compile(r"impl(?:<.*?>)? (\w+)(?:<.*)? \{$")
# What comes after a signature: its clauses, or its body.
AFTER = re.compile(r"\s*(?:requires|ensures|ghost|where|\{)")


def names_passed_on(crate: str = FACADE) -> dict[str, str]:
    """The names that a crate passes on of others, each with that other."""
    text = (TOP / "crates" / crate / "src" / "lib.rt").read_text(encoding="utf-8")
    found = ((other, one or several) for other, one, several in PASSED_ON.findall(text))
    return {name.strip(): other for other, names in found for name in names.split(",") if name.strip()}


def comment_before(lines: list[str], at: int) -> list[str]:
    """The doc comment of the item at a line, above its attributes."""
    start = at
    while start and re.match(r"\s*(?:///|#\[)", lines[start - 1]):
        start -= 1
    return [line.strip() for line in lines[start:at] if line.lstrip().startswith("///")]


def signature(lines: list[str], at: int) -> str:
    """The signature of the function at a line, in one line."""
    parts = [lines[at].strip()]
    while not parts[-1].endswith((";", "{")) and not AFTER.match(lines[at + len(parts)]):
        parts.append(lines[at + len(parts)].strip())
    return " ".join(parts).removesuffix(" {").replace("( ", "(").replace(", )", ")")


def shown(lines: list[str], at: int) -> list[str]:
    """What is shown of the item at a line: a function's signature, or a type with what is public in it."""
    if " fn " in lines[at]:
        return [signature(lines, at)]
    if not lines[at].endswith("{"):
        return [lines[at]]
    public = ("    pub ",) if "struct" in lines[at] else ("    fn ", *(f"    {letter}" for letter in ascii_uppercase))
    parts = [it for it in range(at + 1, lines.index("}", at)) if lines[it].startswith(public)]
    return [lines[at], *(f"    {line.strip()}" for it in parts for line in (*comment_before(lines, it), lines[it])), "}"]


def calls_of(lines: list[str], name: str) -> Iterator[int]:
    """The lines of the public calls of a type."""
    owner = ""
    for at, line in enumerate(lines):
        if impl := IMPL.match(line):
            owner = impl[1]
        elif not line.startswith((" ", "#")) and line:
            owner = ""
        if owner == name and line.startswith("    pub fn "):
            yield at


def entry(crate: str, name: str) -> list[str]:
    """A name as the reference has it, or nothing if it isn't defined in the crate."""
    head: list[str] = []
    calls: list[str] = []
    for file in sorted((TOP / "crates" / crate / "src").rglob("*.rt")):
        lines = file.read_text(encoding="utf-8").split("\n")
        for at, line in enumerate(lines):
            if (item := ITEM.match(line)) and item[1] == name:
                head += [*comment_before(lines, at), *shown(lines, at)]
        for at in calls_of(lines, name):
            calls += ["", *(f"    {line}" for line in (*comment_before(lines, at), *shown(lines, at)))]
    return head + calls


def main() -> None:
    names = names_passed_on()
    for name in sys.argv[1:] or sorted(names):
        if name not in names:
            sys.exit(f"reference: {FACADE} has no {name}")
        print(f"{name}, of {names[name]}", *entry(names[name], name), "", sep="\n")


if __name__ == "__main__":
    main()
