#!/usr/bin/env python3
"""Prints the functions, types and constants of the crates' sources, and the definitions and lemmas of specs/ and proofs/, that nothing uses:
names that stand nowhere but where they are written. A lemma counts as used if another one, an answer or an attribute names it.

Usage: unused_names.py"""

import re
import sys
from collections import Counter
from pathlib import Path

from program import TOP

# Programs and tests call what is there for others: what only they have is no matter of this list.
CALLERS = ("bench", "rows", "stabsim", "tests_library", "tests_program", "tests_refusals", "tests_ways", "tour")
WORD = re.compile(r"[^\s(){}\[\],;.:=→λ|&!*<>/?\"']+(?:'[^\s(){}\[\],;.:=→λ|&!*<>/?\"']*)*")
ITEM = re.compile(r"\b(?:fn|struct|enum|trait|const|type)\s+(\w+)")
SIGNED = re.compile(r"\s*(?:(?:abbrev|opaque|pub|record|data)\s+)*([^\s(){}\[\],;:=→λ]+)(?:\s+[({][^)}]*[)}])*\s*:(?!:)")
RECORD = re.compile(r"\s*(?:abbrev\s+|pub\s+)*(?:record|data)\s+[^{]*where")
MODIFIERS = ("pub", "abbrev", "opaque", "record", "data")
# What the first line of an equation has.
HEAD = re.compile(r" =( |$)")
USES = re.compile(r"use [\w.]+(?:\.\{[^}]*\}| as \S+)")


def without_comments(text: str, mark: str) -> str:
    return re.sub(rf"^\s*{mark}.*$", "", re.sub(rf"\s{mark}\s.*$", "", text, flags=re.MULTILINE), flags=re.MULTILINE)


def named_in_proofs(text: str) -> tuple[set[str], Counter[str]]:
    """The names that a file of definitions or lemmas makes, apart from fields, and how often each word is used in it: not at the head of its
    own lines, nor in imports."""
    made: dict[tuple[int, str], None] = {}
    used: Counter[str] = Counter()
    field_depth = 0
    for line in USES.sub("", without_comments(text, "--")).split("\n"):
        depth = len(line) - len(line.lstrip())
        if depth < field_depth or not line.strip():
            field_depth = 0
        if RECORD.match(line):
            field_depth = depth + 2
        found = SIGNED.match(line) if not field_depth or depth < field_depth else None
        if found and not line.rstrip().endswith(("{", ";", ",")):
            made[depth, found[1]] = None
        words = [word for word in WORD.findall(line) if word not in MODIFIERS]
        is_head = bool(words) and (depth, words[0]) in made and (found is not None or HEAD.search(line) is not None)
        used.update(words[1:] if is_head else words)
    return {name for _, name in made}, used


def unused() -> list[tuple[Path, str]]:
    """Where each name stands that nothing uses, and the name."""
    made: list[tuple[Path, str]] = []
    used: Counter[str] = Counter()
    for file in sorted(TOP.glob("crates/*/src/**/*.rt")):
        text = without_comments(file.read_text(encoding="utf-8"), "//")
        used.update(WORD.findall(text))
        for_others = file.relative_to(TOP).parts[1] in CALLERS or file.name.endswith("laws.rt")
        names = set() if for_others else set(ITEM.findall(text))
        used.subtract(names)
        made += [(file, name) for name in names]
    for file in sorted((*TOP.glob("crates/*/specs/**/*.antt"), *TOP.glob("crates/*/proofs/**/*.antt"))):
        names, words = named_in_proofs(file.read_text(encoding="utf-8"))
        used.update(words)
        if file.name not in ("Answers.antt", "Invariants.antt"):
            made += [(file, name) for name in names]
    return [(file, name) for file, name in made if used[name] <= 0]


def main() -> int:
    found = unused()
    for file, name in found:
        print(f"{file.relative_to(TOP)}: nothing uses {name}")
    return bool(found)


if __name__ == "__main__":
    sys.exit(main())
