"""The tables of Stim's names on the page: what they name here is there, and if Stim is at hand they have each public name of its module."""

import dataclasses
import importlib.util
import inspect
import re
from types import ModuleType
from typing import get_args

import pytest
import stabsim
from pages import quoted, text_of
from program import TOP
from stabsim.diagrams import Kind

SECTION = text_of(TOP / "docs/use/stim.md").split("## Each name of Stim's module")[1]
# The rows of all tables, without their heads.
ROWS = [row for row in re.findall(r"^\| ([`a-z].*) \| (.*) \|$", SECTION, re.MULTILINE) if row[1] != "Here"]
CLASSES = [getattr(stabsim, name) for name in stabsim.__all__ if inspect.isclass(getattr(stabsim, name))]
NAME = re.compile(r"([A-Za-z]\w*)(?:\.([a-z]\w*))?(?:\(.*\)(?:\.([a-z]\w*))?)?")


def names_of(kind: type) -> set[str]:
    """The attributes of a class, with the fields of its objects."""
    fields = {field.name for field in dataclasses.fields(kind)} if dataclasses.is_dataclass(kind) else set()
    return {*dir(kind), *fields, *getattr(kind, "__annotations__", ())}


def is_here(word: str) -> bool:
    """Whether a word of the last column is one of the package: a name of its own, or of one of its classes."""
    found = NAME.fullmatch(word.removeprefix("stabsim."))
    # Texts of circuits and words of a shell are none.
    if not found or word.isupper() or word in get_args(Kind):
        return True
    first, *rest = filter(None, found.groups())
    every = {name for kind in CLASSES for name in names_of(kind)} | set(stabsim.__all__) | {"len"}
    if rest and inspect.isclass(getattr(stabsim, first, None)):
        return rest[0] in names_of(getattr(stabsim, first))
    return first in every and all(name in every for name in rest)


def test_what_the_tables_name_here_is_there() -> None:
    named = [word for _, here in ROWS for word in quoted(here)]
    assert len(named) > 50 and [word for word in named if not is_here(word)] == []


def test_each_row_says_yes_a_name_or_why_not() -> None:
    for names, here in ROWS:
        assert quoted(names) and (here.startswith(("yes", "no, because", "no, as the class")) or quoted(here)), names


def public_names(stim: ModuleType) -> set[str]:
    """The names of a module and of its classes, without those of operators."""
    names = {name for name in dir(stim) if not name.startswith("_") and not inspect.ismodule(getattr(stim, name))}
    classes = [getattr(stim, name) for name in names if inspect.isclass(getattr(stim, name))]
    return names | {name for kind in classes for name in vars(kind) if not name.startswith("_")}


def test_the_tables_have_each_public_name_of_stim() -> None:
    if importlib.util.find_spec("stim") is None:
        pytest.skip("no stim")
    said = {name for names, _ in ROWS for name in quoted(names)}
    said |= {re.sub("x_", f"{letter}_", name, count=1) for name in said if "x_" in name for letter in "yz"}
    assert sorted(public_names(importlib.import_module("stim")) - said) == []
