"""The folders of the package: each begins with a page on it, and a module imports from its own folder and those before it alone."""

import ast
import importlib
import pathlib
import re

import pytest
import stabsim

TOP = pathlib.Path(stabsim.__file__).parent
FOLDERS = sorted(it.parent.name for it in TOP.glob("*/__init__.py"))
# The order is that of the package's page. Of what is beside that page, some is for all to use, and all else, the commands, comes last.
FIRST = ("errors", "checking", "program", "bars", "streams")
ORDER = [it for it in re.findall(r"`(\w+)`", stabsim.__doc__.split("in this order: ")[1].split("`codes`")[0]) if it not in FIRST]
RANKS = {**dict.fromkeys(FIRST, 0), "codes": 1, **{folder: rank for rank, folder in enumerate(ORDER, start=1)}}


class Types(ast.NodeTransformer):
    """Takes out what is imported for types alone."""

    def visit_If(self, node):
        return [] if isinstance(node.test, ast.Name) and node.test.id == "TYPE_CHECKING" else self.generic_visit(node)


def parts_imported(path):
    """The folders, and modules beside the package's page, that a module imports, in functions too."""
    for node in ast.walk(Types().visit(ast.parse(path.read_text(encoding="utf-8")))):
        if isinstance(node, ast.Import):
            named = [it.name for it in node.names]
        else:
            named = [f"{node.module}.{it.name}" for it in node.names] if isinstance(node, ast.ImportFrom) else []
        yield from (it.split(".")[1] for it in named if it.startswith("stabsim."))


def may_import(own, other):
    """Whether what is in one part of the package may import from another one."""
    first, second = (RANKS.get(part, len(RANKS)) for part in (own, other))
    return own == other or second < first or first == second in (0, len(RANKS))


def test_the_page_of_the_package_names_each_folder_once():
    assert sorted([*ORDER, "codes"]) == FOLDERS


@pytest.mark.parametrize("folder", FOLDERS)
def test_a_folder_begins_with_a_page_of_names_that_are_there(folder):
    page = importlib.import_module(f"stabsim.{folder}").__doc__
    sources = "\n".join(f"{it.stem} {it.read_text(encoding='utf-8')}" for it in (TOP / folder).glob("*.py") if it.stem != "__init__")
    assert page
    assert [it for it in re.findall(r"`([a-z_]+)`", page) if it not in FOLDERS and not re.search(rf"\b{it}\b", sources)] == []


def test_a_module_imports_from_its_folder_and_those_before_it():
    modules = [it.relative_to(TOP) for it in TOP.glob("**/*.py") if it != TOP / "__init__.py"]
    found = [(module, part) for module in modules for part in parts_imported(TOP / module)
             if not may_import(module.parts[0].removesuffix(".py"), part)]
    assert len(modules) > 100 and found == []
