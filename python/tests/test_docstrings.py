"""The examples of docstrings print what they say."""

import doctest
import importlib
import pathlib
import pkgutil

import pytest
import stabsim

MODULES = [it.name for it in pkgutil.walk_packages(stabsim.__path__, "stabsim.") if not it.name.startswith("stabsim.page")]
WITH_EXAMPLES = [name for name in MODULES if ">>> " in pathlib.Path(importlib.util.find_spec(name).origin).read_text(encoding="utf-8")]


@pytest.mark.parametrize("name", WITH_EXAMPLES)
def test_the_examples_of_a_module_hold(name, tmp_path, monkeypatch):
    monkeypatch.chdir(tmp_path)
    failed, tried = doctest.testmod(importlib.import_module(name))
    assert tried and not failed
    assert not list(tmp_path.iterdir())


# These are types by another name, which have no docstring of their own, and a module.
UNDOCUMENTED = {"Decoder", "Item", "Path", "Predict", "codes"}


@pytest.mark.parametrize("name", [name for name in stabsim.__all__ if name not in UNDOCUMENTED])
def test_a_public_name_has_a_docstring_with_an_example(name):
    assert ">>> " in getattr(stabsim, name).__doc__
