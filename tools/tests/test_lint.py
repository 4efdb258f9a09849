"""What ruff.toml asks of the repository's Python holds. Without ruff, flake8 looks for the same."""

import importlib.util
import pathlib
import shutil
import subprocess
import sys
import tomllib

import pytest
from pages import files_of_git
from program import TOP

RULES = tomllib.loads((TOP / "ruff.toml").read_text(encoding="utf-8"))["lint"]
# What ruff does not have: the body of an overload is in the line of its def, and operators begin lines or end them.
OF_FLAKE8_ALONE = ["E704", "W503", "W504"]


def linter() -> list[str]:
    """The words that look at files, which come after them."""
    if shutil.which("ruff"):
        return ["ruff", "check", "--no-cache", "--quiet", "--config", "ruff.toml"]
    if importlib.util.find_spec("flake8"):
        return [sys.executable, "-m", "flake8", "--isolated", "--select", ",".join(RULES["select"]), "--ignore", ",".join([*RULES["ignore"], *OF_FLAKE8_ALONE])]
    pytest.skip("there is neither ruff nor flake8")


def said_of(*files: str) -> str:
    done = subprocess.run([*linter(), *files], cwd=TOP, capture_output=True, text=True, check=False)
    return done.stdout + done.stderr


def test_nothing_is_found_in_the_repository() -> None:
    assert said_of(*[name for name in files_of_git("-co", "--exclude-standard") if name.endswith(".py") and (TOP / name).is_file()]) == ""


def test_an_unused_import_and_an_unknown_name_are_found(tmp_path: pathlib.Path) -> None:
    wrong = tmp_path / "wrong.py"
    wrong.write_text("import os\n\nprint(here)\n")
    assert all(rule in said_of(str(wrong)) for rule in ("F401", "F821"))
