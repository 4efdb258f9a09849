"""The package, a user's program over it, the tools and the examples are typed: mypy --strict finds nothing."""

import pathlib
import subprocess
import sys

import pytest

HERE = pathlib.Path(__file__).resolve().parent
TOP = HERE.parents[1]
WRONG = """
import stabsim

stabsim.Circuit("M 0").sample("many")
stabsim.nothing_of_this_name
stabsim.Circuit("M 0").text = "M 1"
"""


def said_of(*files):
    """The lines of mypy on files, which asks for what the page imports. Some that examples and tools import have no types. A cache would be left
    in the repository."""
    pytest.importorskip("mypy")
    pytest.importorskip("aiohttp")
    words = [sys.executable, "-m", "mypy", "--strict", "--ignore-missing-imports", "--cache-dir", "/dev/null", *files]
    done = subprocess.run(words, capture_output=True, text=True, cwd=HERE.parent)
    return (done.stdout + done.stderr).splitlines()


def test_the_package_and_its_user_are_typed(tmp_path):
    wrong = tmp_path / "wrong.py"
    wrong.write_text(WRONG)
    lines = said_of("stabsim", HERE / "typed_user.py", wrong)
    # What is wrong in a program is found, and nothing else. For a call with overloads there are notes besides.
    assert list(dict.fromkeys(line.split("wrong.py:")[-1].split(":")[0] for line in lines[:-1])) == ["4", "5", "6"], lines


def test_tools_and_examples_are_typed():
    # Not beside what stands in this folder: its modules, which some tools import, have no types.
    [line] = said_of(*sorted(TOP.glob("tools/*.py")), *sorted(TOP.glob("examples/*.py")))
    assert line.startswith("Success")
