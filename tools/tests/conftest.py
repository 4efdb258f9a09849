"""Where the tools are that the tests use, and the program that the tests of python/ use too if they run with these. A test that takes too
long is ended: a reply that is held back would be waited for without end."""

import os
import pathlib
import sys
import tempfile
from collections.abc import Iterator

import pytest

sys.path.insert(0, str(pathlib.Path(__file__).resolve().parent.parent))

from program import find_program  # noqa: E402: its folder was named above

from ending import end_in_time  # noqa: E402, F401: a fixture of all tests, from python/tests

if "STABSIM" not in os.environ:
    os.environ["STABSIM"] = str(find_program())


@pytest.fixture(name="work")
def folder_for_all() -> Iterator[pathlib.Path]:
    """A folder that other users may read too."""
    with tempfile.TemporaryDirectory(ignore_cleanup_errors=True) as folder:
        work = pathlib.Path(folder)
        work.chmod(0o755)
        yield work
