"""The shell and Python blocks of the pages print what the ```output block below them shows, each page in a clean copy of its own. A block
that can't be run here begins with ```sh not-run and a reason."""

import os
import pathlib
import shutil
import subprocess
import sys

import pytest
from pages import PAGES, blocks_of, clean_copy, name_of, text_of
from program import TOP
from running import PROGRAM

BUILT = pathlib.Path("crates/stabsim/out/stabsim")
BIN = pathlib.Path("python_of_pages")
TIME_LIMIT = 600
RUNNERS = {"sh": ["sh", "-eu"], "python": [sys.executable, "-B", "-"]}


def copy_with_program(folder: pathlib.Path) -> pathlib.Path:
    """A clean copy, with the program newer than its sources, if it was built here and is not the shipped one, and this Python as python3."""
    clean_copy(folder)
    if PROGRAM == TOP / BUILT:
        (folder / BUILT).parent.mkdir(parents=True)
        shutil.copy(PROGRAM, folder / BUILT)
    python = folder / BIN / "python3"
    python.parent.mkdir()
    python.write_text(f'#!/bin/sh\nexec "{sys.executable}" "$@"\n')
    python.chmod(0o755)
    return folder


@pytest.mark.parametrize("page", [it for it in map(name_of, PAGES) if [*blocks_of(text_of(TOP / it))]])
def test_blocks_print_what_the_page_shows(page: str, tmp_path: pathlib.Path) -> None:
    if page == "docs/use/scaling.md" and shutil.which("parallel") is None:
        pytest.skip("GNU parallel is missing")
    folder = copy_with_program(tmp_path / "copy")
    # What other tests say of the program and the package is not for a copy.
    variables = {name: value for name, value in os.environ.items() if name not in ("STABSIM", "PYTHONPATH")}
    variables["PATH"] = f"{folder / BIN}{os.pathsep}{variables['PATH']}"
    for line, language, commands, shown in blocks_of(text_of(TOP / page)):
        of_package = {"PYTHONPATH": str(folder / "python")} if language == "python" else {}
        done = subprocess.run(RUNNERS[language], input=commands, cwd=folder, capture_output=True, text=True, timeout=TIME_LIMIT, check=False,
                              env=variables | of_package)
        assert done.returncode == 0, f"{page}, line {line}: {done.stdout}{done.stderr}"
        assert shown in (None, done.stdout), f"{page}, line {line}: {done.stdout}"
