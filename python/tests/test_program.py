"""Where the package finds its program."""

import hashlib
import os
import pathlib
import shutil
import subprocess
import sys

import pytest
import stabsim
from stabsim import program

PACKAGE = pathlib.Path(program.__file__).parent
LEVELS = ("v2", "v3")


def write_program(path: pathlib.Path, version: str) -> None:
    path.parent.mkdir(parents=True, exist_ok=True)
    path.write_text(f"#!/bin/sh\n[ \"$1\" = --version ] && echo stabsim {version} && exit\necho $0 $*\n")
    path.chmod(0o755)


def ship(package: pathlib.Path, version: str) -> pathlib.Path:
    """A package with scripts in place of the shipped programs; the path of its folder of programs."""
    programs = package / "programs"
    programs.mkdir(parents=True)
    for name in ("choose", "level", "stabsim"):
        shutil.copy(PACKAGE / "programs" / name, programs)
    lines = [f"version {version}"]
    for level in LEVELS:
        path = programs / f"stabsim-x86-64-{level}"
        write_program(path, version)
        lines.append(f"{path.name} {hashlib.sha256(path.read_bytes()).hexdigest()}")
    (programs / "shipped.txt").write_text("\n".join([*lines, ""]))
    return programs


@pytest.fixture
def package(monkeypatch, tmp_path):
    """The folder of an installed package without a program, with a program on the path and no other anywhere."""
    monkeypatch.delenv("STABSIM", raising=False)
    monkeypatch.setenv("XDG_CACHE_HOME", str(tmp_path / "cache"))
    write_program(tmp_path / "bin" / "stabsim", "9.0.0")
    monkeypatch.setenv("PATH", str(tmp_path / "bin"), prepend=os.pathsep)
    folder = tmp_path / "top" / "python" / "stabsim"
    folder.mkdir(parents=True)
    monkeypatch.setattr(program, "__file__", str(folder / "program.py"))
    return folder


def test_the_order_is_the_variable_the_shipped_the_built_and_the_path(monkeypatch, package, tmp_path):
    assert program.find_program() == str(tmp_path / "bin" / "stabsim")
    built = tmp_path / "top" / "crates" / "stabsim" / "out" / "stabsim"
    write_program(built, "9.0.0")
    assert program.find_program() == str(built)
    programs = ship(package, "9.0.0")
    assert program.find_program() in [str(programs / f"stabsim-x86-64-{level}") for level in LEVELS]
    write_program(tmp_path / "named", "9.0.0")
    monkeypatch.setenv("STABSIM", str(tmp_path / "named"))
    assert program.find_program() == str(tmp_path / "named")


def test_a_damaged_program_is_told_and_no_other_is_tried(package):
    programs = ship(package, "9.0.0")
    for level in LEVELS:
        (programs / f"stabsim-x86-64-{level}").write_text("#!/bin/sh\necho stabsim 9.0.0\n")
    with pytest.raises(stabsim.MissingProgram, match=r"^the shipped program .* is damaged: its SHA-256 is .*: install it anew .*\)$"):
        program.find_program()


def test_an_old_shipped_program_is_told_with_both_versions(package):
    ship(package, "0.0.9")
    with pytest.raises(stabsim.MissingProgram, match=r"of version 0\.0\.9; \d+\.\d+\.\d+ or later is needed"):
        program.find_program()


def test_the_command_is_the_shipped_program(package):
    programs = ship(package, "9.0.0")
    for name in ("__init__.py", "command.py"):
        shutil.copy(PACKAGE / name, package)
    words = [sys.executable, "-c", "from stabsim.command import run_program; run_program()", "a  b", "c"]
    done = subprocess.run(words, env={**os.environ, "PYTHONPATH": str(package.parent)}, cwd=package.parent, capture_output=True, text=True, check=True)
    assert done.stdout in [f"{programs}/stabsim-x86-64-{level} a b c\n" for level in LEVELS]
