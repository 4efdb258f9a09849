#!/usr/bin/env python3
"""Compares the shipped programs, byte by byte, shipped.txt and what `--version` says with what the gate has just proved and built.

The program for x86-64-v2 has to be the one that `rt ci` left in crates/stabsim/out. That for x86-64-v3 is built here over the libraries
that `rt ci` left. If something differs, one line says what, and the status is 1."""

import hashlib
import re
import shutil
import subprocess
import sys
import tempfile
from pathlib import Path

from program import TOP

PROGRAMS = Path("python/stabsim/programs")
PROGRAM = "stabsim"
BUILT = TOP / "crates" / PROGRAM / "out" / PROGRAM
V2, V3 = "stabsim-x86-64-v2", "stabsim-x86-64-v3"


def said_by(*words: str | Path, folder: Path = TOP) -> str:
    """What a command prints, without the end of its last line."""
    done = subprocess.run(words, cwd=folder, stdin=subprocess.DEVNULL, stdout=subprocess.PIPE, stderr=subprocess.STDOUT, text=True, check=True)
    return done.stdout.rstrip("\n")


def facts() -> dict[str, str]:
    """What shipped.txt has to say of the sources and of the logic by which they are proved."""
    version = re.search(r'^__version__ = "(.*)"$', (TOP / "python/stabsim/__init__.py").read_text(), re.MULTILINE)
    sources = said_by(TOP / "tools/sum_sources.sh")
    logic = said_by("rt", "version").rpartition(" logic ")[2]
    return {"version": version[1] if version else "", "sources": sources, "logic": logic}


def crates_in(text: str) -> dict[str, list[str]]:
    """The crates of a crates.txt, each with the libraries that it names; those without a line of their own are the toolchain's."""
    lines = [line.partition("#")[0].partition(":") for line in text.splitlines()]
    return {head.split()[0]: names.split() for head, _, names in lines if head.strip()}


def crates_of(program: str, crates: dict[str, list[str]]) -> list[str]:
    """The program's own crates in their order, which has each after those that it names, and the program last."""
    own = {program}
    for name in reversed(crates):
        own.update(crates[name] if name in own else [])
    return [name for name in crates if name in own]


def build(cpu: str, folder: Path) -> bytes:
    """The program built for a processor, over libraries that are built."""
    kit = Path(shutil.which("rt") or "").resolve().parents[1]
    crates = crates_in((TOP / "crates.txt").read_text(encoding="utf-8"))
    libraries = {it: TOP / "crates" / it / "out" / "rlib" for it in crates_of(PROGRAM, crates)[:-1]}
    used = {it: libraries.get(it, kit / "rlibs") for it in ("std", *crates[PROGRAM])}
    externs = [word for it in used for word in ("--extern", f"{it}={used[it]}/{it}.rlib")]
    places = [word for it in (kit / "rlibs", *libraries.values()) for word in ("-L", f"dependency={it}")]
    logic = ["--antt-project", f"{kit}/rattle/logic/antt-project.json", "--logic-built", f"{kit}/logic_built"]
    compiler = ["--links", f"{PROGRAM}=", f"--cpu={cpu}", "--backend", "llvm"]
    tools = ["--toolchain", f"{kit}/toolchain"]
    crate, made = TOP / "crates" / PROGRAM, folder / PROGRAM
    words = ["--crate-name", PROGRAM, "src/main.rt", *externs, *places, *logic, *compiler, *tools, "-o", f"{made}.o"]
    said_by(kit / "bin/rattle", "build", *words, folder=crate)
    words = ["--target", "x86_64-unknown-linux-gnu", *tools, "-o", f"{made}", f"{made}.o"]
    said_by(kit / "bin/rattle-link", *words, kit / "c/libos_c.a", kit / "c/liblibc_c.a", folder=crate)
    return made.read_bytes()


def differences(programs: Path, wanted: dict[str, str], built: dict[str, bytes]) -> list[str]:
    """What differs between a folder of shipped programs and what it has to be: the lines of its text, and the programs."""
    text = programs / "shipped.txt"
    told = dict(it.split(" ", 1) for it in text.read_text().splitlines()) if text.is_file() else {}
    sums = {name: hashlib.sha256(program).hexdigest() for name, program in built.items()}
    lines = [f"the line {it} of shipped.txt" for it, value in {**wanted, **sums}.items() if told.get(it) != value]
    files = [it for it, program in built.items() if not (programs / it).is_file() or (programs / it).read_bytes() != program]
    return lines + files


def main() -> int:
    try:
        wanted = facts()
        found = differences(TOP / PROGRAMS, wanted, {V2: BUILT.read_bytes()})
        if said_by(BUILT, "--version") != f"stabsim {wanted['version']}\nproved in the logic {wanted['logic']} of Rattle":
            found.append("what --version says")
        if not found:
            with tempfile.TemporaryDirectory() as folder:
                program = build("x86-64-v3", Path(folder))
            found = differences(TOP / PROGRAMS, wanted, {V3: program})
    except (subprocess.CalledProcessError, OSError) as fault:
        print(f"check_shipped: {fault} {getattr(fault, 'stdout', '')}", file=sys.stderr)
        return 2
    if found:
        print(f"check_shipped: {PROGRAMS} is not what these sources give, so run tools/ship.sh: other are {', '.join(found)}", file=sys.stderr)
        return 1
    print("the shipped programs are those that were proved and built")
    return 0


if __name__ == "__main__":
    sys.exit(main())
