#!/usr/bin/env python3
"""Compares the clause that each wrong body's file names with the one that refused it.

A wrong body is an edit of a source of a crate. The gate tries `crates/CRATE/must-fail/NAME.edit`, and GATE is a file with what `rt ci` or
`rt must-fail` printed. `tools/wrong_bodies/CRATE/NAME.edit`, which would take a fourth of the gate's time, are tried before each release:
--try puts them into must-fail/ of a copy of what git keeps, runs `rt ci` there for their crates, which tries those of the crates below
too, shows what it prints, and compares all that it tried. The status is 1 if one isn't refused by the clause that it names, or `rt` failed.

The first line of a wrong body names a clause: `clause: value of Tableau::same_group`. It has to be the goal that stopped the proof:
`returns-clause-LABEL`, or `returns` if a function ensures one clause alone, the invariant of a type, `clause: invariant of Session`, or
what a call asks of the function that makes it, `clause: requires of tagged_tick`."""
import argparse
import re
import shutil
import subprocess
import sys
import tempfile
from pathlib import Path

from pages import clean_copy
from program import TOP
from sources import Function, functions_of, sources_of

NAMED = re.compile(r"clause: (\w+ of (?:\w+::)?\w+)\n")
REFUSED = re.compile(r"rt: must-fail (\w+)/([\w.-]+)\.edit: refused, as it must be: (.*)")
IN_PROOFS = re.compile(r"\./proofs/(\S+)/\w+\.antt:\d+:\d+: error: `([^`]*)`")
IN_SOURCE = re.compile(r"note: src/(\S+)\.rt:(\d+):\d+: (?:.*?\(`([^`]*))?")


def edits_of_gate() -> list[Path]:
    return sorted(TOP.glob("crates/*/must-fail/*.edit"))


def edits_of_release() -> list[Path]:
    return sorted(TOP.glob("tools/wrong_bodies/*/*.edit"))


def crate_of(edit: Path) -> str:
    return edit.parts[-3] if edit.parent.name == "must-fail" else edit.parts[-2]


def function_in(crate: str, path: str) -> Function:
    """The function whose proofs have this path: its modules, then its type, if any, and its name."""
    *modules, name = path.split("/")
    source = TOP / "crates" / crate / "src"
    files = ["/".join(modules[:end]) for end in range(len(modules), 0, -1)] + ["lib"]
    file = next(it for it in files if (source / f"{it}.rt").is_file())
    owner = "".join(modules[file.count("/") + 1 :])
    # A type's calls may be in files of its module's folder too. The proofs of a trait's impl are under the names of type and trait in one.
    paths = [source / f"{file}.rt", *sorted((source / file).glob("*.rt"))]
    # A name may have a + in front.
    found = (it for path in paths for it in functions_of(path) if it.name == name.removeprefix("+") and owner.startswith(it.type))
    return next(found, Function(0, owner, name, False))


def labels_of(function: Function) -> list[str]:
    """The labels of what a function ensures; of a method without any those that a trait of the repository states."""
    stated = (it.ensures for file in sources_of() for it in functions_of(file) if it.in_trait and it.name == function.name)
    return function.ensures or next(stated, [])


def refuser(crate: str, told: str) -> str:
    """The clause that refused a wrong body, or else what is printed."""
    function: Function | None = None
    goal = ""
    if in_source := IN_SOURCE.match(told):
        before = [it for it in functions_of(TOP / "crates" / crate / "src" / f"{in_source[1]}.rt") if it.start < int(in_source[2])]
        function = before[-1] if before else None
        goal = in_source[3] or ""
    elif in_proofs := IN_PROOFS.match(told):
        function, goal = function_in(crate, in_proofs[1]), in_proofs[2]
    if function is None:
        return told
    own = labels_of(function)
    if named := re.fullmatch(r"returns.*-clause-(\w+)", goal):
        return f"{named[1]} of {function.full_name()}"
    # Functions that call one another have one proof, whose goals begin with a function's name.
    if named := re.fullmatch(r"(\w+)-returns.*-clause-(\w+)", goal):
        return f"{named[2]} of {named[1]}"
    if goal.startswith("invariant"):
        return f"invariant of {function.type}"
    if re.fullmatch(r"[\w-]+-requires(?:-clause-\w+)?", goal):
        return f"requires of {function.full_name()}"
    if goal.startswith("returns") and "-clause-" not in goal and len(own) == 1:
        return f"{own[0]} of {function.full_name()}"
    return f"goal `{goal}` of {function.full_name()}"


def fault_of(edit: Path, told: dict[tuple[str, str], str]) -> str | None:
    """What is wrong with a body, by what the gate told of each, if anything is."""
    crate = crate_of(edit)
    named = NAMED.match(edit.read_text(encoding="utf-8"))
    if named is None:
        return "its first line is not 'clause: LABEL of FUNCTION'"
    if (crate, edit.stem) not in told:
        return "not refused, or refused with nothing told"
    by = refuser(crate, told[crate, edit.stem])
    return None if by == named[1] else f"refused by {by}, and not by {named[1]}"


def try_edits(edits: list[Path]) -> tuple[int, str]:
    """The status of `rt ci` in a copy whose crates have these edits, and what it printed, which is shown as it comes."""
    crates = sorted({crate_of(edit) for edit in edits})
    said = ""
    with tempfile.TemporaryDirectory() as folder:
        copy = clean_copy(Path(folder))
        for edit in edits:
            to = copy / "crates" / crate_of(edit) / "must-fail"
            to.mkdir(exist_ok=True)
            shutil.copy(edit, to)
        with subprocess.Popen(["rt", "ci", *crates], cwd=copy, stdin=subprocess.DEVNULL, stdout=subprocess.PIPE, encoding="utf-8") as rt:
            for line in rt.stdout or ():
                print(line, end="", flush=True)
                said += line
    return rt.returncode, said


def text_of(path: str) -> str:
    """The text of a file that is named in words."""
    try:
        return Path(path).read_text(encoding="utf-8")
    except (OSError, UnicodeDecodeError) as error:
        raise argparse.ArgumentTypeError(str(error)) from None


def main() -> int:
    words = argparse.ArgumentParser(description=__doc__, formatter_class=argparse.RawDescriptionHelpFormatter)
    either = words.add_mutually_exclusive_group(required=True)
    either.add_argument("gate", type=text_of, metavar="GATE", nargs="?")
    either.add_argument("--try", dest="tries", action="store_true", help="try those of a release, and compare all that were tried")
    asked = words.parse_args()
    if asked.tries and shutil.which("rt") is None:
        words.error("it needs the Rattle toolchain: its command rt is not on the PATH")
    edits = edits_of_release() if asked.tries else edits_of_gate()
    status, said = try_edits(edits) if asked.tries else (0, asked.gate)
    told = {(it[1], it[2]): it[3] for it in REFUSED.finditer(said)}
    # Crates below have wrong bodies of the gate.
    edits += [it for it in edits_of_gate() if asked.tries and (crate_of(it), it.stem) in told]
    faults = {edit: fault for edit in edits if (fault := fault_of(edit, told))}
    for edit, fault in faults.items():
        print(f"wrong_bodies: {edit.relative_to(TOP)}: {fault}", file=sys.stderr)
    if status:
        print(f"wrong_bodies: rt ci ended with status {status}", file=sys.stderr)
    print(f"{len(edits) - len(faults)} of {len(edits)} wrong bodies are refused by the clause that they name")
    return 1 if faults or status else 0


if __name__ == "__main__":
    sys.exit(main())
