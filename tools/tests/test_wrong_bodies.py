"""Each wrong body, of the gate or of a release, can be applied to the sources as they are and names a clause that is there. What
tools/wrong_bodies.py makes of what an rt prints, by an rt that proves nothing."""

import os
import subprocess
import sys
from pathlib import Path

import pytest
import wrong_bodies
from program import TOP
from sources import Function, functions_of
from wrong_bodies import crate_of, edits_of_gate, edits_of_release

EDITS = [*edits_of_gate(), *edits_of_release()]
NAMES = [f"{crate_of(edit)}/{edit.name}" for edit in EDITS]
# An rt that prints its words, and then those lines of a file that are of the edits in the folder where it runs.
RT = """#!/bin/sh
echo "rt: $*"
ls crates/*/must-fail/*.edit | sed 's|^crates/|must-fail |; s|/must-fail/|/|; s|$|:|' | grep -F -f - '{told}'
exit {status}
"""

Ended = tuple[int, str, str]


def clause_of(edit: Path) -> tuple[str, str]:
    """The label that a wrong body names, and the function or type."""
    named = wrong_bodies.NAMED.match(edit.read_text(encoding="utf-8"))
    assert named, "its first line names no clause"
    label, _, owner = named[1].partition(" of ")
    return label, owner


def function_of(edit: Path) -> tuple[Path, Function]:
    """The function whose clause a wrong body names, or the first of the type, with its file."""
    owner = clause_of(edit)[1]
    files = sorted((TOP / "crates" / crate_of(edit) / "src").glob("**/*.rt"))
    return next((file, it) for file in files for it in functions_of(file) if owner in (it.full_name(), it.type))


def told_of(edit: Path) -> str:
    """What rt prints of a wrong body that is refused by the clause that it names."""
    label = clause_of(edit)[0]
    file, function = function_of(edit)
    goal = {"invariant": label, "requires": "new-requires"}.get(label, f"returns-clause-{label}")
    place = f"{file.relative_to(TOP / 'crates' / crate_of(edit))}:{function.start + 1}:5"
    return f"rt: must-fail {crate_of(edit)}/{edit.name}: refused, as it must be: note: {place}: its goal (`{goal}`)\n"


def test_each_has_its_own_name() -> None:
    assert edits_of_gate() and edits_of_release() and len({*NAMES}) == len(NAMES)
    assert {it for it in (TOP / "tools/wrong_bodies").glob("**/*") if it.is_file()} == {*edits_of_release()}


@pytest.mark.parametrize("edit", EDITS, ids=NAMES)
def test_a_wrong_body_can_be_applied(edit: Path) -> None:
    """As rt applies it: each old text is in the file once, where what is before it in the edit is done."""
    texts: dict[str, str] = {}
    file = old = ""
    for line in edit.read_text(encoding="utf-8").rstrip("\n").split("\n")[1:]:
        kind, _, text = line.partition(":")
        text = text.removeprefix(" ")
        assert kind in ("file", "old", "new"), f"no line of an edit: {line}"
        if kind == "file":
            file = text
            texts.setdefault(file, (TOP / "crates" / crate_of(edit) / file).read_text(encoding="utf-8"))
        elif kind == "old":
            old = text
        else:
            assert text != old and texts[file].count(old) == 1, f"in {file} {texts[file].count(old)} times: {old}"
            texts[file] = texts[file].replace(old, text)
            old = ""
    assert texts and old == ""


@pytest.mark.parametrize("edit", EDITS, ids=NAMES)
def test_a_wrong_body_names_a_clause_that_is_there(edit: Path) -> None:
    label, _ = clause_of(edit)
    assert label in ("invariant", "requires") or label in wrong_bodies.labels_of(function_of(edit)[1])


def run(*words: str | Path, path: str = os.environ["PATH"]) -> Ended:
    done = subprocess.run([sys.executable, "-B", TOP / "tools/wrong_bodies.py", *words], env={**os.environ, "PATH": path},
                          capture_output=True, text=True, check=False)
    return done.returncode, done.stdout, done.stderr


def test_those_of_a_gate_are_compared(tmp_path: Path) -> None:
    lines = [told_of(edit) for edit in edits_of_gate()]
    gate, many = tmp_path / "gate", len(lines)
    gate.write_text("".join(lines))
    assert run(gate) == (0, f"{many} of {many} wrong bodies are refused by the clause that they name\n", "")
    gate.write_text("".join(lines[1:]))
    status, output, said = run(gate)
    assert (status, output.split()[0]) == (1, str(many - 1)) and said.endswith("not refused, or refused with nothing told\n")
    gate.write_text("".join([lines[0].replace("returns-clause-", "returns-clause-other_"), *lines[1:]]))
    status, output, said = run(gate)
    assert (status, output.split()[0]) == (1, str(many - 1)) and ": refused by other_" in said


def test_those_of_a_release_are_tried(tmp_path: Path) -> None:
    told, rt = tmp_path / "told", tmp_path / "rt"
    crates = sorted({crate_of(edit) for edit in edits_of_release()})
    # Those of the gate are of crates below.
    lines = [told_of(edit) for edit in EDITS]

    def tried(lines: list[str], status: int = 0) -> Ended:
        told.write_text("".join(lines))
        rt.write_text(RT.format(told=told, status=status))
        rt.chmod(0o755)
        return run("--try", path=f"{tmp_path}:/usr/bin:/bin")

    last = f"{len(lines)} of {len(lines)} wrong bodies are refused by the clause that they name\n"
    assert tried(lines) == (0, f"rt: ci {' '.join(crates)}\n" + "".join(lines) + last, "")
    assert tried(lines, 3)[::2] == (1, "wrong_bodies: rt ci ended with status 3\n")
    lost = edits_of_release()[-1]
    status, _, said = tried([it for it in lines if lost.name not in it])
    assert (status, said) == (1, f"wrong_bodies: {lost.relative_to(TOP)}: not refused, or refused with nothing told\n")


def test_it_asks_for_a_gate_or_a_try(tmp_path: Path) -> None:
    assert run("--help")[0] == 0 and "--try" in run("--help")[1]
    assert [it[0] for it in (run(), run("--try", "gate"), run("--other"))] == [2, 2, 2]
    assert "its command rt is not on the PATH" in run("--try", path=str(tmp_path))[2]


def test_a_file_that_cannot_be_read_is_named(tmp_path: Path) -> None:
    (tmp_path / "bytes").write_bytes(b"\xff\n")
    for file, why in ((tmp_path / "none", "No such file"), (tmp_path, "directory"), (tmp_path / "bytes", "can't decode")):
        status, output, said = run(file)
        assert (status, output) == (2, "") and why in said and "Traceback" not in said
