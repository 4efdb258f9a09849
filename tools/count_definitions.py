#!/usr/bin/env python3
"""Counts the definitions that each theorem rests on, and their lines: those that docs/trust/believe.md leads through.

It begins with what a theorem's clause names and goes on to all that this uses in the folders specs/ of the crates, but not into
specs/inner/. Comments, imports and blank lines do not count. The first figures of a theorem are of all that it rests on, the last of what
no theorem above it has."""

import re
import sys
from collections.abc import Iterable, Iterator
from dataclasses import dataclass, field

from clauses import Place, named_by, places_in
from pages import text_of
from program import TOP

# What is proved: the definitions that its clauses name, or the functions whose clauses they are.
THEOREMS = {
    "sample and detect": ["stab_commands.Outputs.EndsRun", "stab_commands.Outputs.sample_of", "stab_commands.Outputs.detect_of"],
    "stabilisers": ["stab_commands.Stabilisers.EndsStabilisers"],
    "deterministic": ["stab_report.Deterministic.EndsDeterministic"],
    "faults, coins and deterministic --explain": [
        "stab_report.SingleErrorTables.EndsFaults", "stab_report.CoinTables.EndsCoins", "stab_report.Reasons.EndsExplain"],
    "distance": ["stab_report.Questions.EndsQuestion"],
    "errors everywhere": [
        "stab_error_model.EverywhereLaws.WrongRecordsAreInverted", "stab_error_model.EverywhereLaws.LettersAreErrors", "stab_error_model.EverywhereLaws.StringsAreErrors"],
    "edit": ["stab_script.ScriptEndings.EndsPlainEdit"],
    "propagate": ["stab_script.Endings.EndsPropagate", "stab_script.Endings.EndsPropagateEach"],
    "edit --framed": ["stab_script.ScriptEndings.EndsEdit"],
    "a job and its status": ["stab_cli.Jobs.EndsJob"],
    "what a session is": ["stab_session.Headline.IsRunOfItems", "stab_session.Sessions.IsSignIn", "stab_tableau.Reduced.AreReduced"],
    "an edit of a session": ["stab_session.SessionEdits.IsEditedBy", "stab_session.SessionEdits.IsAsBefore"],
    "what an edit costs": ["stab_session::apply"],
    "laws": [
        "stab_tableau::gates_keep_sound", "stab_tableau::outcomes_keep_sound", "stab_tableau::members_are_a_group",
        "stab_tableau::random_where_anticommuting", "stab_run::same_future", "stab_tableau::traces_have_one_list", "stab_search::parts_are_whole",
        "stab_circuit::printed_items_are_read_back"],
    "what the program calls": [
        "stab_args::parse_words", "stab_cli::read_coins", "stab_cli::run_job_watched", "stab_cli::write_usage", "stab_report::write_fault"],
    "calls of the library": [
        *(f"{part}::*" for part in (
            "stab_io", "stab_pauli", "stab_tableau", "stab_items::circuit", "stab_items::cursor", "stab_items::edit", "stab_items::path",
            "stab_circuit::input", "stab_circuit::reading", "stab_circuit::laws", "stab_session::session", "stab_results")),
        "stab_recording::run_once", "stab_recording::shot", "stab_run::coin", "stab_error_model::errors", "stab_error_model::distance",
        "stab_regions::deterministic", "stab_regions::faults"],
}
ROW = re.compile(r"\| `(\w+/specs/[\w/]+\.antt)` \|")
HEAD = re.compile(r"(?:(?:abbrev|unfoldable|opaque|pub|record|data)\s+)+([^\s:({]+)")
# The first line of a definition whose cases are names too; fields are not, since who uses one names its record.
DATA = re.compile(r"(?:pub )?data\b")
USE = re.compile(r"(?:pub )?use Rattle\.(\w+\.)specs\.([\w.]+)\.\{([^}]*)\}")
USE_AS = re.compile(r"use Rattle\.(\w+\.)specs\.([\w.]+) as (\w+)")
PASSED_ON = re.compile(r"pub use Rattle\.(\w+)\.specs\.(?!declared)([\w.]+)$", re.MULTILINE)


@dataclass
class File:
    """The lines of each definition of a file, the definition that makes each name, and where the names are from that it imports; `a.` is
    for all names of a file that is used as a."""

    name: str
    lines: dict[str, list[str]] = field(default_factory=dict)
    made: dict[str, str] = field(default_factory=dict)
    imported: dict[str, Place] = field(default_factory=dict)


Files = dict[str, File]
# The lines of definitions.
Definitions = dict[Place, list[str]]


def read_file(name: str, lines: Iterable[str]) -> File:
    found, current = File(name), ""
    for line in lines:
        if used := USE.match(line):
            pairs = (name.strip().partition(" as ") for name in used[3].split(","))
            found.imported |= {here or there: (used[1] + used[2], there) for there, _, here in pairs}
        elif used := USE_AS.match(line):
            found.imported[f"{used[3]}."] = used[1] + used[2], ""
        if not line.strip() or line.lstrip().startswith("--") or line.startswith(("use ", "pub use ")):
            continue
        if head := HEAD.match(line):
            current = found.made[head[1]] = head[1]
            found.lines[current] = []
        elif current and DATA.match(found.lines[current][0]) and (case := re.match(r"  (?:pub )?(\S+) :", line)):
            found.made.setdefault(case[1], current)
        if current:
            found.lines[current].append(line)
    return found


def all_definitions() -> Files:
    """All files of definitions, also by the names under which a crate passes those of another on as its own."""
    found: Files = {}
    for path in sorted(TOP.glob("crates/*/specs/**/*.antt")):
        crate, _, *folders = path.relative_to(TOP / "crates").with_suffix("").parts
        if folders[0] != "inner":
            file = ".".join([crate, *folders])
            found[file] = read_file(file, text_of(path).splitlines())
    for path in sorted(TOP.glob("crates/*/specs/Lib.antt")):
        passed = [(file, f"{crate}.{file}") for crate, file in PASSED_ON.findall(text_of(path))]
        found |= {f"{path.parts[-3]}.{file}": found[there] for file, there in passed if there in found}
    return found


def uses(lines: list[str], file: File) -> Iterator[Place]:
    """What a definition names, in its file or elsewhere."""
    yield from places_in("\n".join(lines), {name: (file.name, name) for name in file.made} | file.imported)


def reached(found: Files, roots: Iterable[str]) -> Definitions:
    """All definitions that these use, themselves among them."""
    seen: Definitions = {}
    left = [(file, name) for file, _, name in (root.rpartition(".") for root in roots)]
    while left:
        place, name = left.pop()
        file = found.get(place, File(place))
        if name in file.made:
            name = file.made[name]
            if (file.name, name) not in seen:
                seen[file.name, name] = file.lines[name]
                left += uses(file.lines[name], file)
        elif name in file.imported:
            left.append(file.imported[name])
    return seen


def new_definitions(found: Files) -> Iterator[tuple[str, Definitions, Definitions]]:
    """For each theorem all definitions that it rests on, and those that no theorem above it has."""
    so_far: Definitions = {}
    for theorem, names in THEOREMS.items():
        roots = {root for name in names for root in (named_by(name) if "::" in name else [name])}
        its = reached(found, sorted(roots))
        if not its:
            sys.exit(f"no definition is named {names}")
        yield theorem, its, {key: it for key, it in its.items() if key not in so_far}
        so_far |= its


def lines_of(its: Definitions) -> int:
    return sum(map(len, its.values()))


def path_of(file: str) -> str:
    """The path of a file below crates/."""
    crate, _, path = file.partition(".")
    return f"{crate}/specs/{path.replace('.', '/')}.antt"


def wrong_rows(text: str, found: Files) -> list[str]:
    """Which rows of the page have no new definition of their theorem, and which are missing."""
    theorem, rows = "", set()
    for line in text.split("\n"):
        if line.startswith("## "):
            theorem = line.removeprefix("## ").replace("`", "").lower()
        if row := ROW.match(line):
            rows.add((theorem, row[1]))
    wanted = {(theorem, path_of(file)) for theorem, _, new in new_definitions(found) for file, _ in new}
    return [f"{theorem}: {file} has no new definition of it" for theorem, file in sorted(rows - wanted)] + [
        f"{theorem}: a row for {file} is missing" for theorem, file in sorted(wanted - rows)]


def main() -> None:
    every: Definitions = {}
    for theorem, its, new in new_definitions(all_definitions()):
        every |= its
        print(f"{theorem}: {len(its)} definitions, {lines_of(its)} lines; new: {len(new)}, {lines_of(new)}")
    print(f"all: {len(every)} definitions, {lines_of(every)} lines")


if __name__ == "__main__":
    main()
