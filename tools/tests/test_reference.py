"""The library's reference has a doc comment for each name that stabsim_library passes on, and docs/build/library.md has these names."""

import re

import reference
from pages import DOCS, quoted, rows_below, text_of

NAMES = reference.names_passed_on()


def test_each_name_is_defined_with_a_comment_in_the_crate_that_it_is_taken_from() -> None:
    assert NAMES["Session"] == "stab_session"
    assert [name for name, crate in NAMES.items() if not reference.entry(crate, name)[:1] or not reference.entry(crate, name)[0].startswith("///")] == []


def test_the_page_has_the_names_of_the_library() -> None:
    named = [name for row in rows_below(text_of(DOCS / "build" / "library.md"), "| You want | Names |") for name in quoted(row[1])]
    assert sorted(named) == sorted(NAMES)


def test_a_type_is_shown_with_its_public_calls_alone() -> None:
    qubit = reference.entry("stab_instructions", "Qubit")
    assert [line for line in qubit if re.match(r" *pub ", line)] == [
        "pub struct Qubit {", "    pub fn new(number: u16) -> Qubit", "    pub fn number(self) -> usize"]
    assert qubit[2] == "}"


def test_a_long_signature_is_shown_in_a_line() -> None:
    assert reference.entry("stab_recording", "run_once")[-1] == (
        "pub fn run_once<C: Coins>(alloc: Global, circuit: &Circuit, n: usize, coins: &mut C) -> Result<Shot, Fault>")
