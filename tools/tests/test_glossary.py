"""No name, comment or text of the crates, and no page, has a word that docs/build/glossary.md says not to use, and its files are there."""

import functools
import re
from collections.abc import Iterator

from pages import DOCS, PAGES, files_of_git, name_of, prose, quoted, rows_below, text_of
from program import TOP

GLOSSARY = DOCS / "build" / "glossary.md"
NOT_USED = tuple(word for cells in rows_below(text_of(GLOSSARY), "| Not | But |") for word in quoted(cells[0]))
# Those that some crates don't use, each with such a crate.
NOT_USED_IN = {(word, crate) for words, _, crates in rows_below(text_of(GLOSSARY), "| Not | But | In |") for word in quoted(words) for crate in quoted(crates)}
FILES = [name for name in files_of_git("-co", "--exclude-standard", "crates") if re.match(r"crates/\w+/(?:src|specs|proofs)/.*\.(?:rt|antt)$", name)]
# A definition of specs/, in the first line of its type.
DEFINED = re.compile(r"^(?:abbrev |opaque )?pub (?:record |data )?([\w'-]+)(?: \(.*?\)| \{.*?\})* :", re.MULTILINE)
PART = re.compile(r"[A-Z]?[a-z]+|[A-Z]+(?![a-z])")
NAME = re.compile(r"[A-Za-z_]\w*")
# Names of the standard library.
OF_LIBRARY = re.compile(r"\b(?:(?:leb|eqb)_tells|is_simple_and_free)\b")
# What is said of things that don't move, and the line of a script that makes a bookmark.
OF_OTHER_MEANING = re.compile(r"\bin place\b|\"mark\"|`mark`")
# The papers' name of a refusal with a line.
NAMES_LEFT = {"Fault"}
# The crates whose calls or requests edit: a place there is the path at which an edit is made.
OF_EDITS = ("stab_items", "stab_circuit", "stab_session", "stab_script")
PLACE_OF_OTHER_TYPE = re.compile(r"\bplace : (?!Path\b|Option Path\b)|\bplace: (?!Path\b|path\b|after\b|from\b)|\bplaces\b")
# Words that output or the command line has.
STANDING = {
    # The option keeps its name.
    ("framed", "crates/stab_args/"),
    ("framed", "crates/stab_cli/"),
    ("framed", "crates/stab_jobs/"),
    ("framed", "crates/tests_program/src/"),
    # The text of the help.
    ("kept", "crates/stab_args/src/words/help.rt"),
    # The columns of a row say what is reported by this word.
    ("tells", "crates/rows/src/format.rt"),
}


@functools.cache
def maybe(words: tuple[str, ...]) -> re.Pattern[str]:
    """What a text with one of some words has somewhere, in names too."""
    return re.compile("|".join(word.replace(" ", "[^a-z]") for word in words), re.IGNORECASE)


def used_in(text: str, words: tuple[str, ...] = NOT_USED) -> dict[str, int]:
    """Those of some words that a text has, of names in parts, each with the number of a line that has it."""
    found: dict[str, int] = {}
    for number, line in enumerate(text.split("\n"), 1):
        if maybe(words).search(line):
            around = f" {' '.join(PART.findall(line)).lower()} "
            found |= {word: number for word in words if f" {word} " in around}
    return found


def in_crates() -> Iterator[tuple[str, str, int]]:
    for name in FILES:
        text = OF_LIBRARY.sub("", text_of(TOP / name))
        yield from ((name, word, line) for word, line in used_in(text).items())


def in_their_crates() -> Iterator[tuple[str, str, int]]:
    """The words that a crate does not use, in names that are not left and in comments."""
    for name in FILES:
        words = tuple(sorted(word for word, crate in NOT_USED_IN if crate == name.split("/")[1]))
        if words and maybe(words).search(text_of(TOP / name)):
            text = OF_OTHER_MEANING.sub("", text_of(TOP / name))
            kept = NAME.sub(lambda it: "" if it[0] in NAMES_LEFT else it[0], text)
            yield from ((name, word, line) for word, line in used_in(kept, words).items())


def is_standing(name: str, word: str) -> bool:
    return any(word == it and name.startswith(path) for it, path in STANDING)


def test_words_that_are_not_used_are_found() -> None:
    assert {"framed", "told", "copy of the state"} <= set(NOT_USED)
    assert used_in("a\nisFramedAt TOLD_b untold\nno copy of\na copy of the state") == {"framed": 2, "told": 2, "copy of the state": 4}


def test_no_name_or_comment_of_the_crates_has_a_word_that_is_not_used() -> None:
    found = [f"{name}:{line}: {word}" for name, word, line in in_crates() if not is_standing(name, word)]
    assert not found, "\n".join(found)


def test_no_name_or_comment_of_a_crate_has_a_word_that_it_does_not_use() -> None:
    assert {("place", "stab_run"), ("mark", "stab_script")} <= NOT_USED_IN
    found = [f"{name}:{line}: {word}" for name, word, line in in_their_crates()]
    assert not found, "\n".join(found)


def test_a_place_is_where_an_edit_is_made() -> None:
    for name in FILES:
        if name.split("/")[1] in OF_EDITS:
            text = text_of(TOP / name)
            longer = [it for it in set(NAME.findall(text)) if it != "PlaceOutOfRange" and it.lower() != "place" and "place" in map(str.lower, PART.findall(it))]
            assert not longer + PLACE_OF_OTHER_TYPE.findall(text), name


def test_free_is_a_name_by_itself_alone() -> None:
    for name in FILES:
        text = OF_LIBRARY.sub("", text_of(TOP / name))
        longer = [it for it in set(NAME.findall(text)) if it.lower() != "free" and "free" in map(str.lower, PART.findall(it))]
        comments = re.findall(r"^[ \t]*(?://|--).*\bfree\b.*", text, re.MULTILINE)
        assert not longer + comments, name


def test_no_two_definitions_have_one_name() -> None:
    files: dict[str, set[str]] = {}
    for name in FILES:
        for it in DEFINED.findall(text_of(TOP / name)) if "/specs/" in name else ():
            files.setdefault(it, set()).add(name)
    assert len(files) > 1000
    assert not {it: sorted(names) for it, names in files.items() if len(names) > 1}


def test_each_name_that_is_left_is_there() -> None:
    crates = {crate for _, crate in NOT_USED_IN}
    names = {name for file in FILES if file.split("/")[1] in crates for name in NAME.findall(text_of(TOP / file))}
    assert NAMES_LEFT - names == set()


def test_each_word_that_still_stands_is_there() -> None:
    found = [(name, word) for name, word, _ in in_crates()]
    gone = [it for it in STANDING if not any(word == it[0] and name.startswith(it[1]) for name, word in found)]
    assert not gone


def test_no_page_has_a_word_that_is_not_used() -> None:
    texts = {name_of(page): re.sub(r"`[^`\n]*`", "`", prose(page)) for page in PAGES}
    found = [f"{name}: {word}" for name, text in texts.items() for word in used_in(re.sub(r"\(#[\w-]+\)", "", text.replace("--framed", "")))]
    assert not found, "\n".join(found)


def test_files_of_the_glossary_are_there() -> None:
    files = [it for it in quoted(text_of(GLOSSARY)) if re.match(r"stab_\w+/", it)]
    assert len(files) > 30
    assert [it for it in files if not (TOP / "crates" / it).is_file()] == []
