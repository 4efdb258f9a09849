"""What the pages name is there, clauses, definitions, files and headings, and their words and those of comments are plain and not too many."""

import functools
import re
from collections.abc import Iterable, Iterator
from pathlib import Path

import count_definitions
from pages import DOCS, PAGES, files_of_git, name_of, prose, quoted, text_of
from program import TOP
from sources import functions_of, sources_of

PROVED, BELIEVE = DOCS / "trust" / "proved.md", DOCS / "trust" / "believe.md"
FILE = re.compile(r"[\w./-]+\.(?:rt|antt|md|py|sh|rows|stim|script)")
WORDS_WITHOUT_CONTENTS = 1500
# How many words all pages have together at most.
MOST_WORDS = 30_000
# Phrases that no comment has, even over the end of a line, nor a page, and what to write in their place.
PLAINER_IN_COMMENTS = {
    r"\bbut for\b": "except, or up to",
    r"\bbehind\b": "after",
    r"\b(?:in the|in its|in their) stead\b": "in place of, or replaces",
    r"\bso many\b": "as many, this many, or a name",
    r"\btells\b": "says, or reports",
    r"\breckon": "compute",
}
# Those that no page has.
PLAINER = PLAINER_IN_COMMENTS | {
    r"\bstands?\b": "is",
    r"(?:^|[.:;] )Where\b": "if",
    r"\bexactly (?:where|if)\b": "if and only if",
    r"\b(?:is|are|bits|not) sure\b": "deterministic",
    r"\b(?:[Ww]hatever the|for all) coins\b": "deterministic, or for all random bits",
    r"(?:^|[.:;] )Who\b": "if you",
    r"\bwords are wrong\b": "bad arguments",
    r"\bsome (?=\d|hundred|thousand|ten|twenty|thirty|forty|fifty|million)": "about",
    r"\b[Ss]ince (?=\d|later|then\b|that)": "what is, without what was",
    r"\b[Ll]ater that (?:day|night|evening)\b": "what is, without what was",
    r"\bfrom nothing\b": "from scratch",
}
# What a comment is in each kind of file; a docstring is a comment too.
COMMENTS = {
    ".rt": "//.*", ".js": "//.*", ".mjs": "//.*", ".antt": "--.*", ".py": r'"""(?:.|\n)*?"""|#.*',
    **dict.fromkeys((".sh", ".stim", ".script", ".rows"), "#.*"),
}
COMMENTED = ("crates/", "python/", "tools/", "examples/")
# Files of which git knows, or will know once they are added.
FILES = [name for name in files_of_git("-co", "--exclude-standard") if (TOP / name).is_file()]


def expect_none(found: Iterable[object]) -> None:
    lines = [str(it) for it in found]
    assert not lines, "\n" + "\n".join(lines)


@functools.cache
def clauses() -> dict[str, set[str]]:
    """The labels of the clauses of all functions of a name; a law has its own name as its label."""
    found: dict[str, set[str]] = {}
    for function in (it for file in sources_of() for it in functions_of(file)):
        found.setdefault(function.name, {function.name}).update(function.requires, function.ensures)
    return found


def labels_of(names: list[str]) -> set[str]:
    """The labels of the functions of these names; of all calls of a type, and of a module of laws, any function will do."""
    known = clauses()
    some = [name for name in (it.split("::")[-1] for it in names) if name in known]
    return set().union(*(known[name] for name in some or known))


def test_functions_have_the_clauses_of_the_table_of_promises() -> None:
    """The last column names them by their labels, as "`value` of `Letter::times`"."""
    rows = [line.strip("| ").split(" | ")[-1] for line in text_of(PROVED).split("\n") if line.startswith("|")]
    parts = [part.partition(" of ") for row in rows for part in row.split(";")]
    named = [(label, names) for labels, of, names in parts if of for label in quoted(labels)]
    assert named
    expect_none(it for it in named if it[0] not in labels_of(quoted(it[1])))


def test_theorems_have_the_definitions_of_their_rows() -> None:
    found = count_definitions.all_definitions()
    made = {count_definitions.path_of(file): {name.strip("◌") for name in its.made} for file, its in found.items()}
    lines = [line for line in text_of(BELIEVE).split("\n") if count_definitions.ROW.match(line)]
    rows = [[cell.strip() for cell in re.split(r"(?<!\\)\|", line)[1:-1]] for line in lines]
    named = [(file.strip("`"), name) for file, names, *_ in rows for name in quoted(names)]
    assert named
    expect_none(it for it in named if it[1] not in made.get(it[0], ()))
    expect_none(count_definitions.wrong_rows(text_of(BELIEVE), found))


def test_files_that_pages_name_are_there() -> None:
    # What the paths of all files end in: `/c`, `/b/c` and `/a/b/c` of a/b/c.
    ends = {"/" + "/".join(parts[at:]) for parts in (name.split("/") for name in FILES) for at in range(len(parts))}
    named = [(name_of(page), name) for page in PAGES for name in quoted(text_of(page)) if FILE.fullmatch(name)]
    expect_none(it for it in named if "/" + it[1].removeprefix("./") not in ends)


def test_pages_that_other_files_name_are_there() -> None:
    others = [name for name in FILES if not name.startswith(("docs/", "python/stabsim/programs/"))]
    named = [(name, page) for name in others for page in re.findall(r"\bdocs/[\w/-]+\.md", (TOP / name).read_bytes().decode("utf-8", "replace"))]
    expect_none(it for it in named if not (TOP / it[1]).is_file())


@functools.cache
def headings(page: Path, ranks: str) -> set[str]:
    """The headings of a page of these ranks, as a link writes them."""
    found = re.findall(rf"^{ranks} (.*)$", prose(page), re.MULTILINE)
    return {re.sub(r"[^\w\- ]", "", heading.lower()).strip().replace(" ", "-") for heading in found}


def is_there(page: Path, link: str) -> bool:
    path, _, heading = link.partition("#")
    there = page.parent / path if path else page
    return there.is_file() and (not heading or heading in headings(there, "#+"))


def test_links_lead_to_files_and_headings() -> None:
    links = [(page, link) for page in PAGES for link in re.findall(r"\]\(([^)\s:]+)\)", prose(page))]
    expect_none((name_of(page), link) for page, link in links if not is_there(page, link))


def test_the_tour_names_each_crate() -> None:
    tour = quoted(text_of(DOCS / "build" / "architecture.md"))
    expect_none({line.partition(":")[0] for line in text_of(TOP / "crates.txt").splitlines()} - set(tour))


def walks() -> dict[str, list[set[str]]]:
    """The files of each walk of the tour, by its lists: "- `crate`: `file.rt`, `file.rt`. What happens."."""
    parts = text_of(DOCS / "build" / "architecture.md").split("\n## ")[2:]
    lines = {part.split("\n")[0]: [re.findall(r"^- `(\w+)`: (.*?)\.(?: |$)", it, re.MULTILINE) for it in part.split("\n\n")] for part in parts}
    return {head: [{f"{crate}/src/{file}" for crate, names in part for file in quoted(names)} for part in parts if part]
            for head, parts in lines.items()}


def test_walks_of_the_tour_name_files_and_not_too_many() -> None:
    [shot], [opened, *ways], [distance] = walks().values()
    assert len(ways) == 2
    expect_none(it for it in shot.union(opened, *ways, distance) if not (TOP / "crates" / it).is_file())
    assert 20 < len(shot) <= 40
    assert all(20 < len(opened | way) <= 30 for way in ways)


def test_the_index_leads_to_each_page() -> None:
    index = DOCS / "README.md"
    linked = set(re.findall(r"\]\(([\w/-]+\.md)\)", text_of(index)))
    expect_none({str(page.relative_to(DOCS)) for page in PAGES if page.is_relative_to(DOCS) and page != index} - linked)


def words_of(page: Path) -> int:
    """How many words a page has; code and tables are counted."""
    return len(text_of(page).split())


def test_a_long_page_leads_to_its_headings() -> None:
    long = [page for page in PAGES if words_of(page) > WORDS_WITHOUT_CONTENTS]
    expect_none((name_of(page), it) for page in long for it in headings(page, "##") if f"](#{it})" not in text_of(page))


def test_all_pages_together_are_not_too_long() -> None:
    assert sum(map(words_of, PAGES)) <= MOST_WORDS


def plainer(name: str, text: str, phrases: dict[str, str], flags: int = 0) -> Iterator[str]:
    """Phrases of a text that have a plainer form, each after its file and line; what is between backquotes is not looked at."""
    text = re.sub(r"`[^`\n]*`", "`", text)
    for phrase, better in phrases.items():
        for found in re.finditer(phrase, text, re.MULTILINE | flags):
            around = " ".join(text[max(0, found.start() - 20):found.end() + 20].split())
            yield f"{name}:{text.count(chr(10), 0, found.start()) + 1}: \"{around}\": write {better}"


def test_pages_have_no_phrase_that_has_a_plainer_form() -> None:
    expect_none(it for page in PAGES for it in plainer(name_of(page), prose(page), PLAINER))


def comments_of(file: Path) -> str:
    """What the comments of a file say, each on its own line, without their marks and what they quote."""
    parts = re.split(rf"(?:(?<=\s)|^)({COMMENTS[file.suffix]})", text_of(file), flags=re.MULTILINE)
    comments = (part.lstrip('/!#-" ') if number % 2 else "\n" * part.count("\n") for number, part in enumerate(parts))
    return re.sub(r'^[ \t]+|"[^"\n]*"', "", "".join(comments), flags=re.MULTILINE)


def test_comments_have_no_phrase_that_has_a_plainer_form() -> None:
    phrases = {phrase.replace(" ", r"[ \n]"): better for phrase, better in PLAINER_IN_COMMENTS.items()}
    files = [TOP / name for name in FILES if name.startswith(COMMENTED)]
    found = (it for file in files if file.suffix in COMMENTS for it in plainer(name_of(file), comments_of(file), phrases, re.IGNORECASE))
    expect_none(found)
