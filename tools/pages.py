"""What the tools read of the pages, which are the README, the list of changes, CONTRIBUTING.md and docs/, and of the files that git keeps."""

import re
import shutil
import subprocess
from collections.abc import Iterator
from pathlib import Path

from program import TOP

DOCS = TOP / "docs"
PAGES = [TOP / "README.md", TOP / "CHANGELOG.md", TOP / "CONTRIBUTING.md", *sorted(DOCS.glob("**/*.md"))]
BLOCK = re.compile(r"^```(\S*)[ ]*(.*?)\n(.*?)^```[ ]*$", re.MULTILINE | re.DOTALL)


def text_of(file: Path) -> str:
    return file.read_text(encoding="utf-8")


def name_of(file: Path) -> str:
    """The path of a file from the top."""
    return str(file.relative_to(TOP))


def blocks_of(text: str) -> Iterator[tuple[int, str, str, str | None]]:
    """Each block of a page that is to be run: the line where it begins, its language, its commands, and its output or None."""
    blocks = [*BLOCK.finditer(text)]
    for block, after in zip(blocks, [*blocks[1:], None]):
        if block[1] in ("sh", "python") and not block[2].startswith("not-run"):
            yield text.count("\n", 0, block.start()) + 1, block[1], block[3], after[3] if after and after[1] == "output" else None


def prose(page: Path) -> str:
    """What a page says, without its blocks of commands and output."""
    return BLOCK.sub("", text_of(page))


def rows_below(text: str, head: str) -> list[list[str]]:
    """The cells of each row of the table with this head."""
    rows = text.split(f"\n{head}\n", 1)[1].split("\n\n", 1)[0].splitlines()[1:]
    return [row.strip("|").split("|") for row in rows]


def quoted(text: str) -> list[str]:
    """What is between backquotes."""
    return re.findall(r"`([^`\n]+)`", text)


def files_of_git(*words: str) -> list[str]:
    """The files that git keeps, or, with words for it, others too."""
    listed = subprocess.run(["git", "ls-files", "-z", *words], cwd=TOP, capture_output=True, text=True, check=True)
    return [name for name in listed.stdout.split("\0") if name]


def clean_copy(folder: Path) -> Path:
    """What git keeps, in an empty folder."""
    for name in files_of_git():
        to = folder / name
        to.parent.mkdir(parents=True, exist_ok=True)
        shutil.copy(TOP / name, to)
    return folder
