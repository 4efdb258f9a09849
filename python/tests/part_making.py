"""Parts of a distance made the slow way: each set of the errors that `distance --table` writes is tried, by size and by its first error.

Run as a program it takes the place of stabsim, which is SOURCE, and has it answer. A search that is not of a part never ends. Each process
notes its number in the folder NOTES; a part that has a file held_K there waits in the middle of what it writes."""

import functools
import hashlib
import itertools
import operator
import os
import pathlib
import subprocess
import sys
import time


class Table:
    """The lines of a table of errors, those that flip the same once."""

    def __init__(self, text, searched):
        self.searched = searched
        self.digest = int(hashlib.sha256(f"{searched}\n{text}".encode()).hexdigest()[:16], 16)
        lines = {frozenset(line.split()[3:]): line for line in reversed(text.splitlines())}
        self.lines = [line for flips, line in reversed(lines.items()) if flips]
        names = {name: number for number, name in enumerate(sorted({name for flips in lines for name in flips}))}
        self.observables = sum(1 << number for name, number in names.items() if name.startswith("L"))
        self.rows = [sum(1 << names[name] for name in line.split()[3:]) for line in self.lines]

    def is_unseen(self, flipped):
        return flipped != 0 and flipped & ~self.observables == 0

    def has_any(self):
        """Whether any set of errors is unseen: by elimination, detectors first."""
        order = [1 << bit for bit in range(max(self.rows, default=0).bit_length())]
        reduced = list(self.rows)
        for bit in (it for it in order if not it & self.observables):
            pivot = next((row for row in reduced if row & bit), 0)
            reduced = [row ^ pivot if row & bit else row for row in reduced]
        return any(reduced)

    def set_of(self, first, size):
        """The first set of a size, in the order of its errors, that begins with an error and is unseen."""
        for others in itertools.combinations(range(first + 1, len(self.rows)), size - 1):
            if self.is_unseen(functools.reduce(operator.xor, (self.rows[it] for it in others), self.rows[first])):
                return [first, *others]
        return None

    def found(self, firsts, size):
        """The first set of a size that begins with one of some errors."""
        return next((found for found in (self.set_of(first, size) for first in firsts) if found), None)

    def answer(self, found):
        return "".join(f"{line}\n" for line in [f"distance {len(found)} of {self.searched}", *(self.lines[it] for it in found)])

    def whole(self, most):
        """What one search answers."""
        if not self.has_any():
            return "none\n"
        sizes = range(1, len(self.rows) + 1 if most is None else most + 1)
        found = next((found for found in (self.found(range(len(self.rows)), size) for size in sizes) if found), None)
        return self.answer(found) if found else f"none up to {most}\n"

    def part(self, number, count, most):
        """What one of several parts of a search answers."""
        text = f"part {number}/{count}\ntable {self.digest}\n"
        if not self.has_any():
            return f"{text}none\nend\n"
        for size in range(1, len(self.rows) + 1 if most is None else most + 1):
            found = self.found(range(number - 1, len(self.rows), count), size)
            if found:
                return f"{text}first {found[0]}\n{self.answer(found)}end\n"
            text += f"none of {size}\n"
        return f"{text}end\n"


def table_of(program, words, path, searched="all marked errors"):
    """The table of the errors that a distance with these words is of."""
    done = subprocess.run([program, "distance", *words, "--table", "--in", path], capture_output=True, text=True, check=True)
    return Table(done.stdout, "all errors everywhere" if "--everywhere" in words else searched)


STAND_IN = """#!/bin/sh
export NOTES="{notes}" SOURCE="{source}"
exec "{python}" "{parts}" "$@"
"""


def write_stand_in(path, notes, source):
    """Writes a program that takes the place of stabsim, which is the source."""
    path.write_text(STAND_IN.format(notes=notes, source=source, python=sys.executable, parts=pathlib.Path(__file__).resolve()))
    path.chmod(0o755)
    notes.mkdir()


def processes_of(notes):
    """The searches that go on."""
    numbers = [it.name.removeprefix("process_") for it in notes.glob("process_*")]
    return [it for it in numbers if (file := pathlib.Path(f"/proc/{it}/cmdline")).exists() and b"part_making" in file.read_bytes()]


def asked_of(notes):
    """What each search was asked, by its process: of which part, and of up to how many errors."""
    return {it.name.removeprefix("process_"): tuple(it.read_text().split()) for it in notes.glob("process_*")}


def value_of(words, name):
    """Takes an option out of words, and answers its value, if it is there."""
    if name not in words:
        return None
    at = words.index(name)
    value = words[at + 1]
    del words[at:at + 2]
    return value


def main():
    words, notes, source = sys.argv[1:], pathlib.Path(os.environ["NOTES"]), os.environ["SOURCE"]
    if words[0] != "distance" or "--table" in words:
        os.execv(source, [source, *words])
    part, most, path, out = (value_of(words, f"--{name}") for name in ("part", "most", "in", "out"))
    if part is None:
        print("distance: no set of 1", file=sys.stderr, flush=True)
    note = notes / f"making_{os.getpid()}"
    note.write_text(f"{part} {most}")
    note.rename(notes / f"process_{os.getpid()}")
    if part is None:
        time.sleep(3600)
    limit = [] if most is None else ["--most", most]
    done = subprocess.run([source, *words, "--part", part, *limit, "--in", path], capture_output=True, text=True)
    if done.returncode:
        print(done.stderr, file=sys.stderr, end="")
        sys.exit(done.returncode)
    number, text = part.split("/")[0], done.stdout
    with open(out, "w") if out else sys.stdout as output:
        output.write(text[:40])
        output.flush()
        while (notes / f"held_{number}").exists():
            time.sleep(0.05)
        output.write(text[40:])


if __name__ == "__main__":
    main()
