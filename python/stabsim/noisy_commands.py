"""`sample` and `detect` of `python3 -m stabsim`: of circuits that the program does not read, as those with noise, the package draws the shots,
and no proof covers them. All else is for the program to do or to refuse: circuits that it reads, and options that are wrong.
"""

import argparse
import os
import re
import signal
import stat
import sys
import tempfile
from collections.abc import Sequence
from itertools import pairwise

from stabsim import checking, program
from stabsim.command import run_program
from stabsim.errors import StabsimError
from stabsim.text.judging import said_of
from stabsim.text.reading import MOST_CHARACTERS

STANDARD_INPUT = "/dev/stdin"


def main(words: Sequence[str]) -> int:
    """Runs one of the two commands, and answers its status."""
    given = options_of(words)
    try:
        found = text_in(given, words) if given else None
        if given is None or found is None:
            return run_program(words)
        text, again = found
        return run_program(again) if is_read(text) else drawn(given, text, again)
    except KeyboardInterrupt:
        print("stabsim: interrupted", file=sys.stderr)
        return 128 + signal.SIGINT


def options_of(words: Sequence[str]) -> argparse.Namespace | None:
    """What a command is given; None if there are other options, or one of them twice."""
    options = argparse.ArgumentParser(add_help=False, allow_abbrev=False, exit_on_error=False)
    options.add_argument("command")
    options.add_argument("--shots", type=whole, default=1)
    options.add_argument("--first_shot", type=whole, default=0)
    options.add_argument("--seed", type=whole, default=0)
    options.add_argument("--in", dest="input")
    options.add_argument("--out")
    options.add_argument("--out_format", default="01")
    if words[0] == "detect":
        options.add_argument("--append_observables", action="store_true")
    try:
        given, others = options.parse_known_args(words)
    except argparse.ArgumentError:
        return None
    names = [word.split("=")[0] for word in words if word.startswith("--")]
    return None if others or len(names) > len(set(names)) else given


def whole(word: str) -> int:
    """A number as the program takes it."""
    if not re.fullmatch(r"\+?\d+", word, re.ASCII):
        raise ValueError(word)
    return checking.seed("a number", int(word))


def text_in(given: argparse.Namespace, words: Sequence[str]) -> tuple[str, Sequence[str]] | None:
    """The circuit's text, and words by which the program reads it too; None if it can't be read, or would be written over."""
    try:
        # Standard input stays open, and where it was.
        with open(0 if given.input is None else given.input, "rb", closefd=given.input is not None) as file:
            number = file.fileno()
            if given.out and os.path.exists(given.out) and os.path.samestat(os.fstat(number), os.stat(given.out)):
                return None
            is_file = stat.S_ISREG(os.fstat(number).st_mode)
            first = os.lseek(number, 0, os.SEEK_CUR) if is_file else 0
            data = file.read(MOST_CHARACTERS + 1)
            if is_file:
                os.lseek(number, first, os.SEEK_SET)
    except OSError:
        return None
    if not is_file:
        put_back(data)
    return program.text_of(data), words if is_file else of_standard_input(words)


def put_back(data: bytes) -> None:
    """Has standard input give these bytes."""
    with tempfile.TemporaryFile() as file:
        file.write(data)
        file.seek(0)
        os.dup2(file.fileno(), 0)


def of_standard_input(words: Sequence[str]) -> list[str]:
    """Words with standard input in the place of a file that is read."""
    return [STANDARD_INPUT if before == "--in" else f"--in={STANDARD_INPUT}" if word.startswith("--in=") else word
            for before, word in pairwise(["", *words])]


def is_read(text: str) -> bool:
    """Whether the program reads a text, or else is to say what is wrong: it is too long, or there is no program."""
    try:
        return said_of(text) is not None
    except StabsimError:
        return True


def drawn(given: argparse.Namespace, text: str, words: Sequence[str]) -> int:
    """Draws the shots of a circuit, and answers the command's status; words: those of the program, which says if there is no such format."""
    from stabsim import stim_answers
    from stabsim.formats import formats

    if given.out_format not in formats.WRITERS:
        return run_program(words)
    # A closed pipe ends it without a word, as it ends other commands.
    signal.signal(signal.SIGPIPE, signal.SIG_DFL)
    try:
        stim_answers.draw(given, text)
    except (StabsimError, ValueError, OSError, MemoryError) as fault:
        first, *more = str(fault).split("\n")
        print(f"stabsim: {first or 'memory was refused'}{f': {more[0]}' if len(more) == 1 else ''}", file=sys.stderr)
        return 1
    return 0
