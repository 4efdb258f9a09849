#!/usr/bin/env python3
"""Runs the built program on random and damaged circuits and edit scripts, and compares it with an oracle of its own.

    tools/fuzz.py --seconds 60
    tools/fuzz.py --large --seconds 20

The oracle (tools/oracle) is written from the definitions; its `families.py` and `*_cases.py` say what is tried. The first difference of
random cases is cut down to a small text and printed with its seed, which makes the same cases again; of other cases each is reported. The
status is then 1, and also if some family was never compared, even in some minutes more."""

import argparse
import collections
import itertools
import pathlib
import random
import subprocess
import sys
import tempfile
import time
from collections.abc import Callable, Iterable, Iterator

from program import find_program
from oracle import code_cases, edit_cases, state_cases
from oracle.answers import TOO_LARGE, Case, Ended, Wrong, judge
from oracle.families import FAMILIES, LARGE, WEIGHTS
from oracle.making import without_lines
from oracle.reading import Refused
from oracle.states import TooLarge

TIME_LIMIT = 60
# How many seconds more there are until each family was compared once.
MOST_OVER = 240
# Each case of this number is of a large circuit.
SMALL_AMONG_LARGE = 30
# The longest text that is cut down.
MOST_LINES = 200


class Program:
    """The program, and a file for the circuits of its scripts."""

    def __init__(self, path: pathlib.Path, folder: str) -> None:
        self.path = str(path)
        self.circuit = pathlib.Path(folder) / "circuit.stim"

    def run(self, words: list[str], text: bytes, script: bytes | None = None) -> Ended:
        """The status, what was written, and what was said of a fault."""
        if script is not None:
            self.circuit.write_bytes(text)
            words, text = [*words, "--in", str(self.circuit)], script
        done = subprocess.run([self.path, *words], input=text, capture_output=True, timeout=TIME_LIMIT, check=False)
        return done.returncode, done.stdout, done.stderr

    def difference(self, case: Case) -> tuple[Wrong, str]:
        """What is wrong with the program's answer, or None; and what it was compared with."""
        try:
            return judge(case, self.run(case.words, case.text, case.script))
        except subprocess.TimeoutExpired:
            return f"no answer within {TIME_LIMIT} seconds", "run"


def wrong_cases(program: Program, cases: Iterable[Case]) -> Iterator[Wrong]:
    """What is wrong in each case, or None; none may be too large for the oracle."""
    for case in cases:
        wrong, judged = program.difference(case)
        wrong = judged if judged == TOO_LARGE else wrong
        yield wrong and f"{case.words} on\n{case.text!r}: {wrong}"


def try_each(name: str, cases: Iterable[Wrong]) -> int:
    """Reports each case that went wrong, and how many there were, and gives a status."""
    tried = wrong = 0
    for told in cases:
        tried += 1
        if told is not None:
            wrong += 1
            print(told, file=sys.stderr)
    print(f"{name}: {wrong} of {tried} cases went wrong")
    return 1 if wrong or not tried else 0


def cut_down(program: Program, case: Case) -> Case:
    """A small case that still differs."""
    def differs(text: bytes, script: bytes | None) -> Wrong:
        return program.difference(Case(case.command, text, case.settings, script))[0]

    script, text = case.script, case.text
    if case.shorter or text.count(b"\n") > MOST_LINES:
        return case
    if script is not None:
        script = without_lines(script, lambda fewer: differs(text, fewer))
    return Case(case.command, without_lines(text, lambda fewer: differs(fewer, script)), case.settings, script)


def report(program: Program, seed: int, family: str, case: Case) -> None:
    small = cut_down(program, case)
    script = "" if small.script is None else f" with the script\n{small.script!r}"
    print(f"seed {seed}, {family}: stabsim {' '.join(small.words)} on\n{small.text!r}{script}\n{program.difference(small)[0]}")


def cases_of(family: str, dice: random.Random) -> list[Case]:
    """The cases of a family; none, if the circuit that is made for them is refused."""
    try:
        return FAMILIES[family](dice)
    except (Refused, TooLarge):
        return []


def any_family(seed: int, dice: random.Random) -> str:
    turn, rest = divmod(seed, SMALL_AMONG_LARGE)
    return LARGE[turn % len(LARGE)] if rest == SMALL_AMONG_LARGE - 1 else dice.choices([*WEIGHTS], [*WEIGHTS.values()])[0]


def try_random(asked: argparse.Namespace, program: Program, family_of: Callable[[int, random.Random], str], families: list[str]) -> int:
    """Tries random cases for some seconds, up to the first that went wrong."""
    counts: collections.Counter[str] = collections.Counter()
    end = time.monotonic() + asked.seconds
    for seed in itertools.count(asked.seed):
        if time.monotonic() - end > (0 if all(counts[family] for family in families) else MOST_OVER):
            break
        dice = random.Random(seed)
        family = family_of(seed, dice)
        for case in cases_of(family, dice):
            wrong, judged = program.difference(case)
            if wrong:
                report(program, seed, family, case)
                return 1
            counts.update([family, case.command, judged])
    print(", ".join(f"{count} {what}" for what, count in sorted(counts.items())) + ": no difference")
    idle = [family for family in families if not counts[family]]
    for family in idle:
        print(f"nothing was compared: {family}", file=sys.stderr)
    return 1 if idle else 0


# The modes beside that of all families: what they try, and the status that this gives.
MODES: dict[str, tuple[str, Callable[[argparse.Namespace, Program], int]]] = {
    "large": ("try large circuits alone, one family after another",
              lambda asked, program: try_random(asked, program, lambda seed, _: LARGE[seed % len(LARGE)], LARGE)),
    "faults": ("try tables of faults and of deterministic bits alone",
               lambda asked, program: try_random(asked, program, lambda *_: "with deterministic parities", ["with deterministic parities"])),
    "states": ("try states, each case once", lambda _, program: try_each("states", wrong_cases(program, state_cases.cases()))),
    "edits": ("try each edit beside a session opened anew, each case once",
              lambda _, program: try_each("edits", edit_cases.cases(program.run))),
    "codes": ("try circuits of codes once, and then dense ones",
              lambda asked, program: try_each("codes", wrong_cases(program, code_cases.cases(asked.seconds, asked.seed)))),
}


def main() -> int:
    words = argparse.ArgumentParser(description=__doc__, formatter_class=argparse.RawDescriptionHelpFormatter)
    words.add_argument("--seconds", type=float, default=60, help="how long to go on (default 60)")
    words.add_argument("--seed", type=int, default=0, help="the seed of the first case (default 0)")
    modes = words.add_mutually_exclusive_group()
    for mode, (told, try_mode) in MODES.items():
        modes.add_argument(f"--{mode}", dest="try_mode", action="store_const", const=try_mode, help=told)
    words.set_defaults(try_mode=lambda asked, program: try_random(asked, program, any_family, [*FAMILIES]))
    asked = words.parse_args()
    with tempfile.TemporaryDirectory() as folder:
        return int(asked.try_mode(asked, Program(find_program(), folder)))


if __name__ == "__main__":
    sys.exit(main())
