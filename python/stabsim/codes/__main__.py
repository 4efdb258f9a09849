"""Prints circuits to try and to measure stabsim with, in Stim's circuit text.

    python3 -m stabsim.codes surface_code --distance 3 --rounds 2
    python3 -m stabsim.codes surface_code --distance 21 --deepest --written-out
    python3 -m stabsim.codes surface_code --distance 5 --rounds 5 --noise 0.001
    python3 -m stabsim.codes unrotated_surface_code --distance 5 --rounds 5 --basis X
    python3 -m stabsim.codes toric_code --distance 5 --rounds 5
    python3 -m stabsim.codes repetition_code --distance 5 --rounds 10
    python3 -m stabsim.codes colour_code --distance 5 --rounds 10
    python3 -m stabsim.codes bacon_shor_code --distance 5 --rounds 10
    python3 -m stabsim.codes steane_code --rounds 10
    python3 -m stabsim.codes bivariate_bicycle_code
    python3 -m stabsim.codes bivariate_bicycle_code --orders 6 6 --rounds 6 --basis X
    python3 -m stabsim.codes bivariate_bicycle_code --orders 15 3 --a x^9+y+y^2 --b 1+x^2+x^7 --rounds 10
    python3 -m stabsim.codes dense_circuit --qubits 1024 --steps 100000 --seed 1

The first line of what is printed says how many steps and records the circuit has when its blocks are unrolled. A step is a gate
on one qubit or one pair, a qubit that is measured or reset, a product that is measured, a detector, or an addition to an
observable. A circuit has at most 1,048,576 steps; --deepest takes as many rounds as fit. --written-out writes each round's lines,
without a block. A bivariate bicycle code is the [[144, 12, 12]] code with 12 rounds if nothing else is asked for. --noise writes noise of this chance: circuit-level, or of the codes that measure products, the colour code and the
Bacon-Shor code, phenomenological plus data.
"""

import argparse
import re
import signal
import sys
from collections.abc import Callable

from stabsim import codes, streams

FACTOR = re.compile(r"1|([xy])(?:\^?(\d+))?", re.ASCII)


def number_in(least: int, most: int) -> Callable[[str], int]:
    """A reader of numbers within bounds, for the command line."""

    def read(text: str) -> int:
        value = int(text)
        if not least <= value <= most:
            raise argparse.ArgumentTypeError(f"{value} is no number from {least} to {most}")
        return value

    return read


def polynomial(text: str) -> list[tuple[int, int]]:
    """The exponents (i, j) of the terms x^i y^j of a polynomial, as 1+x^3*y+y^2."""
    return [exponents_of(term) for term in text.split("+")]


def exponents_of(term: str) -> tuple[int, int]:
    """The exponents of x and of y in a product of powers."""
    exponents = {"x": 0, "y": 0}
    for factor in term.split("*"):
        found = FACTOR.fullmatch(factor.strip())
        if not found:
            raise argparse.ArgumentTypeError(f"{term!r} is no term such as 1, x, y^2 and x^3*y")
        if found[1]:
            exponents[found[1]] += int(found[2] or 1)
    return exponents["x"], exponents["y"]


def command_line() -> argparse.ArgumentParser:
    parser = argparse.ArgumentParser(prog="python3 -m stabsim.codes", description=__doc__,
                                     formatter_class=argparse.RawDescriptionHelpFormatter)
    kinds = parser.add_subparsers(dest="kind", required=True)
    for kind, most in {**codes.MOST_DISTANCES, "steane_code": 3}.items():
        memory = kinds.add_parser(kind)
        if kind == "steane_code":
            memory.set_defaults(distance=3)
        else:
            memory.add_argument("--distance", type=number_in(2, most), required=True)
        depth = memory.add_mutually_exclusive_group(required=True)
        depth.add_argument("--rounds", type=number_in(1, codes.MOST_STEPS))
        depth.add_argument("--deepest", action="store_true")
        add_options(memory)
        if kind == "surface_code":
            memory.add_argument("--bad-schedule", action="store_true", help="with an order of CX of less distance")
    bicycle = kinds.add_parser("bivariate_bicycle_code")
    bicycle.add_argument("--orders", nargs=2, type=number_in(1, codes.MOST_QUBITS), metavar=("L", "M"), default=(12, 6),
                         help="x to the power of L and y to the power of M are 1 (default 12 6)")
    for name, default in (("--a", "x^3+y+y^2"), ("--b", "y^3+x+x^2")):
        bicycle.add_argument(name, type=polynomial, metavar="POLYNOMIAL", default=default, help=f"default {default}")
    bicycle.add_argument("--rounds", type=number_in(1, codes.MOST_STEPS), default=12, help="default 12")
    add_options(bicycle)
    random = kinds.add_parser("dense_circuit")
    random.add_argument("--qubits", type=number_in(2, codes.MOST_QUBITS), required=True)
    random.add_argument("--steps", type=number_in(1, codes.MOST_STEPS), required=True)
    random.add_argument("--seed", type=number_in(0, 2**64 - 1), default=0)
    return parser


def add_options(memory: argparse.ArgumentParser) -> None:
    """The options that all memory experiments have."""
    memory.add_argument("--written-out", action="store_true")
    memory.add_argument("--noise", type=float, default=0.0)
    memory.add_argument("--basis", choices=["X", "Z"], default="Z")


def text_of(given: argparse.Namespace) -> str:
    """The circuit that is asked for."""
    if given.kind == "dense_circuit":
        return codes.dense_circuit(given.qubits, given.steps, given.seed)
    noise = codes.Noise.uniform(given.noise) if given.noise else None
    if given.kind == "bivariate_bicycle_code":
        l, m = given.orders
        return codes.bivariate_bicycle_code(l, m, given.a, given.b, given.rounds, basis=given.basis, noise=noise, written_out=given.written_out)
    memory = codes.memory(given.kind, given.distance, given.basis, noise, given.kind == "surface_code" and given.bad_schedule)
    return memory.text(memory.deepest() if given.deepest else given.rounds, given.written_out)


def main() -> int:
    parser = command_line()
    given = parser.parse_args()
    # A closed pipe ends the command without a word, as it ends others.
    signal.signal(signal.SIGPIPE, signal.SIG_DFL)
    try:
        streams.write_out(text_of(given).encode())
    except ValueError as fault:
        parser.error(str(fault))
    except OSError as fault:
        print(f"codes: {fault}", file=sys.stderr)
        return 1
    return 0


if __name__ == "__main__":
    sys.exit(main())
