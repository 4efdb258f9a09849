#!/usr/bin/env python3
"""Counts how often each bit of a shot is 1, from shots in the format b8, and keeps none of them.

    ./stabsim detect --shots 100000 --out_format b8 --in CIRCUIT | examples/scaling/count_ones.py BITS

BITS is how many bits a shot has: `./stabsim check --in CIRCUIT` says. It prints a line for each: its number and its
count. For any number of shots it needs the memory of some of them.
"""

import sys
from collections import Counter

SHOTS_AT_A_TIME = 4096


def add_ones(counts: list[int], shots: bytes, width: int) -> None:
    """Adds the ones of whole shots of this many bytes; bit k is bit k % 8 of byte k // 8, the lowest first."""
    for place in range(width):
        for byte, times in Counter(shots[place::width]).items():
            for bit in range(8):
                if byte >> bit & 1:
                    counts[8 * place + bit] += times


def main() -> int:
    bits = int(sys.argv[1])
    width = (bits + 7) // 8
    counts = [0] * (8 * width)
    while width and (shots := sys.stdin.buffer.read(width * SHOTS_AT_A_TIME)):
        if len(shots) % width:
            print("count_ones: the last shot is cut off", file=sys.stderr)
            return 1
        add_ones(counts, shots, width)
    for number, count in enumerate(counts[:bits]):
        print(number, count)
    return 0


if __name__ == "__main__":
    sys.exit(main())
