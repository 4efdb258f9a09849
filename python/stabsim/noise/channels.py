"""Noise channels as independent Pauli errors.

A channel is named with what it does to its qubits: the chances of its Pauli errors, of which at most one happens. The same channel
may be a product of independent errors, each of which happens or not by itself: the factor by which a channel shrinks the
expectation of a Pauli Q is then the product of 1 - 2 a over the errors of chance a that anticommute with Q. Taking logarithms, and
the inverse of that sum over all Paulis, gives each a, if there is a solution with chances. The Paulis are those of the group that the
channel's errors generate: no others are needed.
"""

import itertools
import math

# A Pauli on each qubit of a channel, as XI.
Errors = dict[str, float]

ONE = ("X", "Y", "Z")
# The order in which PAULI_CHANNEL_2 names its chances.
TWO = tuple("".join(pair) for pair in itertools.product("IXYZ", repeat=2))[1:]

# Chances below this part of a channel's own are rounding.
ROUNDING = 1e-14

# Letters by their number in base 4: the number of a product is the sum of its factors' modulo 2, bit by bit.
LETTERS = "IXZY"

# A group of Paulis that more generate than this many is not looked through.
MOST_GENERATORS = 6


def depolarising(chance: float, qubits: int) -> Errors | None:
    """The errors of a channel that makes each other Pauli equally likely; None if it has no independent form."""
    names = ONE if qubits == 1 else TWO
    shrink = 1 - chance * (len(names) + 1) / len(names)
    if shrink < 0:
        return None
    # Each Pauli anticommutes with half of all of them, which are 4 or 16: with 2 or 8.
    each = -math.expm1(math.log1p(shrink - 1) / ((len(names) + 1) / 2)) / 2 if shrink else 0.5
    return {name: each for name in names}


def independent(chances: Errors) -> Errors | None:
    """The chances of independent errors that make the same channel as disjoint ones, whose names have one length.

    None if there are none, if the errors are products of too many, and also, except of a single error, if an expectation changes its
    sign or is lost altogether: that takes errors of a chance of one half or more.
    """
    names = [name for name, chance in chances.items() if chance]
    if len(names) < 2:
        return {name: chances[name] for name in names}
    group = group_of(names)
    if group is None:
        return None
    # An expectation for each number but 0: its sign is changed by the elements with which it has an odd number of generators in common.
    others = range(1, len(group) + 1)
    flips = [math.fsum(chances[name] for name in names if (group[name] & other).bit_count() % 2) for other in others]
    if max(flips) >= 0.5:
        return None
    logarithms = [math.log1p(-2 * flip) for flip in flips]
    found = {}
    for name in sorted(group):
        total = math.fsum(-it if (group[name] & other).bit_count() % 2 else it for other, it in zip(others, logarithms))
        found[name] = -math.expm1(-2 * total / (len(group) + 1)) / 2
    least = ROUNDING * sum(chances.values())
    if min(found.values()) < -least:
        return None
    return {name: chance for name, chance in found.items() if chance > least}


def group_of(names: list[str]) -> dict[str, int] | None:
    """All products of some Paulis of one length, except the identity, up to signs: each with the set of generators that it is the
    product of, as a number in base 2. None if there are too many."""
    elements = [0]
    for name in names:
        number = sum(LETTERS.index(letter) << 2 * place for place, letter in enumerate(name))
        if number not in elements:
            elements += [element ^ number for element in elements]
        if len(elements) > 2**MOST_GENERATORS:
            return None
    each = range(len(names[0]))
    return {"".join(LETTERS[element >> 2 * place & 3] for place in each): at for at, element in enumerate(elements) if at}
