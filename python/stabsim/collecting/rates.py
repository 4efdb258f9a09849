"""Rates of logical errors, with the rates that are about as likely."""

import math
from collections.abc import Callable
from typing import NamedTuple

from stabsim import checking


class Rate(NamedTuple):
    """A rate, with the least and the greatest that explain what was counted about as well.

    >>> import stabsim
    >>> [round(rate, 12) for rate in stabsim.Rate(low=0.18, best=0.32, high=0.5).per_round(2)]
    [0.1, 0.2, 0.5]
    """

    low: float
    best: float
    high: float

    def per_round(self, rounds: float) -> "Rate":
        """The rate of one of this many rounds, by `rate_per_round`."""
        return Rate(*(rate_per_round(rate, rounds) for rate in self))


def fit_rate(shots: int, errors: int, *, max_likelihood_factor: float = 1000.0) -> Rate:
    """The rate under which this many errors in this many shots are likeliest, and the least and the greatest under which they are less likely
    by this factor. Without shots all rates are as likely, and one half is taken.

    >>> import stabsim
    >>> rate = stabsim.fit_rate(1000, 0)
    >>> rate.low, rate.best, round(rate.high, 6)
    (0.0, 0.0, 0.006884)
    """
    shots, errors = checking.whole("shots", shots), checking.whole("errors", errors)
    if errors > shots:
        raise ValueError(f"errors is {errors}: give a whole number up to {shots}, the shots")
    if not checking.number("max_likelihood_factor", max_likelihood_factor) >= 1:
        raise ValueError(f"max_likelihood_factor is {max_likelihood_factor}: give a number from 1 on")
    if not shots:
        return Rate(0.0, 0.5, 1.0)
    best = errors / shots
    least = logarithm(shots, errors, best) - math.log(max_likelihood_factor)

    def is_likely(rate: float) -> bool:
        return logarithm(shots, errors, rate) >= least

    low = edge(0.0, best, is_likely) if errors else 0.0
    high = edge(1.0, best, is_likely) if errors < shots else 1.0
    return Rate(low, best, high)


def rate_per_round(rate: float, rounds: float) -> float:
    """The rate p of one round with which an odd number of this many rounds errs at this rate: (1 - (1 - 2 rate)^(1 / rounds)) / 2. For a rate
    above one half it is 1 less that of 1 less the rate.

    >>> import stabsim
    >>> round(stabsim.rate_per_round(2 * 0.1 * 0.9, 2), 12)
    0.1
    """
    rate = checking.chance("rate", rate)
    if not checking.number("rounds", rounds) > 0:
        raise ValueError(f"rounds is {rounds}: give a number above 0")
    if rate > 0.5:
        return 1 - rate_per_round(1 - rate, rounds)
    return 0.5 if rate == 0.5 else -math.expm1(math.log1p(-2 * rate) / rounds) / 2


def logarithm(shots: int, errors: int, rate: float) -> float:
    """The logarithm of how likely this many errors in this many shots are, up to what is the same for all rates."""
    found = errors * math.log(rate) if errors else 0.0
    return found + (shots - errors) * math.log1p(-rate) if shots > errors else found


def edge(outside: float, inside: float, is_likely: Callable[[float], bool]) -> float:
    """The last likely rate on the way from a likely one to one that is not, by halving as far as numbers go."""
    while True:
        middle = (outside + inside) / 2
        if middle in (outside, inside):
            return inside
        if is_likely(middle):
            inside = middle
        else:
            outside = middle
