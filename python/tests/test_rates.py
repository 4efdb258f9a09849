"""Rates and their intervals: closed forms, ratios of likelihoods, and rounds put together."""

import math

import pytest
import stabsim


@pytest.mark.parametrize("shots", [1, 10, 1_000_000, 10**12])
@pytest.mark.parametrize("factor", [1.0, 20.0, 1000.0])
def test_without_errors_the_interval_ends_where_none_is_less_likely_by_the_factor(shots, factor):
    low, best, high = stabsim.fit_rate(shots, 0, max_likelihood_factor=factor)
    assert (low, best) == (0.0, 0.0)
    assert math.isclose(high, -math.expm1(-math.log(factor) / shots), rel_tol=1e-9, abs_tol=0)
    mirrored = stabsim.fit_rate(shots, shots, max_likelihood_factor=factor)
    assert (mirrored.best, mirrored.high) == (1.0, 1.0) and math.isclose(mirrored.low, factor ** (-1 / shots), rel_tol=1e-9)


@pytest.mark.parametrize("shots, errors", [(10, 1), (10, 9), (1000, 3), (1000, 500), (10**6, 1), (10**9, 12345)])
def test_ends_are_less_likely_by_the_factor(shots, errors):
    rate = stabsim.fit_rate(shots, errors, max_likelihood_factor=1000)
    assert rate.best == errors / shots and rate.low < rate.best < rate.high

    def ratio(other):
        """How much less likely the errors are under another rate."""
        return math.exp(errors * math.log(rate.best / other) + (shots - errors) * (math.log1p(-rate.best) - math.log1p(-other)))

    assert math.isclose(ratio(rate.low), 1000, rel_tol=1e-3) and math.isclose(ratio(rate.high), 1000, rel_tol=1e-3)


def test_nothing_is_known_without_shots():
    assert stabsim.fit_rate(0, 0) == (0.0, 0.5, 1.0)


@pytest.mark.parametrize("wrong", [(-1, 0), (1, 2), (1, -1), (1, 1, 0.5)])
def test_counts_that_can_not_be_are_told(wrong):
    with pytest.raises(ValueError):
        stabsim.fit_rate(*wrong[:2], **({"max_likelihood_factor": wrong[2]} if wrong[2:] else {}))


@pytest.mark.parametrize("each", [0.0, 1e-12, 0.01, 0.3, 0.5])
@pytest.mark.parametrize("rounds", [1, 2, 7])
def test_rounds_together_have_the_rate_of_all(each, rounds):
    whole = 0.0
    for _ in range(rounds):
        whole = whole * (1 - each) + each * (1 - whole)
    assert math.isclose(stabsim.rate_per_round(whole, rounds), each, rel_tol=1e-6 if each < 0.5 else 0.03)
    assert stabsim.rate_per_round(1 - whole, rounds) == pytest.approx(1 - stabsim.rate_per_round(whole, rounds))


def test_a_rate_of_rounds_has_its_interval():
    rate = stabsim.fit_rate(1000, 30)
    assert rate.per_round(3) == tuple(stabsim.rate_per_round(it, 3) for it in rate)
    for wrong in ((1.5, 2), (0.1, 0)):
        with pytest.raises(ValueError):
            stabsim.rate_per_round(*wrong)
