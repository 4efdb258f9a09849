"""Pictures of error rates, by matplotlib."""

import importlib
from collections.abc import Callable, Iterable
from typing import Any

from stabsim import checking
from stabsim.collecting.rates import Rate
from stabsim.collecting.sums import Sums

# What is drawn.
EXAMPLE = "the sums of stabsim.combine('counts.csv'), or those that stabsim.collect yields"
Number = str | float | Callable[[Sums], float]

# Colours that also differ for those who can't distinguish red from green, by Okabe and Ito, and a mark beside each.
COLOURS = ("#0072b2", "#d55e00", "#009e73", "#cc79a7", "#e69f00", "#56b4e9", "#000000")
MARKS = "osD^vPX"


def plot(counted: Iterable[Sums], *, x: Number, group: str | Callable[[Sums], Any] | None = None, rounds: Number = 1, axes: Any = None,
         max_likelihood_factor: float = 1000.0) -> Any:
    """Draws rates of errors with their intervals, a line for each group, and answers the axes.

    x: what is drawn to the right, and rounds: of how many rounds one is taken (`rate_per_round`): a number, the name of one in the
    metadata, or a function of the sums. group: a name in the metadata, or a function. axes: matplotlib's; without it new ones. Each point is
    the likeliest rate, with a bar over those that are less likely by up to this factor (`fit_rate`). If there are no errors, a
    triangle is at the greatest of them. It needs matplotlib (Debian: python3-matplotlib).

    >>> import matplotlib, stabsim
    >>> matplotlib.use("Agg")
    >>> sums = [stabsim.Sums(f"{d} {p}", 1000, int(1000 * p), metadata={"d": d, "p": p}) for d in (3, 5) for p in (0.01, 0.1)]
    >>> axes = stabsim.plot(sums, x="p", group="d")
    >>> [text.get_text() for text in axes.get_legend().get_texts()]
    ['d = 3', 'd = 5']
    """
    every = [checking.of_kind("a sum", it, Sums, EXAMPLE) for it in checking.several("counted", counted, EXAMPLE)]
    if axes is None:
        axes = importlib.import_module("matplotlib.pyplot").subplots()[1]
    groups: dict[Any, list[tuple[float, Rate]]] = {}
    for sums in every:
        rate = sums.rate(max_likelihood_factor=max_likelihood_factor).per_round(number_of(sums, rounds))
        groups.setdefault(of(sums, group), []).append((number_of(sums, x), rate))
    for place, (name, points) in enumerate(groups.items()):
        label = None if group is None else f"{group} = {name}" if isinstance(group, str) else str(name)
        draw(axes, sorted(points), COLOURS[place % len(COLOURS)], MARKS[place % len(MARKS)], label)
    axes.set_yscale("log")
    axes.set_ylabel("logical error rate" + ("" if rounds == 1 else " of a round"))
    if isinstance(x, str):
        axes.set_xlabel(x)
    if group is not None:
        axes.legend()
    return axes


def draw(axes: Any, points: list[tuple[float, Rate]], colour: str, mark: str, label: str | None) -> None:
    """Draws one line: points with errors, and triangles at the ends of the intervals of those without."""
    some = [(x, rate) for x, rate in points if rate.best]
    bars = [[rate.best - rate.low for _, rate in some], [rate.high - rate.best for _, rate in some]]
    axes.errorbar([x for x, _ in some], [rate.best for _, rate in some], yerr=bars, color=colour, marker=mark, capsize=3, label=label)
    none = [(x, rate.high) for x, rate in points if not rate.best]
    axes.plot([x for x, _ in none], [high for _, high in none], linestyle="none", marker=r"$\triangledown$", markersize=9, color=colour)


def of(sums: Sums, what: Any) -> Any:
    """A number, what the metadata has by a name, or what a function says of the sums."""
    if callable(what):
        return what(sums)
    if isinstance(what, str):
        if what not in sums.metadata:
            raise ValueError(f"the metadata of {sums.name} has no {what}")
        return sums.metadata[what]
    return what


def number_of(sums: Sums, what: Number) -> float:
    """The same as a number."""
    return float(of(sums, what))
