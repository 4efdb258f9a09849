"""The distance of a circuit, as `stabsim distance` writes it."""

import re
from dataclasses import dataclass, replace
from typing import Literal

from stabsim import checking
from stabsim.questions.circuit_errors import CircuitError
from stabsim.text.reading import items_of, walk

# Of which letters errors are made: of all, or of X alone and of Z alone.
Letters = Literal["all", "XZ"]
FIRST_LINE = re.compile(r"(?:distance (\d+)|none(?: up to (\d+))?)(?: of (all marked errors|all errors everywhere|graph-like errors))?")
COUNT_LINE = re.compile(r"count (\d+)(?: or more)?")
UNMARKED = "no errors, since there is no noise, and no place is marked by I; everywhere=True asks for all places"
CHANCELESS = "no errors, since the model has none that has a chance"


@dataclass(frozen=True)
class Distance:
    """The least number of errors that flip an observable and together no detector, and that many such errors.

    distance: int, or None if there are none; most: int, if it is only known that there are none up to this many, else None. errors: tuple
    of CircuitError, which `Session.insert_errors` takes; mechanisms: of an error model, tuple of int, their numbers. searched: str:
    all marked errors, all errors everywhere, or graph-like errors, which are those that flip at most two detectors, among them parts of
    others; of an error model all errors, and of a decomposed one graph-like parts of errors, which are those that it is written with. If
    there are no errors to search, it says why. count: int, how many sets of that least number there are, and 2**64 if there are more; None
    if it was not asked for.

    >>> import stabsim
    >>> c = stabsim.Circuit("R 0 1\\nI[X] 0 1\\nM 0 1\\nDETECTOR rec[-1] rec[-2]\\nOBSERVABLE_INCLUDE(0) rec[-1]")
    >>> found = c.distance()
    >>> print(found, [str(error) for error in found.errors])
    distance 2 of all marked errors ['X0', 'X1']
    >>> with c.edit() as session:
    ...     session.insert_errors(found.errors)
    ...     print(session.detectors(), session.observables())
    [False] [ True]
    """

    distance: int | None
    errors: tuple[CircuitError, ...] = ()
    searched: str = "all marked errors"
    most: int | None = None
    mechanisms: tuple[int, ...] = ()
    count: int | None = None

    def __str__(self) -> str:
        found = "none" if self.distance is None else f"distance {self.distance}"
        limit = "" if self.most is None else f" up to {self.most}"
        return f"{found}{limit} of {self.searched}"


def option_words(graphlike: bool, count: bool, workers: int) -> list[str]:
    """The options of which errors a distance is looked for, and whether its sets are counted, each of which one process does."""
    if graphlike and count:
        raise ValueError("count=True is of all errors, and not beside graphlike=True")
    if checking.whole("workers", workers, 1) > 1 and (graphlike or count):
        raise ValueError(f"workers is {workers}: give 1 beside {'graphlike' if graphlike else 'count'}=True")
    return [*["--graphlike"] * graphlike, *["--count"] * count]


def distance_of(text: str, everywhere: bool = False) -> Distance:
    """The distance of the lines that the program writes, of marked errors or of errors everywhere."""
    first, *lines = text.splitlines()
    found = FIRST_LINE.fullmatch(first)
    counted = COUNT_LINE.fullmatch(lines[-1]) if lines else None
    if not found:
        raise ValueError(f"{first!r} is no distance")
    errors = tuple(map(CircuitError.of_line, lines[:-1] if counted else lines))
    distance, most = (int(number) if number else None for number in found.groups()[:2])
    searched = found[3] or ("all errors everywhere" if everywhere else "all marked errors")
    return Distance(distance, errors, searched, most, count=int(counted[1]) if counted else None)


def of_marks(found: Distance, text: str) -> Distance:
    """The distance by the errors that a text marks, which says so if it marks none."""
    is_marked = found.distance is not None or any(item.name == "I" for item in walk(items_of(text)))
    return found if is_marked else replace(found, searched=UNMARKED)
