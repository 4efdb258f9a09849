"""The distance of an error model as a problem for MaxSAT solvers, in the text that they read. No proof covers it."""

from collections.abc import Sequence
from dataclasses import dataclass, field

# A problem that no assignment solves, of one variable: it is and is not.
UNSOLVABLE = "p wcnf 1 2 3\n3 -1 0\n3 1 0\n"


@dataclass
class Clauses:
    """Clauses that an assignment has to satisfy, over the variables of errors, from 1 on, and over those that are made for parities.

    A literal is a variable, or minus it if the variable is to be false.
    """

    variables: int
    clauses: list[tuple[int, ...]] = field(default_factory=list)

    def sum_of(self, left: int, right: int) -> int:
        """A new variable that is true if and only if exactly one of two is."""
        self.variables += 1
        both = self.variables
        self.clauses += [(-left, -right, -both), (left, right, -both), (left, -right, both), (-left, right, both)]
        return both

    def parity_of(self, variables: Sequence[int]) -> int | None:
        """A variable that is true if and only if an odd number of these are; None if there are none."""
        if not variables:
            return None
        parity = variables[0]
        for variable in variables[1:]:
            parity = self.sum_of(parity, variable)
        return parity


def sat_problem(flipping: Sequence[Sequence[int]], errors: int, detectors: int) -> str:
    """The text, in the format `p wcnf`, of which errors flip an observable and no detector, as few of them as can be.

    flipping: for each detector, and then each observable, the numbers of the errors that flip it, from 0 on. Error k is variable k + 1.
    Each error that happens breaks one clause of weight 1; clauses of greater weight say that no detector is flipped, and some observable
    is. So an assignment that breaks W clauses, all of weight 1, is a logical error of W errors, and each logical error is one.
    """
    hard = Clauses(errors)
    parities = [hard.parity_of([error + 1 for error in its]) for its in flipping]
    observables = [parity for parity in parities[detectors:] if parity is not None]
    if not observables:
        return UNSOLVABLE
    hard.clauses += [(-parity,) for parity in parities[:detectors] if parity is not None]
    hard.clauses.append(tuple(observables))
    top = errors + 1
    lines = [f"p wcnf {hard.variables} {errors + len(hard.clauses)} {top}"]
    lines += [f"1 -{error + 1} 0" for error in range(errors)]
    lines += [" ".join(map(str, (top, *clause, 0))) for clause in hard.clauses]
    return "\n".join(lines) + "\n"
