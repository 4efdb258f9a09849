"""How far counting is, as a line on a terminal."""

from collections.abc import Iterable

from stabsim.bars import bar_of
from stabsim.collecting.sums import Sums


class Progress:
    """A line on standard error if that is a terminal and tqdm is there; else nothing is written."""

    def __init__(self, models: int) -> None:
        self.bar = bar_of(models, "model")

    def tell(self, done: int, sums: Iterable[Sums]) -> None:
        """Renews the line: how many models are done, and what was counted of all of them."""
        if self.bar:
            every = list(sums)
            self.bar.n = done
            self.bar.set_postfix_str(f"{sum(it.shots for it in every)} shots, {sum(it.errors for it in every)} errors")

    def close(self) -> None:
        """Leaves the line as it is."""
        if self.bar:
            self.bar.close()
