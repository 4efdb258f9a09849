"""What was counted of an error model."""

from collections.abc import Mapping
from dataclasses import dataclass, field
from typing import Any

from stabsim.collecting.counting import Counted
from stabsim.collecting.rates import Rate, fit_rate


@dataclass
class Sums:
    """What was counted of a model.

    shots: int; discards: int, those of them that were left out for their detectors; errors: int, those of the others in which an
    observable was predicted wrongly; seconds: float, that drawing and decoding took, added over all workers; decoder: str, its name;
    seed: int, by which `ErrorModel.sample` gives these shots, or None of counts with several seeds; metadata: what was said of the model.

    >>> import stabsim
    >>> stabsim.Sums("d=3", shots=1000, errors=10).rate().best
    0.01
    """

    name: str
    shots: int = 0
    errors: int = 0
    seconds: float = 0.0
    decoder: str = ""
    seed: int | None = None
    discards: int = 0
    metadata: Mapping[str, Any] = field(default_factory=dict)

    @property
    def kept(self) -> int:
        """The shots that were not left out."""
        return self.shots - self.discards

    def rate(self, *, max_likelihood_factor: float = 1000.0) -> Rate:
        """The rate of errors in the shots that were kept, by `fit_rate`."""
        return fit_rate(self.kept, self.errors, max_likelihood_factor=max_likelihood_factor)

    def add(self, part: Counted) -> None:
        """Adds a part that begins after the last shot."""
        if part.first_shot != self.shots:
            raise ValueError(f"{self.name} has counts up to shot {self.shots}, and then from shot {part.first_shot} on")
        self.shots += part.shots
        self.errors += part.errors
        self.discards += part.discards
        self.seconds += part.seconds
