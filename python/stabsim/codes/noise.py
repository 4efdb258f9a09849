"""The standard noise of a memory experiment."""

from dataclasses import dataclass, fields

from stabsim import checking


@dataclass(frozen=True)
class Noise:
    """The chances of four kinds of error, each a float from 0 to 1, else TypeError or ValueError; those that are 0 are left out of the
    text.

    before_round: DEPOLARIZE1 on each data qubit in front of each round.
    after_gate: DEPOLARIZE1 or DEPOLARIZE2 after each gate, and DEPOLARIZE1 on each qubit of a product after its measurement.
    after_reset: the flip that a reset can meet, X_ERROR or, of a reset in X, Z_ERROR.
    before_measurement: the same in front of each measurement of a qubit; of products, which MPP measures, the chance that
    the record is wrong.
    """

    before_round: float = 0.0
    after_gate: float = 0.0
    after_reset: float = 0.0
    before_measurement: float = 0.0

    def __post_init__(self) -> None:
        for field in fields(self):
            # A chance of numpy's is written as Python's.
            object.__setattr__(self, field.name, checking.chance(field.name, getattr(self, field.name)))

    @classmethod
    def uniform(cls, chance: float) -> "Noise":
        """Noise of one parameter: each of the four with this chance. `stabsim.codes.NOISE_MODELS` names what it is for each code:
        circuit-level, or, if products are measured, phenomenological plus data."""
        return cls(chance, chance, chance, chance)

    @classmethod
    def phenomenological(cls, chance: float) -> "Noise":
        """Errors of data qubits in front of each round, and of measurements, with this chance."""
        return cls(before_round=chance, before_measurement=chance)
