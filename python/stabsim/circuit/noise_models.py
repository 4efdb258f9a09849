"""Noise models of the literature, each a table of chances by instruction and place. No proof covers what they make of a circuit."""

from collections.abc import Iterable
from dataclasses import dataclass

from stabsim import checking
from stabsim.circuit.circuit import Circuit, circuit_text, from_stim
from stabsim.noise.noise_placing import Placing, text_with_noise


@dataclass(frozen=True)
class NoiseModel(Placing):
    """A noise model, which `on` puts on a circuit. Another model differs by some chances: dataclasses.replace.

    gate: DEPOLARIZE1 after each gate on one qubit.
    pair: DEPOLARIZE2 after each gate on a pair; None if the model has no such gates. Paulis that records control have no noise.
    reset: after each reset of a qubit, MR too, the flip that it can meet: Z_ERROR after one in X, else X_ERROR.
    record: the record of each measured qubit is wrong.
    product: the record of each measured product is wrong; None if the model has none.
    after_product: after a measured product of two qubits DEPOLARIZE2 on these, and after another DEPOLARIZE1 on each.
    mixed_pair: of each measured product of two qubits, one of 32 errors, as likely as each other one: no Pauli or one of 15 on its qubits,
    with or without a wrong record. A qubit that the circuit lacks is measured with the product, which makes this exact.
    idle: DEPOLARIZE1 at the end of a moment on the qubits on which nothing acts in it.
    waiting: at the end of a moment in which something is measured or reset, DEPOLARIZE1 on the other qubits.
    data: DEPOLARIZE1 on data qubits in front of the first gate on a pair, or measured product, of the circuit, or of each round.
    each_round: whether that is in each round; checks_alone: whether records of data qubits are right.

    A moment ends at a TICK, and at the beginning and end of a block. A round ends with its DETECTORs. Data qubits are those that no
    round but the last measures by themselves.

    >>> import stabsim
    >>> print(stabsim.NoiseModel.si1000(0.001).on("R 0 1\\nTICK\\nCZ 0 1\\nTICK\\nM 1"), end="")
    R 0 1
    X_ERROR(0.002) 0 1
    TICK
    CZ 0 1
    DEPOLARIZE2(0.001) 0 1
    TICK
    M(0.005) 1
    DEPOLARIZE1(0.0001) 0
    DEPOLARIZE1(0.002) 0
    """

    @classmethod
    def uniform(cls, chance: float) -> "NoiseModel":
        """Circuit-level noise of one chance: gates, resets, records, waiting qubits, and measured products with their qubits."""
        return cls(gate=chance, pair=chance, reset=chance, record=chance, product=chance, after_product=chance, idle=chance)

    @classmethod
    def sd6(cls, chance: float) -> "NoiseModel":
        """Standard depolarising noise of a cycle of six steps (Gidney, Newman, Fowler, Broughton 2021): as `uniform`, without products."""
        return cls(gate=chance, pair=chance, reset=chance, record=chance, product=None, idle=chance)

    @classmethod
    def si1000(cls, chance: float) -> "NoiseModel":
        """Superconducting-inspired noise of a cycle of 1000 ns (the same authors): records err five times as often as pairs of CZ, resets
        and waiting for these twice, gates on one qubit and idle qubits a tenth."""
        return cls(gate=chance / 10, pair=chance, reset=2 * chance, record=5 * chance, product=None, idle=chance / 10, waiting=2 * chance)

    @classmethod
    def em3(cls, chance: float) -> "NoiseModel":
        """Noise of entangling measurements in a cycle of three steps (the same authors): pairs are measured as products with one of 32
        errors by the chance, and resets and records of qubits err half as often."""
        return cls(gate=chance, pair=None, reset=chance / 2, record=chance / 2, mixed_pair=chance, idle=chance)

    @classmethod
    def code_capacity(cls, chance: float) -> "NoiseModel":
        """Errors of data qubits alone, once, in front of the first round."""
        return cls(data=chance)

    @classmethod
    def phenomenological(cls, chance: float) -> "NoiseModel":
        """Errors of data qubits in front of each round, and wrong records of checks: of products and of qubits that are no data qubits."""
        return cls(data=chance, each_round=True, record=chance, product=chance, checks_alone=True)

    def on(self, circuit: str | Circuit, *, data: Iterable[int] | None = None) -> Circuit:
        """A circuit without noise, with the noise of this model: its lines stay, and those of noise come between them.

        circuit: any of Stim's, perhaps as text. data: the data qubits, if they are others than those that the circuit shows.
        Raises ValueError if the circuit has noise already or an instruction that the model has not, and stabsim.Refused as `from_stim`.
        """
        given = circuit if isinstance(circuit, Circuit) else from_stim(circuit_text(circuit))
        if given.left_out:
            raise ValueError(f"this circuit has noise, which stabsim.without_noise(text) takes out: {given.left_out[0]}")
        qubits = None if data is None else [checking.whole("a data qubit", it) for it in checking.several("data", data, "[0, 3]")]
        return from_stim(text_with_noise(given.text, self, qubits))
