"""What is asked of circuits by algebra, or of circuits with more in them; and circuits and coordinates that are made of their text."""

from collections.abc import Iterable, Sequence
from dataclasses import dataclass, replace
from typing import TYPE_CHECKING, Self

import numpy as np
from numpy.typing import NDArray

from stabsim import checking
from stabsim.circuit import flattening, inverting
from stabsim.circuit.flows_of_observables import flows_with_paulis
from stabsim.noise.pauli_observables import pauli_observables
from stabsim.questions import flow_group, missing, parities
from stabsim.questions.asked import Asked
from stabsim.questions.flows import Flow, SameFlows, asking_text
from stabsim.questions.parities import Parity, SameDistribution, detector_lines
from stabsim.text import coordinates, judging, sweeping
from stabsim.text.reading import closed_text, items_of
from stabsim.text.record_sums import observable_records
from stabsim.text.written import Written

if TYPE_CHECKING:
    from stabsim.circuit.circuit import Circuit
    from stabsim.circuit.noise_models import NoiseModel


@dataclass(frozen=True, eq=False)
class Described(Written, Asked):
    """A circuit as its text, and what is asked of that."""

    def without_noise(self) -> "Circuit":
        """The circuit without its noise, in text that the program reads: `stabsim.without_noise` of its text.

        >>> import stabsim
        >>> print(stabsim.from_stim("MXX(0.1) 0 1").without_noise())
        MPP X0*X1
        """
        from stabsim.circuit.circuit import Circuit

        return Circuit(judging.without_noise(self.text))

    def with_noise(self, model: "NoiseModel", *, data: Iterable[int] | None = None) -> "Circuit":
        """This circuit, which has no noise, with that of a model: `NoiseModel.on` of it.

        >>> import stabsim
        >>> print(stabsim.Circuit("R 0\\nM 0").with_noise(stabsim.NoiseModel.sd6(0.001)), end="")
        R 0
        X_ERROR(0.001) 0
        M(0.001) 0
        """
        from stabsim.circuit.noise_models import NoiseModel

        return checking.of_kind("model", model, NoiseModel, "a NoiseModel, as stabsim.NoiseModel.sd6(0.001)").on(self.text, data=data)

    @property
    def num_sweep_bits(self) -> int:
        """One more than the greatest sweep bit that is named; 0 if none is."""
        self.numbers()
        return sweeping.number_of_bits(self.text)

    def with_sweep_bits(self, bits: Iterable[bool]) -> Self:
        """This circuit with a Pauli, or nothing, in the place of each that a sweep bit decides about; the circuit itself is that of bits 0.

        bits: one for each sweep bit, or more.

        >>> import stabsim
        >>> c = stabsim.Circuit("CX sweep[0] 0 sweep[1] 1\\nM 0 1")
        >>> print(c.with_sweep_bits([False, True]), c.sample(1).tolist(), c.with_sweep_bits([False, True]).sample(1).tolist())
        X 1
        M 0 1 [[False, False]] [[False, True]]
        """
        given = list(checking.several("bits", bits, "[True, False]"))
        if len(given) < self.num_sweep_bits:
            raise ValueError(f"bits is {checking.shown(given)}: give {self.num_sweep_bits} bits, one for each sweep bit")
        return self.of_text(sweeping.with_bits(self.text, given))

    def flattened(self) -> Self:
        """This circuit with blocks written out and coordinates shifted, so without REPEAT and SHIFT_COORDS; comments are left out. ValueError
        if it has over two million instructions then.

        >>> import stabsim
        >>> print(stabsim.Circuit("REPEAT 2 {\\nMR(0.1) 0\\nDETECTOR(5, 0) rec[-1]\\nSHIFT_COORDS(0, 1)\\n}").flattened(), end="")
        MR(0.1) 0
        DETECTOR(5, 0) rec[-1]
        MR(0.1) 0
        DETECTOR(5, 1) rec[-1]
        """
        self.numbers()
        return self.of_text("".join(f"{item}\n" for item in flattening.flattened(self.items)))

    def inverse(self) -> Self:
        """The circuit that undoes this one, which has gates, TICK, noise and QUBIT_COORDS alone: the last gate first, each as its inverse.
        Channels stay what they are, QUBIT_COORDS comes first, and comments are left out. ValueError names the first line without an inverse.

        >>> import stabsim
        >>> print(stabsim.Circuit("H 0\\nS 0 1\\nX_ERROR(0.1) 0\\nCX 0 1 1 2").inverse(), end="")
        CX 1 2 0 1
        X_ERROR(0.1) 0
        S_DAG 1 0
        H 0
        """
        self.numbers()
        return self.of_text("".join(f"{item}\n" for item in inverting.inverted(self.items)))

    def with_detectors(self, parities: Iterable[Parity | Iterable[int]]) -> Self:
        """This circuit with a DETECTOR at its end for each parity: for one of `missing_detectors`, or for records as numbers from 0.

        >>> import stabsim
        >>> print(stabsim.Circuit("MX 0\\nMX 0").with_detectors([(0, 1)]), end="")
        MX 0
        MX 0
        DETECTOR rec[-2] rec[-1]
        """
        some: list[Parity | list[int]]
        some = [it if isinstance(it, Parity) else [checking.whole("a record", record) for record in checking.several("a parity", it, "(0, 3)")]
                for it in checking.several("parities", parities, "[(0, 3)]")]
        return self.of_text(closed_text(self.text) + detector_lines(some, self.num_records))

    def detector_coordinates(self) -> NDArray[np.float64]:
        """The coordinates of each detector, float64 (detectors, width): width is the most that one has, and nan is there if
        another has none. SHIFT_COORDS counts, also in blocks, as in Stim. The program judges the circuit first.

        >>> import stabsim
        >>> c = stabsim.Circuit("M 0\\nREPEAT 2 {\\nDETECTOR(5, 0) rec[-1]\\nSHIFT_COORDS(0, 1)\\n}")
        >>> c.detector_coordinates().tolist()
        [[5.0, 0.0], [5.0, 1.0]]
        """
        # The program judges the circuit first, so what is made here is within its limits.
        self.numbers()
        return coordinates.detector_coordinates(self.asked)

    def qubit_coordinates(self) -> NDArray[np.float64]:
        """The coordinates of each qubit, float64 (qubits, width), nan if a qubit has none.

        >>> import stabsim
        >>> stabsim.Circuit("QUBIT_COORDS(3, 4) 1").qubit_coordinates().tolist()
        [[nan, nan], [3.0, 4.0]]
        """
        return coordinates.qubit_coordinates(self.asked, self.numbers().qubits)

    # Questions that the program answers of circuits with more in them, or that are made of its answers.

    def has_flow(self, flow: str | Flow, *, unsigned: bool = False) -> bool:
        """Whether the circuit turns a Pauli in front of it into one after it, up to records, signs included. docs/use/flows.md says more.

        flow: as "X0*Z1 -> -Y2 xor rec[-1] xor obs[0]"; 1 is no Pauli, and obs[0] all records of that observable, and its Paulis, as if they
        were measured where they stand. The circuit and the flow name up to 512 qubits, and those that the circuit does not name stay as they
        are. unsigned: whatever the sign. ValueError or IndexError at a misspelt flow.

        >>> import stabsim
        >>> c = stabsim.Circuit("MPP X0*X1\\nOBSERVABLE_INCLUDE(2) rec[-1]")
        >>> [c.has_flow(it) for it in ("X0 -> X1 xor rec[-1]", "X0 -> X1 xor obs[2]", "X0 -> X1", "1 -> XX xor rec[-1]", "Z0 -> Z0")]
        [True, True, False, True, False]
        >>> c.has_flow("X0 -> -X1 xor rec[-1]"), c.has_flow("X0 -> -X1 xor rec[-1]", unsigned=True)
        (False, True)
        """
        if isinstance(flow, str):
            flow = Flow.of_text(flow)
        given = checking.of_kind("flow", flow, Flow, "a text as 'X0 -> Z0 xor rec[-1]', or a stabsim.Flow")
        return bool(self.flows_that_hold([given], unsigned)[0])

    def flows_that_hold(self, flows: Sequence[Flow], unsigned: bool = False) -> NDArray[np.bool_]:
        """Which flows the circuit has, bool (flows,): one, or several of which all that one circuit could have."""
        before = self.numbers()
        numbers = replace(before, qubits=max([before.qubits, *(flow.qubits for flow in flows)]))
        paulis: list[tuple[int, ...]] = [()] * len(flows)
        if any(flow.observables for flow in flows):
            of_observables, with_paulis = observable_records(items_of(self.asked)), set(pauli_observables(self.text))
            paulis = [tuple(sorted(with_paulis.intersection(flow.observables))) for flow in flows]
            flows = [flow.with_records(of_observables, before.records) for flow in flows]
        found = np.zeros(len(flows), dtype=np.bool_)
        for its in set(paulis):
            places = [place for place, named in enumerate(paulis) if named == its]
            some = [flows[place] for place in places]
            found[places] = (flows_with_paulis(judging.judged(self.text), some, its, numbers, unsigned) if its
                             else self.flows_of_records(some, numbers.qubits, unsigned))
        return found

    def flows_of_records(self, flows: Sequence[Flow], qubits: int, unsigned: bool) -> NDArray[np.bool_]:
        """The same of flows that name no observables, on this many qubits."""
        before = self.numbers()
        asked = Asked(asking_text(self.asked, flows, qubits, before.records))
        is_deterministic = asked.deterministic().detectors[before.detectors :]
        is_negative = asked.detect(1, seed=0)[0, before.detectors :]
        found: NDArray[np.bool_] = is_deterministic & (unsigned | (is_negative == np.array([flow.sign for flow in flows], dtype=np.bool_)))
        return found

    def flow_generators(self, *, qubits: Iterable[int] | None = None, records: bool = True) -> list[Flow]:
        """Flows of which all others of the circuit are products, signs included.

        qubits: only flows on these, in front and after; records: whether flows may name records. The circuit has up to 512 qubits.

        >>> import stabsim
        >>> for flow in stabsim.Circuit("R 1\\nCX 0 1\\nMX 0").flow_generators():
        ...     print(flow)
        X0 -> X1 xor rec[-1]
        Z0 -> Z1
        1 -> X0 xor rec[-1]
        """
        return self.generators_on(self.numbers().qubits, some_qubits(qubits), records)

    def generators_on(self, count: int, qubits: Iterable[int] | None, records: bool) -> list[Flow]:
        """The generators with this many qubits, as many as the circuit names or more."""
        rows = flow_group.joint_rows(Asked(flow_group.measured_text(self.asked, [], count)).stabilisers(), count)
        found = flow_group.generators_of(Asked(flow_group.measured_text(self.asked, rows, count)).coins(), rows, count)
        return found if qubits is None and records else flow_group.within(found, qubits, records, count)

    def same_flows(self, other: "Described", *, qubits: Iterable[int] | None = None, records: bool = True) -> SameFlows:
        """Whether another circuit has the same flows, and else a flow that one of them has and the other does not have.

        qubits, records: only flows on these qubits, or that name no records, as of `flow_generators`. With records both circuits have
        as many, else a ValueError is raised.

        >>> import stabsim
        >>> swap = stabsim.Circuit("CX 0 1 1 0 0 1")
        >>> bool(swap.same_flows(stabsim.Circuit("SWAP 0 1")))
        True
        >>> found = swap.same_flows(stabsim.Circuit("SWAP 0 1\\nX 0"))
        >>> print(found.same, found.flow, found.first)
        False Z1 -> Z0 True
        """
        checked(other)
        has = [circuit.numbers() for circuit in (self, other)]
        if records and has[0].records != has[1].records:
            raise ValueError(f"{has[0].records} records and {has[1].records} have no flows in common; records=False leaves them out")
        count, some = max(its.qubits for its in has), some_qubits(qubits)
        for circuit, another in ((self, other), (other, self)):
            flows = circuit.generators_on(count, some, records)
            lacking = np.flatnonzero(~another.flows_that_hold(flows))
            if len(lacking):
                return SameFlows(False, flows[lacking[0]], circuit is self)
        return SameFlows(True)

    def missing_detectors(self, *, unknown_input: bool = False, observables: bool = False) -> list[Parity]:
        """Parities of records that are the same for all random bits, and that the circuit's detectors and observables don't give: such that all
        others are sums of these and those. `Circuit.with_detectors` puts them in. Each has a detecting region that lasts as few instructions
        as can be, then begins at few resets, then has few records.

        A parity that is in none of the three less than an observable may be that observable in another form: its sum with it is what is
        answered. unknown_input: the qubits are in any state at first, and not 0. observables: take observables for unknown; what may
        be one is then `is_logical`. Without observables this is so too, by the longest parity that begins at a reset.

        >>> import stabsim
        >>> c = stabsim.Circuit("R 0 1 2\\nM 0 1 2\\nOBSERVABLE_INCLUDE(0) rec[-3]")
        >>> [its.records for its in c.missing_detectors()]
        [(0, 1), (0, 2)]
        >>> [(its.records, its.is_logical) for its in c.missing_detectors(observables=True)]
        [((0,), True), ((1,), True), ((2,), True)]
        """
        return missing.missing_detectors(self.asked, self.numbers().qubits, unknown_input, observables)

    def same_distribution(self, other: "Described") -> SameDistribution:
        """Whether another circuit with as many records gives the same distribution of them, and else a parity in which they differ.

        >>> import stabsim
        >>> pair = stabsim.Circuit("H 0\\nCX 0 1\\nM 0 1")
        >>> bool(pair.same_distribution(stabsim.Circuit("MPP X0*X1\\nM 0 1")))
        Traceback (most recent call last):
        ValueError: 2 records and 3 have no distribution in common
        >>> pair.same_distribution(stabsim.Circuit("H 0 1\\nM 0 1"))
        SameDistribution(same=False, parity=(0, 1), first=False, second=None)
        """
        return parities.compared(self.coins(), checked(other).coins())


def checked(other: Described) -> Described:
    """The circuit that another is compared with."""
    return checking.of_kind("other", other, Described, "a circuit, as stabsim.Circuit(text)")


def some_qubits(qubits: Iterable[int] | None) -> list[int] | None:
    """The qubits that a flow is on, or None if it may be on any."""
    return None if qubits is None else [checking.whole("a qubit", it) for it in checking.several("qubits", qubits, "[0, 3]")]
