"""What a user's program does with the package, with all types said: mypy --strict finds nothing in it."""

from concurrent.futures import ThreadPoolExecutor

import numpy as np
from numpy.typing import NDArray

import stabsim
from stabsim import Circuit, ErrorModel, Refused, codes, collect, error_model


def no_decoder(model: ErrorModel) -> stabsim.Predict:
    def predict(detectors: NDArray[np.bool_]) -> NDArray[np.bool_]:
        return np.zeros((len(detectors), model.num_observables), dtype=np.bool_)

    return predict


def counts() -> dict[str, int]:
    noise = codes.Noise.uniform(0.01)
    models = {str(distance): error_model(codes.repetition_code(distance, 3, noise=noise), decompose=True) for distance in (3, 5)}
    with ThreadPoolExecutor() as executor:
        sums: dict[str, stabsim.Sums] = {it.name: it for it in collect(models, ("none", no_decoder), shots=1024, seed=1, executor=executor)}
    return {name: it.errors for name, it in sums.items()}


def rates(path: str) -> list[stabsim.Rate]:
    masks = {"3": np.zeros(4, dtype=np.bool_)}
    with collect({"3": stabsim.ErrorModel.from_file(path)}, ("none", no_decoder), errors=5, seed=1, metadata={"3": {"d": 3}}, postselect=masks) as counting:
        found: list[stabsim.Sums] = list(counting)
    stabsim.plot(found, x="d", group=lambda it: it.decoder)
    rate: stabsim.Rate = stabsim.fit_rate(found[-1].kept, found[-1].errors).per_round(3)
    return [it.rate() for it in stabsim.combine("one.csv", "other.csv")] + [rate]


def matrices(model: ErrorModel) -> NDArray[np.bool_]:
    checks, observables = model.sparse_check_matrices("csr")
    causes: list[stabsim.Cause] = model.explain(0)
    print(observables.data.sum(), [cause.line for cause in causes])
    packed: NDArray[np.uint8] = model.sample(10, seed=1, bit_packed=True)[0]
    for detectors, _ in model.iter_sample(10, 5, seed=1):
        print(detectors.shape, packed.shape)
    return checks.dense()


def files(circuit: Circuit) -> NDArray[np.bool_]:
    records = stabsim.read_shots("records.b8", format="b8", num_measurements=9, bit_packed=True)
    stabsim.write_shots("records.01", records, format="01", num_measurements=9)
    detectors, _ = stabsim.m2d(circuit, records, separate_observables=True)
    return detectors


def codes_of() -> list[str]:
    code = codes.CssCode([[1, 1]], np.array([[1, 1]]))
    three = [(0, 0), (0, 1), (1, 0)]
    return [codes.css_code([[1, 1]], [[1, 1]], 2), codes.toric_code(3, 2, basis="X"), codes.bivariate_bicycle_code(3, 3, three, three, 2), repr(code)]


def flipped(circuit: Circuit, path: stabsim.Path, text: str) -> NDArray[np.int64]:
    with circuit.edit() as session:
        try:
            session.insert(path, text)
        except Refused as refused:
            print(refused.number, refused.line, refused.explanation)
        changed: stabsim.Changed = session.changed()
        return changed.detectors


def measured(circuit: Circuit) -> dict[str, tuple[str, ...]]:
    twice: Circuit = circuit + 2 * circuit
    print(twice.num_qubits, [block.repeat for block in twice if isinstance(block, stabsim.Block)])
    return {item.path: item.targets for item in twice.walk() if item.name == "M"}


def drawn(circuit: Circuit, flow: stabsim.Flow) -> bool:
    picture: stabsim.Diagram = circuit.diagram("detslice", tick=range(3), detectors=[0, "L0"])
    picture.save("picture.svg", "dark")
    with circuit.edit() as session:
        session.insert_errors([stabsim.CircuitError(3, "1", ((0, "X"),)), stabsim.CircuitError.of_line("4 1 M0")])
    return circuit.with_detectors([(0, 1)]).has_flow(flow) and circuit.has_flow("X0 -> Z0 xor rec[-1]")


def asked(circuit: Circuit, other: Circuit) -> list[int]:
    table: stabsim.CoinTable = circuit.coins()
    reasons: dict[str, tuple[stabsim.DecidingCoin, ...]] = {bit.name: bit.coins for bit in circuit.explain()}
    parities: list[stabsim.Parity] = circuit.missing_detectors()
    flows: list[stabsim.Flow] = circuit.flow_generators(qubits=range(3), records=False)
    same: stabsim.SameFlows = circuit.same_flows(other, records=False)
    if not (same and circuit.same_distribution(other)):
        print(same.flow, reasons, table.constants().sum(), len(flows))
    found: stabsim.Distance = circuit.distance(everywhere=True, letters="XZ", most=4)
    with circuit.with_detectors(parities).edit() as session:
        session.insert_errors(found.errors)
        print([coin.path for coin in session.why("D0")], session.distance(3).distance)
    model = error_model(circuit.text)
    return [error.steps for error in stabsim.from_stim(circuit.text).distance(graphlike=True).errors] + list(model.distance(most=3).mechanisms)


def noisy(text: str) -> int:
    read: stabsim.StimCircuit = 2 * stabsim.from_stim(text) + stabsim.StimCircuit.from_file("noisy.stim")
    parities: NDArray[np.bool_] = stabsim.m2d(read, np.zeros((2, read.num_records), dtype=np.bool_))
    chances: list[float] = [chance for channel in read.noise for chance in channel.numbers()]
    shots: stabsim.Seeded[np.bool_] = read.sample(10)
    detectors, _ = read.detect(10, seed=shots.seed, separate_observables=True)
    with read.edit() as session:
        records: NDArray[np.bool_] = session.records()
    print(chances, parities, detectors.seed, records.sum(), read.items_of_line[1][0], error_model(read).dem)
    return read.line_of_item["0"]


def main() -> None:
    circuit = Circuit.from_file("circuit.stim")
    detectors, observables = circuit.detect(10, seed=3, separate_observables=True)
    alone: NDArray[np.bool_] = circuit.detect(10)
    table: stabsim.FaultTable = circuit.faults(everywhere=True)
    deterministic: stabsim.Sure = circuit.deterministic()
    print(counts(), flipped(circuit, 3, "X 0"), detectors.shape, observables.shape, alone.shape, len(table), deterministic.detectors.all())
