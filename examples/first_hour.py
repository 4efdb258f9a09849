"""A first hour with stabsim: a noisy file of Stim's, why a detector is random, a flow, the distance, an edit, and a threshold.

    PYTHONPATH=python python3 examples/first_hour.py threshold.png

It needs Debian's python3-numpy, python3-networkx and python3-matplotlib.
"""

import pathlib
import sys

import matplotlib
import stabsim
from stabsim import codes
from stabsim.collecting.matching import decoder

# A noisy file, read.
circuit = stabsim.Circuit.from_file(pathlib.Path(__file__).with_name("noisy_surface_code.stim"))
print(repr(circuit), circuit.num_qubits, circuit.num_detectors, circuit.num_observables)

# Which detectors are random, and why; and what could be detected that isn't.
[bit] = circuit.explain()
lines = {item.path: item.line for item in circuit.walk()}
print(f"{bit}, which are lines {lines[bit.path]} and {lines[bit.coins[0].path]}")
[missing] = circuit.missing_detectors()
print(missing)

# A flow: one of the later rounds keeps the logical Z.
[block] = (item for item in circuit if item.repeat)
one_round = stabsim.Circuit("\n".join(str(item) for item in block.items if item.name != "DETECTOR"))
print(one_round.has_flow("Z1*Z3*Z5 -> Z1*Z3*Z5"), one_round.has_flow("X1*X8*X15 -> X1*X8*X15"), one_round.has_flow("Z1 -> Z1"))

# The distance of the noise without the random detector; an edit that mends it, and the distance again, of all errors.
print(circuit.distance(sure_only=True))
with circuit.edit() as session:
    session.replace(bit.path, f"DETECTOR(4, 4, 0) rec[{missing.records[0] - 8}]")
    print(session.item(bit.path).strip(), session.deterministic().detectors.all())
    found = stabsim.Circuit(session.circuit()).distance(everywhere=True)
    session.insert_errors(found.errors)
    print(found, [str(error) for error in found.errors], session.changed(), sep="\n")

# A threshold: rates of logical errors by matching, for two distances.
metadata = {f"d={d},p={p}": {"d": d, "p": p} for d in (3, 5) for p in (0.004, 0.008, 0.012)}
models = {name: stabsim.error_model(codes.surface_code(int(its["d"]), 3, noise=codes.Noise.uniform(its["p"])), decompose=True)
          for name, its in metadata.items()}
sums = {it.name: it for it in stabsim.collect(models, ("matching", decoder), shots=1024, seed=1, metadata=metadata)}
print(*(f"{name}: {its.errors} of {its.shots}" for name, its in sums.items()), sep="\n")
matplotlib.use("Agg")
stabsim.plot(sums.values(), x="p", group="d").figure.savefig(*sys.argv[1:2] or ["threshold.png"])
