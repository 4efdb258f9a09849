"""Flows that name observables with Pauli targets: these count as if they were measured where they stand, which disturbs nothing.

A qubit that begins in |+> controls the Paulis, and the output of the flow has X on it too: back through each controlled Pauli, X becomes X times
that Pauli. If some anticommute with what the output is there, only the state of Y is kept, and the flow has no sign.
"""

from collections.abc import Collection, Sequence
from dataclasses import replace

import numpy as np
from numpy.typing import NDArray

from stabsim.noise.marking import marked
from stabsim.noise.pauli_observables import RESETS, controlled_lines
from stabsim.questions.asked import Asked, Numbers
from stabsim.questions.flows import Flow, asking_text
from stabsim.text.profile import Profile
from stabsim.text.reading import items_of


def flows_with_paulis(profile: Profile, flows: Sequence[Flow], observables: Collection[int], numbers: Numbers, unsigned: bool) -> NDArray[np.bool_]:
    """Which flows a circuit has that have the Paulis of some observables beside the records that they name, bool (flows,); numbers: of the
    circuit, and qubits of the flows too; unsigned: whatever the sign."""
    # The marks of noise do nothing.
    items = items_of(marked(profile.noisy.items(), True).text)
    joint = [replace(flow, output=(*flow.output, (numbers.qubits, "X"))) for flow in flows]
    found = np.zeros(len(flows), dtype=np.bool_)
    for reset in RESETS[: 1 + unsigned]:
        text = "\n".join(controlled_lines(items, observables, reset, numbers.qubits))
        asked = Asked(asking_text(text, joint, numbers.qubits + 1, numbers.records))
        is_negative = asked.detect(1, seed=0)[0]
        found |= asked.deterministic().detectors & (unsigned | (is_negative == np.array([flow.sign for flow in flows], dtype=np.bool_)))
    return found
