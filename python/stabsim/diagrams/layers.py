"""The layers in which the instructions of a tick are drawn."""

from collections.abc import Iterable
from dataclasses import dataclass

from stabsim.diagrams.targets import Action, actions_of
from stabsim.text.moments import PAULIS, Acted
from stabsim.text.ticks import Placed

# The most layers of one tick that are drawn.
MOST_LAYERS = 64


@dataclass(frozen=True)
class Done:
    """An action in the run: record: the number of the record that it makes, or that controls it, else -1."""

    action: Action
    record: int = -1


def layers_of(instructions: Iterable[Placed]) -> list[list[Done]]:
    """Actions in layers: a new one begins where a moment would. Products of one instruction may share qubits."""
    layers: list[list[Done]] = [[]]
    acted = Acted()
    for it in instructions:
        actions = list(actions_of(it.item))
        for group in [actions] if it.item.name == "MPP" else [[action] for action in actions]:
            qubits = [qubit for action in group for qubit in action.qubits]
            is_pauli = it.item.name in PAULIS
            if acted.meets(qubits, is_pauli):
                layers.append([])
                acted = Acted()
                if len(layers) > MOST_LAYERS:
                    raise ValueError(f"tick {it.tick} has over {MOST_LAYERS} layers of gates; a TICK between them makes several pictures")
            acted.act(qubits, is_pauli)
            layers[-1] += [Done(action, record_of(action, it.records)) for action in group]
    return layers


def record_of(action: Action, before: int) -> int:
    """The number of the record that an action makes, or that controls it, with this many before its instruction; -1 if there is none."""
    if action.is_measured:
        return before + action.place
    return before - action.record if action.record else -1
