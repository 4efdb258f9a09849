"""Pairs of checks and qubits in layers in which none comes twice: a colouring of the edges of a bipartite graph."""

from collections.abc import Sequence

# For a check or a qubit, which one it meets in each layer.
Meetings = dict[int, int]


def layers_of(checks: Sequence[Sequence[int]]) -> list[list[tuple[int, int]]]:
    """Each check with each of its qubits, as pairs (check, qubit), in as few layers as the most pairs that one check or qubit has: no
    fewer will do, and by a theorem of König this many do."""
    sides: tuple[dict[int, Meetings], dict[int, Meetings]] = ({}, {})
    for check, qubits in enumerate(checks):
        for qubit in qubits:
            add_pair(sides, check, qubit)
    count = max((layer for meetings in sides[0].values() for layer in meetings), default=-1) + 1
    return [[(check, meetings[layer]) for check, meetings in sides[0].items() if layer in meetings] for layer in range(count)]


def add_pair(sides: tuple[dict[int, Meetings], dict[int, Meetings]], check: int, qubit: int) -> None:
    """Gives a pair a layer. If no layer is free for both, some pairs change theirs between the two that are free for one of them."""
    of_check, of_qubit = sides[0].setdefault(check, {}), sides[1].setdefault(qubit, {})
    ours, theirs = first_free(of_check), first_free(of_qubit)
    # The pairs in these two layers make a path from the qubit, which does not come to the check, since it would come in `ours`.
    path = []
    side, one, layer = 1, qubit, ours
    while layer in sides[side][one]:
        other = sides[side][one][layer]
        path.append((other, one, layer) if side else (one, other, layer))
        side, one, layer = 1 - side, other, theirs if layer == ours else ours
    for its_check, its_qubit, layer in path:
        del sides[0][its_check][layer], sides[1][its_qubit][layer]
    for its_check, its_qubit, layer in path:
        changed = theirs if layer == ours else ours
        sides[0][its_check][changed], sides[1][its_qubit][changed] = its_qubit, its_check
    of_check[ours], of_qubit[ours] = qubit, check


def first_free(meetings: Meetings) -> int:
    """The first layer in which one meets no other."""
    return next(layer for layer in range(len(meetings) + 1) if layer not in meetings)
