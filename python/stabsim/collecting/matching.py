"""A decoder by matching: exact, of least weight, over the graph of an error model, by networkx. It is slow, and meant for small codes.

Each part of a decomposed model is an edge between two detectors, or between one and the boundary. In a model that is not decomposed, the
mechanisms that flip more than two detectors have no edge, and are left out.
"""

import importlib
import math
from collections.abc import Callable, Sequence
from typing import Any

import numpy as np
from numpy.typing import NDArray

from stabsim.noise.models import ErrorModel

BOUNDARY = -1
# For each node how far it is, and what the edges on the way flip.
Nearest = dict[int, tuple[float, int]]


def networkx() -> Any:
    return importlib.import_module("networkx")


def graph_of(model: ErrorModel) -> Any:
    """The edges of a model, each with its chance, its weight and the observables that it flips, as a number in base 2."""
    chances: dict[tuple[int, int, int], float] = {}
    for mechanism, chance in enumerate(model.chances.tolist()):
        for flipped in map(np.ndarray.tolist, model.all_parts[mechanism]):
            ends = [it for it in flipped if it < model.num_detectors]
            if 1 <= len(ends) <= 2:
                observables = sum(1 << (it - model.num_detectors) for it in flipped if it >= model.num_detectors)
                edge = (ends[-1], ends[0] if len(ends) == 2 else BOUNDARY, observables)
                chances[edge] = chances.get(edge, 0.0) * (1 - chance) + chance * (1 - chances.get(edge, 0.0))
    graph = networkx().Graph()
    graph.add_node(BOUNDARY)
    # If two edges differ only in observables, the likelier one stays. One that never happens is no way.
    for (one, other, flips), chance in sorted(chances.items(), key=lambda item: item[1]):
        if chance:
            # What happens more often than not is no further than nothing is.
            graph.add_edge(one, other, weight=math.log((1 - chance) / chance) if chance < 0.5 else 0.0, flips=flips)
    return graph


def nearest(graph: Any, source: int, most: float | None = None) -> Nearest:
    """The nodes of a graph that are up to a most of distance from a source."""
    before, distances = networkx().dijkstra_predecessor_and_distance(graph, source, cutoff=most)
    flips = {source: 0}
    for node in list(distances)[1:]:
        flips[node] = flips[before[node][0]] ^ graph.edges[before[node][0], node]["flips"]
    return {node: (distances[node], flips[node]) for node in distances}


class Matching:
    """The likeliest set of edges that flips the detectors that are seen."""

    def __init__(self, model: ErrorModel) -> None:
        self.observables = model.num_observables
        graph = graph_of(model)
        # From where no way leads to the boundary it is further than any way.
        far = 1.0 + sum(weight for *_, weight in graph.edges(data="weight"))
        self.to_boundary: Nearest = {node: (far, 0) for node in graph} | nearest(graph, BOUNDARY)
        graph.remove_node(BOUNDARY)
        # Two that are further apart than both are from the boundary are not matched to each other.
        furthest = max(distance for distance, _ in self.to_boundary.values())
        self.between = {node: nearest(graph, node, self.to_boundary[node][0] + furthest) for node in graph}

    def decode_batch(self, detectors: NDArray[np.bool_]) -> NDArray[np.bool_]:
        """What is flipped of the observables in each shot, bool (shots, observables). Shots that see the same are decoded once. ValueError if
        detectors are parities, some 1 without noise."""
        if not getattr(detectors, "are_flips", True):
            raise ValueError("these are parities, of which some are 1 without noise: give what detect(.., flips=True) draws")
        different, of_shot = np.unique(detectors, axis=0, return_inverse=True)
        masks = [self.decode(np.flatnonzero(shot).tolist()) for shot in different]
        bits = [[mask >> it & 1 for it in range(self.observables)] for mask in masks]
        found: NDArray[np.bool_] = np.array(bits, dtype=np.bool_).reshape(len(masks), self.observables)
        every: NDArray[np.bool_] = found[of_shot.reshape(-1)]
        return every

    def decode(self, seen: Sequence[int]) -> int:
        """The same of one shot, as a number in base 2. All that are seen are matched to the boundary at first; what matching two to
        each other gains is a weight, and pairs that gain nothing are left out."""
        flips = 0
        gains = networkx().Graph()
        seen = [it for it in seen if it in self.between]
        for place, one in enumerate(seen):
            flips ^= self.to_boundary[one][1]
            for other in seen[place + 1 :]:
                if other in self.between[one]:
                    gain = self.to_boundary[one][0] + self.to_boundary[other][0] - self.between[one][other][0]
                    if gain > 0:
                        gains.add_edge(one, other, weight=gain)
        for part in networkx().connected_components(gains):
            for one, other in networkx().max_weight_matching(gains.subgraph(part)):
                flips ^= self.to_boundary[one][1] ^ self.to_boundary[other][1] ^ self.between[one][other][1]
        return flips


def decoder(model: ErrorModel) -> Callable[[NDArray[np.bool_]], NDArray[np.bool_]]:
    return Matching(model).decode_batch
