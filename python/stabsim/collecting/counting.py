"""Counting logical errors of one part of the shots of an error model: what a worker of `collect` does."""

import os
import platform
import threading
import time
from collections.abc import Callable
from dataclasses import dataclass
from typing import Any

import numpy as np
from numpy.typing import NDArray

from stabsim.errors import BadPrediction
from stabsim.noise.models import ErrorModel

Predict = Callable[[NDArray[np.bool_]], Any]
Decoder = Callable[[ErrorModel], Predict]

# How many experiments' models a process keeps.
MOST_EXPERIMENTS = 4


@dataclass(frozen=True, eq=False)
class Load:
    """What a worker needs to count parts of a model: it is sent to a worker that does not have it.

    postselect: bool (detectors,), those of which none may be 1 in a shot that is kept; or None.
    """

    model: ErrorModel
    decoder: Decoder
    postselect: NDArray[np.bool_] | None


@dataclass(frozen=True)
class Part:
    """Some shots of a model: `experiment` is the same for all parts of one call of `collect`."""

    experiment: str
    name: str
    seed: int
    first_shot: int
    shots: int


@dataclass(frozen=True)
class Counted:
    """What came of a part, and the name of the process that counted it."""

    name: str
    first_shot: int
    shots: int
    errors: int
    seconds: float
    discards: int = 0
    worker: str = ""


@dataclass(frozen=True)
class Missing:
    """A process does not have what it needs for a part."""

    part: Part
    worker: str


class Held:
    """What this process was sent, of the experiments that came last."""

    def __init__(self) -> None:
        self.lock = threading.Lock()
        self.loads: dict[str, dict[str, Load]] = {}

    def take(self, part: Part, load: Load | None) -> Load | None:
        """What a part needs: what came with it, which is kept, or what came before."""
        with self.lock:
            of_experiment = self.loads.pop(part.experiment, {})
            if load:
                of_experiment[part.name] = load
            self.loads[part.experiment] = of_experiment
            while len(self.loads) > MOST_EXPERIMENTS:
                del self.loads[next(iter(self.loads))]
            return of_experiment.get(part.name)

    def drop(self, experiment: str) -> None:
        """Forgets what an experiment needed that has ended."""
        with self.lock:
            self.loads.pop(experiment, None)


class Decoders(threading.local):
    """The decoders that a thread has made of models in one experiment. No two threads use the same."""

    def __init__(self) -> None:
        self.experiment = ""
        self.of_models: dict[str, Predict] = {}

    def of(self, part: Part, load: Load) -> Predict:
        """The decoder of a part's model, which is made once."""
        if self.experiment != part.experiment:
            self.experiment = part.experiment
            self.of_models = {}
        if part.name not in self.of_models:
            self.of_models[part.name] = load.decoder(load.model)
        return self.of_models[part.name]


held = Held()
decoders = Decoders()


def prediction(part: Part, load: Load, detectors: NDArray[np.bool_]) -> NDArray[Any]:
    """What the decoder of a part's model predicts. What it raises gets a note that names the model."""
    try:
        return np.asarray(decoders.of(part, load)(detectors))
    except Exception as fault:
        fault.add_note(f"raised by the decoder of {part.name}")
        raise


def count(part: Part, load: Load | None = None) -> Counted | Missing:
    """Draws the shots of a part, decodes them, and counts those in which some observable was predicted wrongly."""
    worker = f"{platform.node()} {os.getpid()}"
    found = held.take(part, load)
    if not found:
        return Missing(part, worker)
    began = time.perf_counter()
    drawn = found.model.drawn(part.shots, part.seed, part.first_shot, as_it_is=True)
    detectors, observables = drawn[:, : found.model.num_detectors], drawn[:, found.model.num_detectors :]
    if found.postselect is not None:
        is_kept = ~detectors[:, found.postselect].any(axis=1)
        detectors, observables = detectors[is_kept], observables[is_kept]
    predicted = prediction(part, found, detectors)
    if predicted.shape != observables.shape:
        raise BadPrediction(f"the decoder of {part.name} gave an array {predicted.shape}, and not one of (shots, observables), "
                            f"which is {observables.shape}")
    errors = int(np.any(predicted.astype(np.bool_) != observables, axis=1).sum())
    return Counted(part.name, part.first_shot, part.shots, errors, time.perf_counter() - began, part.shots - len(detectors), worker)
