"""Of which errors the page asks for a distance, and how the program is asked: by marks, everywhere, or of the circuit's own noise."""

from collections.abc import Callable, Iterable
from dataclasses import replace
from typing import NamedTuple

import stabsim
from stabsim.noise.model_distance import circuit_text, flipping_of_model, mechanisms_of
from stabsim.page.noise import OWN
from stabsim.questions.distances import Distance, distance_of
from stabsim.text.reading import Block, Item

# Beside those of the circuit's own noise: the errors that `I` marks, and errors everywhere.
MARKED, EVERYWHERE = "marked", "everywhere"
KINDS = (OWN, MARKED, EVERYWHERE)


class Question(NamedTuple):
    """What the program is asked: the text of a circuit, and options; and what is read from what it writes."""

    text: str
    words: list[str]
    read: Callable[[str], Distance]


def question_of(kind: str, text: str) -> Question:
    """The question for the distance of a circuit by errors of a kind. Of its own noise the error model is made first."""
    if kind == OWN:
        return question_of_noise(stabsim.error_model(text, approximate_disjoint_errors=True))
    is_everywhere = kind == EVERYWHERE
    return Question(text, ["--everywhere"] * is_everywhere, lambda written: distance_of(written, is_everywhere))


def question_of_noise(model: stabsim.ErrorModel) -> Question:
    """The question for the distance of a circuit's error model, by its mechanisms that have a chance: an error of the answer is the first
    that makes its mechanism."""
    numbers, flipping = flipping_of_model(model)

    def read(written: str) -> Distance:
        found = distance_of(written)
        assert model.causes is not None, "it was made of a circuit"
        errors = sorted((model.error_of(it, model.causes) for it in mechanisms_of(found, numbers)), key=lambda error: (error.steps, str(error)))
        return replace(found, errors=tuple(errors), searched="all errors of its own noise")

    return Question(circuit_text(flipping, model.num_detectors, len(numbers)), [], read)


def errors_marked(items: Iterable[Item]) -> int:
    """How many errors items mark by `I`: three at each target, or fifteen at each pair, with the rounds of blocks written out."""
    count = 0
    for item in items:
        if isinstance(item, Block):
            count += item.repeat * errors_marked(item.items)
        elif item.name == "I":
            count += len(item.targets) // 2 * 15 if item.tag == "pairs" else len(item.targets) * 3
    return count
