"""The proved simulator of Clifford circuits stabsim, from Python with numpy.

- `Circuit`: a circuit in Stim's text, with its noise, and what the program says of it, as arrays; `from_stim` judges one at once.
- `Session`: a circuit with its recorded run, which follows each edit, noise too; made by `Circuit.edit`.
- `without_noise`: a text without its noise, which the program reads.
- `NoiseModel`: noise of the literature, put on a circuit; `with_chances` changes its chances.
- `error_model`: what the noise of a circuit flips, and how often.
- `collect`: counts logical errors of many error models, on many cores, with a file to go on from.
- `codes`: circuits of codes; it needs no numpy.

Everything is computed by the program, which is found by the variable STABSIM, in this repository, or on the PATH. No proof covers what the
package adds: what it makes of Stim's text, error models and their samples. docs/use/python.md of the repository begins with examples.

Modules lie in folders by subject, and each folder begins with a page on what is in it. A module imports from its own folder and from those
before it alone, except for types, in this order: `errors`, `checking`, `program`, `bars` and `streams` beside this page, `formats`, `text`, `shots`,
`questions`, `noise`, `collecting`, `session`, `diagrams`, `circuit`, `page`, and the commands beside this page. `codes` imports `checking` and `streams` alone.
"""

import importlib
from typing import TYPE_CHECKING

__version__ = "0.2.0"

__all__ = [
    "BadErrorModel", "BadPrediction", "BadShots", "Block", "Cause", "Changed", "Channel", "Circuit", "CircuitError", "CoinTable", "Collection",
    "DecidingCoin", "Decoder", "Diagram", "Distance", "Effect", "ErrorModel", "FaultTable", "Flow", "Instruction", "Item", "ItemSteps",
    "MissingProgram", "NoiseModel", "NoisySession", "NotDecomposed", "Numbers", "OtherExperiment", "Parity", "Path", "Predict", "ProgramFailed",
    "RandomBit", "Rate", "Refused", "Retargeted", "SameDistribution", "SameFlows", "Seeded", "Session", "SessionEnded", "SessionNumbers",
    "SparseMatrix", "StabsimError", "StimCircuit", "Sums", "Sure", "Turn", "UnsupportedNoise", "Way", "codes", "collect", "combine", "error_model",
    "find_program", "fit_rate", "from_stim", "m2d", "plot", "rate_per_round", "read_shots", "retargeted", "with_chances", "without_noise",
    "write_shots",
]

# A module is read when one of its names is asked for first, so that `stabsim.codes` needs no numpy.
if TYPE_CHECKING:
    from stabsim import codes
    from stabsim.circuit.circuit import Circuit, StimCircuit, from_stim
    from stabsim.circuit.measured import m2d
    from stabsim.circuit.noise_models import NoiseModel
    from stabsim.circuit.noise_rules import Channel, with_chances
    from stabsim.collecting.collecting import Collection, collect
    from stabsim.collecting.counting import Decoder, Predict
    from stabsim.collecting.plotting import plot
    from stabsim.collecting.rates import Rate, fit_rate, rate_per_round
    from stabsim.collecting.sums import Sums
    from stabsim.collecting.totals import combine
    from stabsim.diagrams import Diagram
    from stabsim.errors import (
        BadErrorModel, BadPrediction, BadShots, MissingProgram, NotDecomposed, OtherExperiment, ProgramFailed, Refused, SessionEnded, StabsimError,
        UnsupportedNoise,
    )
    from stabsim.formats.formats import read_shots, write_shots
    from stabsim.formats.sparse import SparseMatrix
    from stabsim.noise.causes import Cause
    from stabsim.noise.models import ErrorModel, error_model
    from stabsim.program import find_program
    from stabsim.questions.asked import Numbers
    from stabsim.questions.circuit_errors import CircuitError
    from stabsim.questions.coins import CoinTable
    from stabsim.questions.distances import Distance
    from stabsim.questions.faults import FaultTable
    from stabsim.questions.flows import Flow, SameFlows
    from stabsim.questions.parities import Parity, SameDistribution
    from stabsim.questions.random_bits import DecidingCoin, RandomBit
    from stabsim.questions.sure import Sure
    from stabsim.questions.ways import Effect, Turn, Way
    from stabsim.session.retargeting import Retargeted, retargeted
    from stabsim.session.script import Path
    from stabsim.session.session import NoisySession, Session
    from stabsim.session.session_answers import Changed, ItemSteps, SessionNumbers
    from stabsim.shots.seeds import Seeded
    from stabsim.text.judging import without_noise
    from stabsim.text.reading import Block, Instruction, Item
else:
    # Where each name is.
    HOMES = {
        "circuit.circuit": ("Circuit", "StimCircuit", "from_stim"),
        "circuit.measured": ("m2d",),
        "circuit.noise_models": ("NoiseModel",),
        "circuit.noise_rules": ("Channel", "with_chances"),
        "collecting.collecting": ("Collection", "collect"),
        "collecting.counting": ("Decoder", "Predict"),
        "collecting.plotting": ("plot",),
        "collecting.rates": ("Rate", "fit_rate", "rate_per_round"),
        "collecting.sums": ("Sums",),
        "collecting.totals": ("combine",),
        "diagrams": ("Diagram",),
        "errors": ("BadErrorModel", "BadPrediction", "BadShots", "MissingProgram", "NotDecomposed", "OtherExperiment", "ProgramFailed", "Refused",
                   "SessionEnded", "StabsimError", "UnsupportedNoise"),
        "formats.formats": ("read_shots", "write_shots"),
        "formats.sparse": ("SparseMatrix",),
        "noise.causes": ("Cause",),
        "noise.models": ("ErrorModel", "error_model"),
        "program": ("find_program",),
        "questions.asked": ("Numbers",),
        "questions.circuit_errors": ("CircuitError",),
        "questions.coins": ("CoinTable",),
        "questions.distances": ("Distance",),
        "questions.faults": ("FaultTable",),
        "questions.flows": ("Flow", "SameFlows"),
        "questions.parities": ("Parity", "SameDistribution"),
        "questions.random_bits": ("DecidingCoin", "RandomBit"),
        "questions.sure": ("Sure",),
        "questions.ways": ("Effect", "Turn", "Way"),
        "session.retargeting": ("Retargeted", "retargeted"),
        "session.script": ("Path",),
        "session.session": ("NoisySession", "Session"),
        "session.session_answers": ("Changed", "ItemSteps", "SessionNumbers"),
        "shots.seeds": ("Seeded",),
        "text.judging": ("without_noise",),
        "text.reading": ("Block", "Instruction", "Item"),
    }

    def __getattr__(name: str) -> object:
        if name == "codes":
            return importlib.import_module("stabsim.codes")
        for home, names in HOMES.items():
            if name in names:
                return getattr(importlib.import_module(f"stabsim.{home}"), name)
        raise AttributeError(f"module {__name__!r} has no attribute {name!r}")

    def __dir__() -> list[str]:
        return __all__
