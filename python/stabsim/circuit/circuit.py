"""A circuit in Stim's text, with its noise, and what the program says of it."""

import functools
import pathlib
from collections.abc import Iterable, Mapping
from concurrent.futures import Executor
from dataclasses import dataclass, replace
from os import PathLike
from typing import TypeGuard, get_args

import numpy as np
from numpy.typing import NDArray

from stabsim import checking, program
from stabsim.circuit.described import Described
from stabsim.diagrams import Diagram, Kind, Ticks, diagram_of, model_diagram, ticks_of_detectors
from stabsim.errors import Refused, UnsupportedNoise
from stabsim.formats import bits
from stabsim.noise.detecting import regions_by_name
from stabsim.noise.models import ErrorModel, error_model
from stabsim.noise.noisy_records import RecordNoise, record_noise_of
from stabsim.noise.pauli_observables import pauli_observables
from stabsim.questions.coins import CoinTable
from stabsim.questions.distances import Distance, Letters
from stabsim.questions.faults import FaultTable
from stabsim.questions.random_bits import RandomBit
from stabsim.session.explaining import in_words
from stabsim.session.session import Session
from stabsim.shots import chunks, shot_parts
from stabsim.text import names
from stabsim.text.carrying import carried, cut_path, paths_made
from stabsim.text.judging import judged
from stabsim.text.profile import Profile
from stabsim.text.reading import Instruction, Item, items_of, walk

Bits = NDArray[np.bool_]


@dataclass(frozen=True, repr=False, eq=False)
class Circuit(Described):
    """A circuit in Stim's circuit text, with its noise, comments and tags, which stays as it is.

    text: str, which can't be set. Two are equal if their items are, noise too, however they are written. Items are read from the text, and
    all else is asked of the program, which raises stabsim.Refused, with the words of `stabsim check`, if it refuses the circuit, and
    stabsim.MissingProgram if there is none. Instructions that the program does not read are asked as those that do the same; paths and
    lines of all answers are those of this text. Questions are answered without the noise, except of shots, error models, the distance and
    the pictures of the noise; `circuit` is the circuit without it, in text that the program reads.

    >>> import stabsim
    >>> once = stabsim.Circuit('''H 0
    ... CX 0 1
    ... MR 0 1
    ... DETECTOR rec[-1] rec[-2]''')
    >>> twice = stabsim.Circuit("R 0 1") + 2 * once
    >>> twice.num_qubits, twice.num_records, twice.num_detectors
    (2, 4, 2)
    >>> [(item.path, item.name, item.repeat) for item in twice]
    [('0', 'R', None), ('1', 'REPEAT', 2)]
    >>> twice.detect(3, seed=7).any()
    False
    >>> noisy = stabsim.Circuit("R 0 1\\nX_ERROR(0.25) 0\\nMZZ 0 1\\nDETECTOR rec[-1]")
    >>> noisy.line_of_item["1"], noisy.items_of_line[3], noisy.noise[0].path, noisy.left_out
    (3, ('1',), '1', ['line 2: X_ERROR(0.25) 0'])
    """

    def __post_init__(self) -> None:
        checking.text("text", self.text, "stabsim.Circuit.from_file(path)")

    @classmethod
    def from_file(cls, path: str | PathLike[str]) -> "Circuit":
        """The circuit whose text a file has now, as by `from_stim`.

        >>> import os, tempfile
        >>> import stabsim
        >>> with tempfile.TemporaryDirectory() as folder:
        ...     (2 * stabsim.Circuit("X_ERROR(0.1) 0")).to_file(os.path.join(folder, "noisy.stim"))
        ...     print(stabsim.Circuit.from_file(os.path.join(folder, "noisy.stim")))
        REPEAT 2 {
            X_ERROR(0.1) 0
        }
        <BLANKLINE>
        """
        return from_stim(program.text_of(pathlib.Path(checking.file_name("path", path)).read_bytes()))

    def __repr__(self) -> str:
        about = f"{len(self.text.splitlines())} lines"
        if "known_numbers" in vars(self):
            has = self.known_numbers
            about = f"{has.qubits} qubits, {has.steps} steps, {has.detectors} detectors"
        noisy = self.profile.noisy_lines if "profile" in vars(self) else 0
        lines = "of them" if about.endswith("lines") else f"line{'s' * (noisy > 1)}"
        return f"<stabsim.Circuit: {about}{f', noise in {noisy} {lines}' if noisy else ''}>"

    def of_text(self, text: str) -> "Circuit":
        """The circuit of another text."""
        return Circuit(text)

    # What the program is asked.

    @functools.cached_property
    def profile(self) -> Profile:
        """The texts that this one becomes, which the program has judged."""
        return judged(self.text)

    @property
    def asked(self) -> str:
        """The circuit as the program is asked, with an item for each of this circuit's."""
        return self.text if self.profile.said is not None else self.carried

    @functools.cached_property
    def carried(self) -> str:
        """The same of a circuit that the program does not read as it is."""
        return carried(self.text, comments=False)

    def checked(self) -> bytes:
        """What `check` says of it."""
        return super().checked() if self.profile.said is None else self.profile.said

    @functools.cached_property
    def made(self) -> frozenset[str]:
        """The paths of items that are several for the program."""
        return frozenset() if self.profile.said is not None else paths_made(items_of(self.asked))

    def cut(self, paths: NDArray[np.str_]) -> NDArray[np.str_]:
        """Paths of the program's as those of this circuit's items."""
        return np.array([cut_path(path, self.made) for path in paths.tolist()], dtype=np.str_) if self.made else paths

    @property
    def circuit(self) -> "Circuit":
        """The circuit without its noise, in text that the program reads: lines that it reads stay as they are, comments too."""
        return self if self.profile.said is not None else self.quiet_circuit

    @functools.cached_property
    def quiet_circuit(self) -> "Circuit":
        """The same of a circuit that the program does not read as it is."""
        return Circuit(self.profile.circuit.text)

    # Noise, and lines.

    @functools.cached_property
    def noise(self) -> tuple[Instruction, ...]:
        """The channels that do something, and measurements with the chance of a wrong record: with the user's lines and paths."""
        if not self.profile.left_out:
            return ()
        written = {item.line: item for item in self.walk() if isinstance(item, Instruction)}
        heralded = {item.line: item for item in written.values() if item.name in names.HERALDED}
        others = [replace(item, path=written[item.line].path) for item in walk(self.noisy_items())
                  if is_noise(item) and item.line not in heralded]
        return tuple(sorted([*heralded.values(), *others], key=lambda item: item.line))

    def noisy_items(self) -> tuple[Item, ...]:
        """The items of the circuit with its noise, each with the user's line that it comes from."""
        return self.profile.noisy.items()

    @functools.cached_property
    def line_of_item(self) -> Mapping[str, int]:
        """For the path of each item of `circuit`, as `3/0/2`, the user's line that it comes from."""
        return {item.path: item.line for item in walk(self.profile.circuit.items())}

    @functools.cached_property
    def items_of_line(self) -> Mapping[int, tuple[str, ...]]:
        """For each of the user's lines from which items of `circuit` come, their paths, one after the other."""
        found: dict[int, tuple[str, ...]] = {}
        for path, line in self.line_of_item.items():
            found[line] = (*found.get(line, ()), path)
        return found

    @property
    def left_out(self) -> list[str]:
        """What the text has and `circuit` does not have, a note for each line of noise."""
        return [f"line {line}: {what}" for line, what in self.profile.left_out.items()]

    @functools.cached_property
    def known_model(self) -> ErrorModel:
        """What the noise flips: `error_model` of this circuit, which is made once."""
        return error_model(self)

    @functools.cached_property
    def drawn_model(self) -> ErrorModel:
        """The same, or of noise that no independent errors make a model that has the noise as it is."""
        try:
            return self.known_model
        except UnsupportedNoise:
            return error_model(self, approximate_disjoint_errors=True)

    @functools.cached_property
    def record_noise(self) -> RecordNoise:
        """What the noise flips among records."""
        return record_noise_of(self.profile)

    # Shots.

    def packed(self, what: shot_parts.What, width: int, shots: int, seed: int, first_shot: int, executor: Executor | None,
               parts: int) -> NDArray[np.uint8]:
        """Shots of this many bits, packed: records with noise, and all else without it."""
        shots, first_shot = chunks.checked(shots, first_shot)
        quiet = super().packed(what, width, shots, seed, first_shot, executor, parts)
        return quiet ^ self.record_noise.drawn(shots, seed, first_shot) if what == "sample" and self.noise else quiet

    def detected(self, both: bool, width: int, shots: int, seed: int, first_shot: int, executor: Executor | None, parts: int,
                 flips: bool) -> tuple[NDArray[np.uint8], Bits]:
        """The detectors of shots, and which of their bits are not flips alone: with noise, parities turned over by what that flips."""
        if not flips and not self.noise:
            return super().detected(both, width, shots, seed, first_shot, executor, parts, flips)
        shots, first_shot = chunks.checked(shots, first_shot)
        if not flips and pauli_observables(self.text):
            # Their records may be random where their sum with the Paulis is not; this refuses such.
            self.circuit.faults()
        # Without noise all shots are the same, if no coin decides them.
        quiet = bits.unpacked(self.packed("detect_both" if both else "detect", width, 1, seed, 0, None, 1), width)
        flipped = self.flipped(shots, seed, first_shot)[:, :width]
        parities = quiet & (not flips)
        return bits.packed(flipped ^ parities), parities[0]

    def flipped(self, shots: int, seed: int, first_shot: int) -> Bits:
        """What noise flips in shots: detectors, and then observables. It is refused if coins decide a bit."""
        model = self.drawn_model
        bits.make_room(shots, model.num_detectors + model.num_observables)
        return model.drawn(shots, seed, first_shot, as_it_is=True)

    # Questions.

    def faults(self, *, everywhere: bool = False, sure_only: bool = False) -> FaultTable:
        table = super().faults(everywhere=everywhere, sure_only=sure_only)
        return replace(table, paths=self.cut(table.paths))

    def coins(self) -> CoinTable:
        table = super().coins()
        return replace(table, paths=self.cut(table.paths))

    def explain(self) -> list[RandomBit]:
        return [replace(bit, path=cut_path(bit.path, self.made),
                        coins=tuple(coin._replace(path=cut_path(coin.path, self.made)) for coin in bit.coins)) for bit in super().explain()]

    def distance(self, *, everywhere: bool = False, letters: Letters = "all", most: int | None = None, graphlike: bool = False,
                 sure_only: bool = False, count: bool = False, workers: int = 1) -> Distance:
        """The least number of errors that flip an observable and no detector: exact, for any circuit.

        Of a circuit with noise, errors are those of the noise: `ErrorModel.distance`, for which chances don't count, so disjoint errors are
        taken for independent ones. Of one without, they are X, Y and Z at each target of `I`; I[X], I[Y], I[Z] and I[XZ] have these letters
        alone, and I[pairs] all fifteen products on each pair of its targets. With everywhere they are those of circuit-level noise,
        whatever the circuit has: after gates and resets, before measurements, and each record wrong by itself. letters: with XZ only
        errors of X alone and of Z alone, of marks or everywhere. most: the most errors that are looked for. graphlike: only errors that
        flip at most two detectors, after any other gave way to the X and the Z at each of its qubits, which takes less time. count:
        `Distance.count` says how many such sets there are, which takes longer the more there are. Raises stabsim.Refused,
        18 NotDeterministic, as `faults` does; with sure_only random bits are left out.

        workers: how many processes look, for the same answer. One has two seconds; then all look for each further number of errors in
        turn, a part of the sets each, and each time for fewer ones first. So it pays if a number takes several times as long as the one
        before it. If tqdm is there, a line on a terminal says how far they are. Ctrl-C ends them. Not beside graphlike or count.

        >>> import stabsim
        >>> c = stabsim.Circuit("R 0 1 2\\nI[X] 0 1 2\\nMPP Z0*Z1 Z1*Z2\\nDETECTOR rec[-1]\\nDETECTOR rec[-2]\\nM 0\\nOBSERVABLE_INCLUDE(0) rec[-1]")
        >>> print(c.distance(), c.distance(most=2), sep="; ")
        distance 3 of all marked errors; none up to 2 of all marked errors
        >>> c.distance(count=True).count, c.distance(most=2, count=True).count
        (1, 0)
        >>> c = stabsim.Circuit("R 0 1\\nX_ERROR(0.1) 0 1\\nM 0\\nM(0.1) 1\\nDETECTOR rec[-1] rec[-2]\\nOBSERVABLE_INCLUDE(0) rec[-1]")
        >>> [f"{error} of item {error.path}" for error in c.distance().errors]
        ['X0 of item 1', 'X1 of item 1']
        """
        if everywhere or not self.noise:
            found = super().distance(everywhere=everywhere, letters=letters, most=most, graphlike=graphlike, sure_only=sure_only, count=count,
                                     workers=workers)
            return replace(found, errors=tuple(replace(error, path=cut_path(error.path, self.made)) for error in found.errors))
        if letters != "all":
            checking.one_of("letters", letters, get_args(Letters))
            raise ValueError(f"letters is {letters!r}: give everywhere=True with it, since errors here are those of the noise")
        return error_model(self, approximate_disjoint_errors=True, sure_only=sure_only).distance(most=most, graphlike=graphlike, count=count, workers=workers)

    def diagram(self, kind: Kind, *, tick: Ticks | None = None, detectors: Iterable[int | str] | None = None) -> Diagram:
        """A picture, which a notebook shows and `save` writes as SVG, in light and dark colours.

        - `timeline`: a wire for each qubit, noise too; a block is drawn once.
        - `timeslice`: what acts on the qubits, where they lie, after the TICK of this number, or with tick=0 from the beginning on.
        - `detslice`: the regions of detectors at that TICK: which Paulis there flip each. detectors: some alone, as 3, "D3" or "L0".
        - `detslice-with-ops`: both, what acts over the regions.
        - `matchgraph`: detectors, and a line for each error of the noise that flips one or two of them; of a circuit without noise, for each
          single fault of X or Z.

        tick may be several, as range(3, 6). Detectors that coins decide have no region.

        >>> import stabsim
        >>> c = stabsim.Circuit("R 0 1 2\\nTICK\\nMPP Z0*Z1 Z1*Z2\\nDETECTOR rec[-1]\\nDETECTOR rec[-2]")
        >>> c.diagram("detslice", tick=1, detectors=["D0"])
        <stabsim.Diagram: detslice, 216 by 126 pixels>
        >>> stabsim.Circuit("X_ERROR(0.1) 0\\nM 0\\nDETECTOR(0) rec[-1]").diagram("matchgraph")
        <stabsim.Diagram: matchgraph, 168 by 140 pixels>
        """
        if kind == "matchgraph" and tick is None and detectors is None and self.noise:
            return model_diagram(self.known_model, ticks_of_detectors(self.circuit))
        return diagram_of(self, kind, tick, detectors)

    def detecting_regions(self, *, ticks: int | Iterable[int] | None = None,
                          detectors: Iterable[int | str] | None = None) -> dict[str, dict[int, str]]:
        """The Pauli that each detector and observable, by its name, is at each tick, as `X0*Z3`: just the errors that anticommute with it
        flip the detector. A tick or detector without one is left out, and so is a detector that coins decide. Paulis of an observable count
        as if they were measured where they stand.

        ticks, detectors: some alone. Tick k is the k-th TICK, and 0 the beginning, which Stim leaves out: its tick k is tick k + 1.

        >>> import stabsim
        >>> c = stabsim.Circuit("R 0 1\\nTICK\\nCX 0 1\\nTICK\\nM 1\\nDETECTOR rec[-1]")
        >>> c.detecting_regions()
        {'D0': {1: 'Z0*Z1', 2: 'Z1'}}
        """
        return regions_by_name(self, ticks, detectors)

    def edit(self, *, qubits: int | None = None, seed: int = 0, stride: int | None = None) -> Session:
        """An editing session that begins with this circuit, noise and comments too; use it as a context manager, or close it.

        qubits: how many there are, of which the circuit and each edit may name some; without it, those that the circuit names.
        seed: the coins are those of its shot 0. stride: the most steps between two checkpoints.

        >>> import stabsim
        >>> with stabsim.Circuit("M 0").edit(qubits=2) as session:
        ...     session.insert(1, "MX 1")
        ...     session.insert(0, "X_ERROR(0.1) 0")
        ...     session.numbers().records, len(session.error_model())
        (2, 0)
        """
        try:
            # What the program reads need not be judged first.
            return Session(self.text, qubits=qubits, seed=seed, stride=stride, profile=vars(self).get("profile"))
        except Refused as refused:
            # If the text itself is at fault, this raises the same in words.
            self.numbers()
            raise in_words(refused.number, refused.name) from None


StimCircuit = Circuit


def is_noise(item: Item) -> TypeGuard[Instruction]:
    """Whether an item is a channel, or a measurement whose record may be wrong."""
    return item.name in names.NOISE or item.name in names.MEASUREMENTS and bool(item.arguments)


def circuit_text(circuit: str | Circuit) -> str:
    """The text of a circuit, or a text itself; TypeError names another value."""
    return circuit.text if isinstance(circuit, Circuit) else checking.of_kind("circuit", circuit, str, "a text of a circuit, or a stabsim.Circuit")


def from_stim(text: str) -> Circuit:
    """Reads a circuit of Stim's, with its noise, and judges it: what `Circuit` does of a text once it is asked something.

    Instructions that the program does not read become those that it reads. Raises stabsim.Refused, with the user's line, if
    something can't be: over 1,024 qubits, or what Stim refuses too. Sweep bits are 0: `with_sweep_bits` gives others. Pauli targets of
    observables count in error models, regions, distances of noise, and in what `detect` draws of it.

    >>> import stabsim
    >>> print(stabsim.from_stim("ISWAP 3 5").circuit)
    SWAP 3 5
    CZ 3 5
    S 3 5
    >>> stabsim.from_stim("ISWAP 3")
    Traceback (most recent call last):
    stabsim.errors.Refused: line 1: refused 4 BadPairing
    1: ISWAP 3
             ^
    ISWAP takes pairs of qubits: this one has no partner.
    """
    circuit = Circuit(text)
    # It is judged here and now.
    assert circuit.profile
    return circuit
