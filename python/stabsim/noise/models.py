"""Detector error models: what the noise of a circuit flips, and how often. No proof covers them."""

import hashlib
import itertools
import pathlib
from collections.abc import Iterator
from dataclasses import dataclass, field, replace
from os import PathLike
from typing import TYPE_CHECKING, Literal, get_args, overload

import numpy as np
from numpy.typing import NDArray

from stabsim import checking, program
from stabsim.formats import bits, combining, sparse
from stabsim.noise import dem, drawing
from stabsim.noise.causes import Cause, Causes, Sources
from stabsim.noise.decomposing import Parts, parts_of
from stabsim.noise.disjoint import Noise, noise_of
from stabsim.noise.gauges import with_gauges
from stabsim.noise.joining import joined_errors
from stabsim.noise.known_lines import KnownLines
from stabsim.noise.marked_faults import faults_of, profile_of
from stabsim.noise.marking import Marked
from stabsim.noise.model_distance import distance_of_model, sat_problem_of_model
from stabsim.noise.sourced import Rows
from stabsim.questions.circuit_errors import CircuitError
from stabsim.questions.distances import Distance
from stabsim.shots import chunks
from stabsim.shots.seeds import SeededBits, SeededBytes, drawn_seed, seeded
from stabsim.text.coordinates import detector_rows, places_of
from stabsim.text.profile import Profile

if TYPE_CHECKING:
    from stabsim.circuit.circuit import Circuit

Bits = NDArray[np.bool_]
Packed = NDArray[np.uint8]


@dataclass(frozen=True, eq=False)
class ErrorModel:
    """Independent error mechanisms: each happens by its chance, and flips its detectors and observables.

    chances: float64 (mechanisms,).
    indptr: int64 (mechanisms + 1,), and indices: int64 (flips,): mechanism i flips indices[indptr[i]:indptr[i + 1]], ascending,
    where a detector is its number, and an observable is `num_detectors` and its number. Of a model that was made of a circuit no two
    mechanisms flip the same, and they are in the order of what they flip.
    num_detectors, num_observables: int, how many of each there are.
    coordinates: float64 (detectors, width), nan if a detector has none.
    approximated: the lines of the circuit whose disjoint errors were taken for independent ones, if that was asked for.
    parts: if the model is decomposed, the parts that `dem` writes each mechanism as: `parts[i]` has what each part flips.
    causes: of a model that was made of a circuit, what `explain` looks up.
    noise: if disjoint errors were taken for independent ones, the noise as it is, from which `collect` draws.

    Its text is `str(model)`. Models with the same mechanisms, parts and coordinates in the same order are equal.

    >>> import stabsim
    >>> model = stabsim.error_model("R 0\\nX_ERROR(0.25) 0\\nM(0.125) 0\\nM 0\\nDETECTOR rec[-1]\\nDETECTOR rec[-2]\\n")
    >>> model, model.chances.tolist(), [model.flipped(it).tolist() for it in range(len(model))]
    (<stabsim.ErrorModel: 2 mechanisms, 2 detectors, 0 observables>, [0.25, 0.125], [[0, 1], [1]])
    """

    chances: NDArray[np.float64]
    indptr: NDArray[np.int64]
    indices: NDArray[np.int64]
    num_detectors: int
    num_observables: int
    coordinates: NDArray[np.float64] = field(repr=False)
    approximated: tuple[int, ...] = ()
    parts: Parts | None = field(default=None, repr=False)
    causes: Causes | None = field(default=None, repr=False)
    noise: Noise | None = field(default=None, repr=False)
    # The text that it was read from. A model with another field, by dataclasses.replace, was not read.
    was_read: str | None = field(default=None, init=False, repr=False)

    @classmethod
    def from_dem(cls, text: str) -> "ErrorModel":
        """The model of a text of Stim's detector error models, with its `repeat`, `shift_detectors` and `^`.

        Each error is a mechanism, also if others flip the same or it flips nothing: `joined` joins them. The model is written as it was
        read. stabsim.BadErrorModel names the line of what can't be read; blocks may be nested 16 deep.

        >>> import stabsim
        >>> model = stabsim.ErrorModel.from_dem("repeat 2 {\\n  error(0.125) D0 D1\\n  shift_detectors 1\\n}\\nerror[a](0.25) D0 ^ L0\\n")
        >>> [model.flipped(it).tolist() for it in range(len(model))], [part.tolist() for part in model.parts[2]]
        ([[0, 1], [1, 2], [2, 3]], [[2], [3]])
        >>> print(model, end="")
        repeat 2 {
          error(0.125) D0 D1
          shift_detectors 1
        }
        error[a](0.25) D0 ^ L0
        """
        made = dem.read(checking.text("text", text, "stabsim.ErrorModel.from_file(path)"))
        model = cls(made.chances, made.indptr, made.indices, made.detectors, made.observables, made.coordinates, parts=made.parts)
        object.__setattr__(model, "was_read", text)
        return model

    @classmethod
    def from_file(cls, path: str | PathLike[str]) -> "ErrorModel":
        """The model whose text a file has, as `from_dem` reads it."""
        return cls.from_dem(program.text_of(pathlib.Path(checking.file_name("path", path)).read_bytes()))

    def joined(self) -> "ErrorModel":
        """The model with mechanisms that flip the same joined, as independent ones, and those that flip nothing left out, in the order of
        what they flip. Of several that have parts those of the likeliest stay.

        >>> import stabsim
        >>> print(stabsim.ErrorModel.from_dem("error(0.5) D1\\nerror(0.25) D0\\nerror(0.25) D0\\nerror(0.1)\\n").joined(), end="")
        error(0.375) D0
        error(0.5) D1
        detector D0
        detector D1
        """
        found = combining.combined(self.chances, np.repeat(np.arange(len(self)), np.diff(self.indptr)), self.indices)
        # The likeliest of a mechanism comes last, and stays.
        order = np.argsort(self.chances, kind="stable")
        order = order[found.mechanisms[order] >= 0]
        likeliest = np.zeros(len(found.chances), dtype=np.int64)
        likeliest[found.mechanisms[order]] = order
        parts = None if self.parts is None else self.parts.of(likeliest)
        causes = None if self.causes is None else self.causes.renumbered(found.mechanisms)
        return replace(self, chances=found.chances, indptr=found.indptr, indices=found.indices, parts=parts, causes=causes)

    @property
    def all_parts(self) -> Parts:
        """The parts of each mechanism; of a model that is not decomposed it is its only one."""
        return Parts(np.arange(len(self) + 1), self.indptr, self.indices) if self.parts is None else self.parts

    def __eq__(self, other: object) -> bool:
        if not isinstance(other, ErrorModel):
            return NotImplemented
        return self.fields() == other.fields() and np.array_equal(self.coordinates, other.coordinates, equal_nan=True)

    def __hash__(self) -> int:
        return hash(self.fields())

    def fields(self) -> tuple[object, ...]:
        """What is equal in equal models, except coordinates."""
        parts = self.all_parts
        arrays = (self.chances, self.indptr, self.indices, parts.starts, parts.indptr, parts.indices)
        return self.num_detectors, self.num_observables, *(its.tobytes() for its in arrays)

    def __len__(self) -> int:
        return len(self.chances)

    def __bool__(self) -> bool:
        return True

    def __str__(self) -> str:
        return self.dem

    def __repr__(self) -> str:
        about = f", lines {list(self.approximated)} approximated" if self.approximated else ""
        return f"<stabsim.ErrorModel: {len(self)} mechanisms, {self.num_detectors} detectors, {self.num_observables} observables{about}>"

    def flipped(self, mechanism: int) -> NDArray[np.int64]:
        """What a mechanism flips, int64 (flips,): detectors, and observables counted on after them."""
        mechanism = checking.place("mechanism", mechanism, len(self))
        return self.indices[self.indptr[mechanism] : self.indptr[mechanism + 1]]

    def check_matrices(self) -> tuple[Bits, Bits]:
        """What mechanisms flip as a pair of bool arrays: (detectors, mechanisms) and (observables, mechanisms)."""
        table = np.zeros((self.num_detectors + self.num_observables, len(self)), dtype=np.bool_)
        table[self.indices, np.repeat(np.arange(len(self)), np.diff(self.indptr))] = True
        return table[: self.num_detectors], table[self.num_detectors :]

    def sparse_check_matrices(self, form: sparse.Form = "csc") -> tuple[sparse.SparseMatrix, sparse.SparseMatrix]:
        """What mechanisms flip as a pair of sparse matrices, (detectors, mechanisms) and (observables, mechanisms), by columns (`csc`)
        or by rows (`csr`). They need no scipy; `to_scipy` gives each as scipy has it.

        >>> import stabsim
        >>> model = stabsim.error_model("R 0 1\\nX_ERROR(0.1) 0 1\\nM 0 1\\nDETECTOR rec[-1] rec[-2]\\nOBSERVABLE_INCLUDE(0) rec[-1]\\n")
        >>> [matrix.shape for matrix in model.sparse_check_matrices("csr")]
        [(1, 2), (1, 2)]
        """
        checking.one_of("form", form, get_args(sparse.Form))
        checks, observables = sparse.split_columns(self.indptr, self.indices, self.num_detectors, self.num_detectors + self.num_observables)
        return checks.transposed(form), observables.transposed(form)

    def explain(self, mechanism: int) -> list[Cause]:
        """Which errors of the circuit make a mechanism, by their lines: each is what one line does in one round.

        >>> import stabsim
        >>> model = stabsim.error_model("R 0\\nX_ERROR(0.25) 0\\nM(0.125) 0\\nDETECTOR rec[-1]\\n")
        >>> for cause in model.explain(0):
        ...     print(cause.line, cause.name, cause.error, cause.chance)
        2 X_ERROR X0 0.25
        3 M record of 0 0.125
        """
        mechanism = checking.place("mechanism", mechanism, len(self))
        if self.causes is None:
            raise ValueError("this model was read, and not made of a circuit, so what makes its mechanisms is not known")
        return self.causes.of(mechanism)

    def distance(self, *, most: int | None = None, graphlike: bool = False, count: bool = False, workers: int = 1) -> Distance:
        """The least number of mechanisms that flip an observable and together no detector, by the program: of those that have a chance,
        each counts as one error. `Distance.mechanisms` has their numbers; of a model that was made of a circuit, `Distance.errors` has
        an error for each, with the path of its item of noise, and its step. most, count and workers: as of `Circuit.distance`, of sets of mechanisms.
        graphlike: only mechanisms that flip at most two detectors; of a decomposed model only such parts, as Stim does, each with the
        number of a mechanism that has it.

        >>> import stabsim
        >>> c = stabsim.from_stim("R 0 1\\nX_ERROR(0.1) 0 1\\nM 0 1\\nDETECTOR rec[-1] rec[-2]\\nOBSERVABLE_INCLUDE(0) rec[-1]")
        >>> found = stabsim.error_model(c).distance()
        >>> print(found, found.mechanisms, [(str(error), error.steps) for error in found.errors])
        distance 2 of all errors (0, 1) [('X0', 2), ('X1', 2)]
        """
        found = distance_of_model(self, most, graphlike, count, workers)
        if self.causes is None or not all(self.causes.of(it) for it in found.mechanisms):
            # It was read, or a coin makes one.
            return found
        return replace(found, errors=tuple(self.error_of(it, self.causes) for it in found.mechanisms))

    def shortest_error_sat_problem(self) -> str:
        r"""The same question as a text for MaxSAT solvers, in their format `p wcnf`: an assignment that breaks W of the clauses of weight 1,
        and no other, is a set of W mechanisms that flip an observable and no detector, and each such set is one. Variable k says that the
        k-th mechanism that has a chance happens.

        >>> import stabsim
        >>> print(stabsim.ErrorModel.from_dem("error(0.1) D0\nerror(0.1) D0 L0").shortest_error_sat_problem(), end="")
        p wcnf 3 8 3
        1 -1 0
        1 -2 0
        3 -1 -2 -3 0
        3 1 2 -3 0
        3 1 -2 3 0
        3 -1 2 3 0
        3 -3 0
        3 2 0
        """
        return sat_problem_of_model(self)

    def error_of(self, mechanism: int, causes: Causes) -> CircuitError:
        """The first of the errors that make a mechanism, with what it flips."""
        flipped = self.flipped(mechanism).tolist()
        detectors = tuple(it for it in flipped if it < self.num_detectors)
        return replace(causes.error_of(mechanism), detectors=detectors,
                       observables=tuple(it - self.num_detectors for it in flipped[len(detectors):]))

    @property
    def dem(self) -> str:
        """The model as text of Stim's detector error models, which Stim and PyMatching read; parts have `^` between them. A model that was
        read is written as it was."""
        if self.was_read is not None:
            return self.was_read
        lines = [f"# The disjoint errors of line {line} were taken for independent ones." for line in self.approximated]
        names = [f"D{it}" for it in range(self.num_detectors)] + [f"L{it}" for it in range(self.num_observables)]
        bounds, parts = self.all_parts.indptr.tolist(), self.all_parts.indices.tolist()
        flips = [" ".join([names[it] for it in parts[first:last]]) for first, last in itertools.pairwise(bounds)]
        for chance, (first, last) in zip(self.chances.tolist(), itertools.pairwise(self.all_parts.starts.tolist())):
            lines.append(" ".join([f"error({chance!r})", *filter(None, [" ^ ".join(filter(None, flips[first:last]))])]))
        for detector, place in enumerate(self.coordinates):
            numbers = ", ".join(f"{number:.12g}" for number in place[~np.isnan(place)])
            lines.append(f"detector({numbers}) D{detector}" if numbers else f"detector D{detector}")
        lines += [f"logical_observable L{observable}" for observable in range(self.num_observables)]
        return "".join(line + "\n" for line in lines)

    def name(self, index: int) -> str:
        """D and the number of a detector, or L and that of an observable."""
        return f"D{index}" if index < self.num_detectors else f"L{index - self.num_detectors}"

    @property
    def fingerprint(self) -> str:
        """The same for models of the same mechanisms and parts, and for no others that one will meet."""
        digest = hashlib.sha256(f"{self.num_detectors} {self.num_observables} ".encode())
        parts = () if self.parts is None else (self.parts.starts, self.parts.indptr, self.parts.indices)
        for array in (self.chances, self.indptr, self.indices, *parts, *(self.noise.arrays() if self.noise else ())):
            digest.update(array.tobytes())
        return digest.hexdigest()[:16]

    @overload
    def sample(self, shots: int, *, seed: int | None = ..., first_shot: int = ...,
               bit_packed: Literal[False] = ...) -> tuple[SeededBits, SeededBits]: ...

    @overload
    def sample(self, shots: int, *, seed: int | None = ..., first_shot: int = ...,
               bit_packed: Literal[True]) -> tuple[SeededBytes, SeededBytes]: ...

    def sample(self, shots: int, *, seed: int | None = None, first_shot: int = 0,
               bit_packed: bool = False) -> tuple[SeededBits, SeededBits] | tuple[SeededBytes, SeededBytes]:
        """Which detectors, bool (shots, detectors), and observables, bool (shots, observables), are flipped in shots first_shot,
        first_shot + 1 .. of a seed. A shot is the same whatever others are drawn with it. Without a seed a fresh one is drawn, and both
        arrays keep it as `seed`. With bit_packed bit k is bit k % 8 of byte k // 8, and each array is uint8 (shots, bytes).

        >>> import stabsim
        >>> model = stabsim.ErrorModel.from_dem("error(1) D0 L0\\nerror(0.001) D8\\n")
        >>> detectors, observables = model.sample(2, seed=5)
        >>> detectors.astype(int).tolist(), observables.astype(int).tolist()
        ([[1, 0, 0, 0, 0, 0, 0, 0, 0], [1, 0, 0, 0, 0, 0, 0, 0, 0]], [[1], [1]])
        >>> model.sample(2, seed=5, bit_packed=True)[0].tolist()
        [[1, 0], [1, 0]]
        """
        shots, first_shot = chunks.checked(shots, first_shot)
        bits.make_room(shots, self.num_detectors + self.num_observables)
        seed = drawn_seed(seed)
        drawn = self.drawn(shots, seed, first_shot)
        detectors, observables = drawn[:, : self.num_detectors], drawn[:, self.num_detectors :]
        if bit_packed:
            return seeded(bits.packed(detectors), seed), seeded(bits.packed(observables), seed)
        return seeded(detectors, seed), seeded(observables, seed)

    def drawn(self, shots: int, seed: int, first_shot: int, *, as_it_is: bool = False) -> Bits:
        """What is flipped in shots, bool (shots, detectors + observables): by mechanisms, or, with as_it_is, by the noise that they stand for,
        of which at most one of disjoint errors happens."""
        if as_it_is and self.noise:
            return self.noise.sample(shots, seed, first_shot)
        return drawing.flips(self.chances, self.indptr, self.indices, self.num_detectors + self.num_observables, shots, seed, first_shot)

    @overload
    def iter_sample(self, shots: int, chunk: int, *, seed: int | None = ..., first_shot: int = ...,
                    bit_packed: Literal[False] = ...) -> Iterator[tuple[SeededBits, SeededBits]]: ...

    @overload
    def iter_sample(self, shots: int, chunk: int, *, seed: int | None = ..., first_shot: int = ...,
                    bit_packed: Literal[True]) -> Iterator[tuple[SeededBytes, SeededBytes]]: ...

    def iter_sample(self, shots: int, chunk: int, *, seed: int | None = None, first_shot: int = 0,
                    bit_packed: bool = False) -> Iterator[tuple[SeededBits, SeededBits]] | Iterator[tuple[SeededBytes, SeededBytes]]:
        """The shots of `sample`, at most chunk of them at a time, so that only these are kept. Shots are drawn in blocks of 1,024: of a
        chunk of a multiple of that none is drawn twice.

        >>> import stabsim
        >>> model = stabsim.ErrorModel.from_dem("error(0.5) D0 L0\\n")
        >>> [len(detectors) for detectors, observables in model.iter_sample(5000, 2048, seed=1)]
        [2048, 2048, 904]
        """
        seed = drawn_seed(seed)
        parts = chunks.of(shots, chunk, first_shot)
        if bit_packed:
            return (self.sample(count, seed=seed, first_shot=first, bit_packed=True) for first, count in parts)
        return (self.sample(count, seed=seed, first_shot=first) for first, count in parts)


def error_model(circuit: "str | Circuit", *, decompose: bool = False, ignore_decomposition_failures: bool = False,
                approximate_disjoint_errors: bool = False, sure_only: bool = False, allow_gauge_detectors: bool = False) -> ErrorModel:
    """The detector error model of a circuit with noise, or of its text. One without noise has no mechanisms.

    The circuit's noise may be X_ERROR, Y_ERROR, Z_ERROR, DEPOLARIZE1, DEPOLARIZE2, PAULI_CHANNEL_1, PAULI_CHANNEL_2, E with perhaps
    ELSE_CORRELATED_ERROR after it, HERALDED_ERASE, HERALDED_PAULI_CHANNEL_1, and a chance of a wrong record, as M(0.01), on all
    measurements; stabsim.UnsupportedNoise names the line of noise that is not made of independent errors. The program says what single
    errors flip. Errors that flip the same are joined, and those that flip nothing are left out. stabsim.Refused names lines and items of
    the user's text.

    decompose: name for each mechanism that flips more than two detectors others that flip the same together, for decoders by
    matching; stabsim.NotDecomposed names one that has none, or with ignore_decomposition_failures it stays whole.
    approximate_disjoint_errors: if a PAULI_CHANNEL, heralded errors, E with ELSE_CORRELATED_ERROR, or depolarising that is more than full,
    are no product of independent errors, take the disjoint errors for such; the model names these lines, and `collect` draws their shots
    as they are. sure_only: leave out detectors and observables that coins decide, which else are refused. allow_gauge_detectors: take what
    coins flip, if that is detectors alone, for errors of chance a half.

    >>> import stabsim
    >>> print(stabsim.error_model("R 0\\nX_ERROR(0.25) 0\\nM 0\\nDETECTOR(1) rec[-1]\\n").dem, end="")
    error(0.25) D0
    detector(1) D0
    """
    profile = profile_of(circuit)
    marks, table, basis = faults_of(profile, approximate_disjoint_errors, sure_only, allow_gauge_detectors)
    model = model_of(marks, table, detector_rows(places_of(profile.circuit.items())), profile)
    if basis:
        model = with_gauges(model, basis)
    return decomposed(model, ignore_decomposition_failures) if decompose else model


def decomposed(model: ErrorModel, ignore_failures: bool) -> ErrorModel:
    """A model with parts, of mechanisms of which no two flip the same."""
    numbered = parts_of(model.chances, model.indptr, model.indices, model.num_detectors, ignore_failures)
    return replace(model, parts=Parts.of_mechanisms(numbered, model.indptr, model.indices))


def model_of(circuit: Marked, table: Rows, coordinates: NDArray[np.float64], profile: Profile) -> ErrorModel:
    """The model of a marked circuit, whose table of faults has X and Z of each mark, one after the other, and which was made of a profile."""
    joined = joined_errors(circuit.sources, table)
    return ErrorModel(joined.chances, joined.indptr, joined.indices, table.num_detectors, table.num_observables, coordinates, circuit.approximated,
                      causes=Causes(Sources.of(circuit.sources), joined.mechanisms.astype(np.int32), KnownLines(profile.text)),
                      noise=noise_of(circuit.sources, table))
