"""What the program says of a circuit's text, each by one run of it."""

import functools
from collections.abc import Iterator
from concurrent.futures import Executor
from dataclasses import dataclass
from typing import Literal, get_args, overload

import numpy as np
from numpy.typing import NDArray

from stabsim import checking, program
from stabsim.formats import bits
from stabsim.questions import coins, faults
from stabsim.questions.coins import CoinTable
from stabsim.questions.distance_search import distance_text
from stabsim.questions.distances import Distance, Letters, distance_of, of_marks, option_words
from stabsim.questions.faults import FaultTable
from stabsim.questions.random_bits import RandomBit, bit_of
from stabsim.questions.sure import Sure, deterministic_of
from stabsim.questions.ways import Effect, Way, effect_of, place_word, string_word, way_of
from stabsim.shots import chunks, shot_parts
from stabsim.shots.seeds import SeededBits, SeededBytes, drawn_seed, seeded
from stabsim.text.coordinates import detector_coordinates


@dataclass(frozen=True)
class Numbers:
    """How many of each thing a circuit has, once all blocks are written out; `items` counts those of the outermost list.

    >>> import stabsim
    >>> stabsim.Circuit("H 0\\nREPEAT 5 {\\nM 0 1\\n}\\n").numbers()
    Numbers(qubits=2, items=2, steps=11, records=10, detectors=0, observables=0, coins=10)
    """

    qubits: int
    items: int
    steps: int
    records: int
    detectors: int
    observables: int
    coins: int


def numbers_of(said: bytes) -> Numbers:
    """The numbers that `check` says of a circuit."""
    return Numbers(**{name: int(number) for name, _, number in (line.partition(": ") for line in said.decode().splitlines())})


@dataclass(frozen=True)
class Asked:
    """A text, and what the program says of it."""

    text: str = ""

    @property
    def asked(self) -> str:
        """The text that the program is asked."""
        return self.text

    def numbers(self) -> Numbers:
        """How many qubits, items, steps, records, detectors, observables and coins the program counts, which judges the circuit."""
        return self.known_numbers

    @functools.cached_property
    def known_numbers(self) -> Numbers:
        """The same, which is asked for once."""
        return numbers_of(self.checked())

    def checked(self) -> bytes:
        """What `check` says."""
        return program.run(["check"], self.asked)

    def widths(self) -> tuple[int, int, int]:
        """How many records, detectors and observables there are, as the program counts them."""
        has = self.numbers()
        return has.records, has.detectors, has.observables

    # Shots.

    @overload
    def sample(self, shots: int, *, seed: int | None = ..., first_shot: int = ..., executor: Executor | None = ..., parts: int = ...,
               bit_packed: Literal[False] = ...) -> SeededBits: ...

    @overload
    def sample(self, shots: int, *, seed: int | None = ..., first_shot: int = ..., executor: Executor | None = ..., parts: int = ...,
               bit_packed: Literal[True]) -> SeededBytes: ...

    def sample(self, shots: int, *, seed: int | None = None, first_shot: int = 0, executor: Executor | None = None, parts: int = 64,
               bit_packed: bool = False) -> SeededBits | SeededBytes:
        """The records of shots first_shot, first_shot + 1 .. of a seed, as a bool array (shots, records). Without a seed a fresh one is
        drawn; the array keeps it as `seed`. With bit_packed bit k is bit k % 8 of byte k // 8, uint8 (shots, (records + 7) // 8).

        With an executor of concurrent.futures the shots are split into this many parts, which gives the same array. With noise this process
        draws which errors happen, whatever the executor, and a shot is the same whatever others are drawn with it. Raises stabsim.Refused if
        there are more places of errors than the program takes.

        >>> import stabsim
        >>> c = stabsim.Circuit("X 0\\nM 0 1\\n")
        >>> c.sample(2, seed=7).astype(int).tolist(), c.sample(2, seed=7, bit_packed=True).tolist()
        ([[1, 0], [1, 0]], [[1], [1]])
        """
        records, drawn = self.widths()[0], drawn_seed(seed)
        packed = self.packed("sample", records, shots, drawn, first_shot, executor, parts)
        if bit_packed:
            return seeded(packed, drawn)
        return seeded(bits.unpacked(packed, records), drawn)

    @overload
    def detect(self, shots: int, *, seed: int | None = ..., first_shot: int = ..., separate_observables: Literal[False] = ...,
               executor: Executor | None = ..., parts: int = ..., bit_packed: Literal[False] = ..., flips: bool = ...) -> SeededBits: ...

    @overload
    def detect(self, shots: int, *, seed: int | None = ..., first_shot: int = ..., separate_observables: Literal[True],
               executor: Executor | None = ..., parts: int = ..., bit_packed: Literal[False] = ...,
               flips: bool = ...) -> tuple[SeededBits, SeededBits]: ...

    @overload
    def detect(self, shots: int, *, seed: int | None = ..., first_shot: int = ..., separate_observables: Literal[False] = ...,
               executor: Executor | None = ..., parts: int = ..., bit_packed: Literal[True], flips: bool = ...) -> SeededBytes: ...

    @overload
    def detect(self, shots: int, *, seed: int | None = ..., first_shot: int = ..., separate_observables: Literal[True],
               executor: Executor | None = ..., parts: int = ..., bit_packed: Literal[True],
               flips: bool = ...) -> tuple[SeededBytes, SeededBytes]: ...

    def detect(self, shots: int, *, seed: int | None = None, first_shot: int = 0, separate_observables: bool = False,
               executor: Executor | None = None, parts: int = 64, bit_packed: bool = False, flips: bool = False
               ) -> SeededBits | SeededBytes | tuple[SeededBits, SeededBits] | tuple[SeededBytes, SeededBytes]:
        """The detectors of shots first_shot, first_shot + 1 .. of a seed, as a bool array (shots, detectors): raw parities of
        records, which noise turns over. With separate_observables a pair: that array, and the observables as a bool array (shots,
        observables). flips: what noise flips alone, as decoders take it and as `ErrorModel.sample` gives it; the arrays say by `are_flips`
        whether they are that: parities are if each is 0 without noise. Without a seed a fresh one is drawn; the arrays keep it as `seed`.
        With bit_packed each is packed as those of `sample`.

        With an executor of concurrent.futures the shots are split into this many parts, which gives the same arrays; with noise this process
        draws from the error model, whatever the executor. With noise, and for flips, each detector and observable must be the same for all
        random bits: stabsim.Refused names the first that is not. Of disjoint errors, as heralded ones, at most one happens each time.

        >>> import stabsim
        >>> c = stabsim.Circuit("X 0\\nM 0 1\\nDETECTOR rec[-2]\\nOBSERVABLE_INCLUDE(0) rec[-1]\\n")
        >>> detectors, observables = c.detect(1, seed=7, separate_observables=True)
        >>> detectors.tolist(), observables.tolist()
        ([[True]], [[False]])
        >>> noisy = stabsim.Circuit("X 0\\nX_ERROR(1) 0\\nM 0\\nDETECTOR rec[-1]")
        >>> noisy.detect(2).tolist(), noisy.detect(2, flips=True).tolist(), noisy.detect(2).are_flips
        ([[False], [False]], [[True], [True]], False)
        """
        _, detectors, observables = self.widths()
        drawn = drawn_seed(seed)
        width = detectors + observables if separate_observables else detectors
        packed, turned = self.detected(separate_observables, width, shots, drawn, first_shot, executor, parts, flips)
        if bit_packed and not separate_observables:
            return seeded(packed, drawn, not turned.any())
        both = bits.unpacked(packed, width)
        left, right = both[:, :detectors], both[:, detectors:]
        are_flips = [not turned[:detectors].any(), not turned[detectors:].any()]
        if bit_packed:
            return seeded(bits.packed(left), drawn, are_flips[0]), seeded(bits.packed(right), drawn, are_flips[1])
        found = seeded(left, drawn, are_flips[0])
        return (found, seeded(right, drawn, are_flips[1])) if separate_observables else found

    @overload
    def iter_sample(self, shots: int, chunk: int, *, seed: int | None = ..., first_shot: int = ...,
                    bit_packed: Literal[False] = ...) -> Iterator[SeededBits]: ...

    @overload
    def iter_sample(self, shots: int, chunk: int, *, seed: int | None = ..., first_shot: int = ...,
                    bit_packed: Literal[True]) -> Iterator[SeededBytes]: ...

    def iter_sample(self, shots: int, chunk: int, *, seed: int | None = None, first_shot: int = 0,
                    bit_packed: bool = False) -> Iterator[SeededBits] | Iterator[SeededBytes]:
        """The shots of `sample`, at most chunk of them at a time.

        >>> import stabsim
        >>> [len(records) for records in stabsim.Circuit("M 0").iter_sample(2500, 1000)]
        [1000, 1000, 500]
        """
        drawn, parts = drawn_seed(seed), chunks.of(shots, chunk, first_shot)
        if bit_packed:
            return (self.sample(count, seed=drawn, first_shot=first, bit_packed=True) for first, count in parts)
        return (self.sample(count, seed=drawn, first_shot=first) for first, count in parts)

    def iter_detect(self, shots: int, chunk: int, *, seed: int | None = None, first_shot: int = 0) -> Iterator[tuple[SeededBits, SeededBits]]:
        """The detectors and observables of `detect`, at most chunk shots of them at a time.

        >>> import stabsim
        >>> c = stabsim.Circuit("M 0\\nDETECTOR rec[-1]\\n")
        >>> [len(detectors) for detectors, observables in c.iter_detect(2500, 1000)]
        [1000, 1000, 500]
        """
        drawn = drawn_seed(seed)
        return (self.detect(count, seed=drawn, first_shot=first, separate_observables=True) for first, count in chunks.of(shots, chunk, first_shot))

    def detected(self, both: bool, width: int, shots: int, seed: int, first_shot: int, executor: Executor | None, parts: int,
                 flips: bool) -> tuple[NDArray[np.uint8], NDArray[np.bool_]]:
        """The detectors of shots, and with `both` the observables after them: packed, of this many bits each; and bool (width,), which bits
        are not flips alone. Flips are asked of a circuit with noise."""
        found = self.packed("detect_both" if both else "detect", width, shots, seed, first_shot, executor, parts)
        return found, bits.unpacked(np.bitwise_or.reduce(found, axis=0, keepdims=True), width)[0]

    def packed(self, what: shot_parts.What, width: int, shots: int, seed: int, first_shot: int, executor: Executor | None,
               parts: int) -> NDArray[np.uint8]:
        """Shots of this many bits, packed, from one run of the program or from several."""
        shots, first_shot = chunks.checked(shots, first_shot)
        bits.make_room(shots, width)
        asked = shot_parts.Shots(self.asked, what, seed, first_shot, shots)
        return bits.packed_of_b8(shot_parts.bytes_of(asked, executor, parts), shots, width)

    # Questions.

    def stabilisers(self, *, seed: int = 0) -> list[str]:
        """The reduced rows of the group that stabilises the state after shot 0 of a seed: a signed string, as +XZ_, for each qubit.

        >>> import stabsim
        >>> stabsim.Circuit("H 0\\nCX 0 1\\nZ 0").stabilisers()
        ['-XX', '+ZZ']
        """
        self.numbers()
        return program.run(["stabilisers", *program.seed_words(seed)], self.asked).decode().split()

    def deterministic(self) -> Sure:
        """Which detectors, bool (detectors,), and observables, bool (observables,), are the same for all random bits.

        >>> import stabsim
        >>> found = stabsim.Circuit("MX 0 0\\nDETECTOR rec[-1]\\nDETECTOR rec[-1] rec[-2]").deterministic()
        >>> found.detectors.tolist()
        [False, True]
        """
        has = self.numbers()
        written = program.run(["deterministic", "--out_format", "b8"], self.asked)
        return deterministic_of(bits.of_b8(written, 1, has.detectors + has.observables)[0], has.detectors)

    def faults(self, *, everywhere: bool = False, sure_only: bool = False) -> FaultTable:
        """Which detectors and observables each single fault flips: at the targets of `I` alone, or everywhere.

        Raises stabsim.Refused, 18 NotDeterministic, if a detector or observable is not the same for all random bits; with
        sure_only such ones count as never flipped.

        >>> import stabsim
        >>> table = stabsim.Circuit("R 0\\nI 0\\nM 0\\nDETECTOR rec[-1]").faults()
        >>> [(table.paulis[fault], table.qubits[fault], table.flipped(fault).tolist()) for fault in range(len(table))]
        [('X', 0, [0]), ('Z', 0, [])]
        """
        has = self.numbers()
        words = ["--everywhere"] * everywhere + ["--deterministic_only"] * sure_only
        return faults.table_of(program.run(["faults", *words], self.asked), has.detectors, has.observables, everywhere)

    def coins(self) -> CoinTable:
        """Which records, detectors and observables each coin flips that decides an outcome.

        >>> import stabsim
        >>> table = stabsim.Circuit("H 0\\nX 1\\nCX 0 1\\nM 0 1\\nDETECTOR rec[-1]").coins()
        >>> print(table, table.paths, table.numbers, table.flipped(0), table.constants())
        <stabsim.CoinTable: 1 coins, 2 records, 1 detectors, 0 observables> ['3'] [0] [0 1 2] [False  True  True]
        """
        constants = np.concatenate([self.reference_sample(), *self.reference_signs()])
        return coins.table_of(program.run(["coins"], self.asked), self.widths(), constants)

    def reference_sample(self) -> NDArray[np.bool_]:
        """The records of the run without noise in which each random outcome is 0, bool (records,).

        >>> import stabsim
        >>> stabsim.Circuit("X 0\\nX_ERROR(1) 0\\nM 0\\nMX 1").reference_sample().tolist()
        [True, False]
        """
        records, _, _ = self.widths()
        found: NDArray[np.bool_] = bits.of_b8(program.run(["sample", "--coins", "", "--out_format", "b8"], self.asked), 1, records)[0]
        return found

    def reference_signs(self) -> tuple[NDArray[np.bool_], NDArray[np.bool_]]:
        """The detectors, bool (detectors,), and observables, bool (observables,), of the run of `reference_sample`.

        >>> import stabsim
        >>> stabsim.Circuit("X 0\\nM 0\\nDETECTOR rec[-1]\\nOBSERVABLE_INCLUDE(0)").reference_signs()
        (array([ True]), array([False]))
        """
        _, detectors, observables = self.widths()
        both = program.run(["detect", "--append_observables", "--coins", "", "--out_format", "b8"], self.asked)
        found: NDArray[np.bool_] = bits.of_b8(both, 1, detectors + observables)[0]
        return found[:detectors], found[detectors:]

    def explain(self) -> list[RandomBit]:
        """Why detectors and observables are random: for each that is not the same for all random bits, which coins decide it.

        >>> import stabsim
        >>> for bit in stabsim.Circuit("MX 0 0\\nDETECTOR rec[-1]\\nDETECTOR rec[-1] rec[-2]").explain():
        ...     print(bit, bit.coins)
        D0 of item 1 is decided by item 0 (DecidingCoin(number=0, path='0'),)
        """
        self.numbers()
        lines = program.run(["deterministic", "--explain"], self.asked).decode().splitlines()
        rows = detector_coordinates(self.asked) if lines else np.zeros((0, 0))
        return [bit_of(line, rows) for line in lines]

    def propagate(self, pauli: str, *, at: str | None = None, after: int | None = None, every: bool = False) -> Way:
        """What a Pauli string becomes that is put into the circuit, and what it flips.

        pauli: a product as X3*Z4, or a letter for each qubit. It is put in front of the item at a path, such as 3/0/2, in the first round of
        each block around it, or after this many steps; the number of items as a path is the end. A measurement that anticommutes
        with the string is flipped, also if its outcome is random: then the run is one with that coin exchanged. With every the turns are the
        ticks (TICK) from the place on, also where the string is as it was, each with the path of the last item with a step before it.

        >>> import stabsim
        >>> way = stabsim.Circuit("H 0\\nCX 0 1\\nM 0 1").propagate("Z0", at="0")
        >>> print(*way.turns, way.records, way.left)
        Turn(steps=1, path='0', pauli='X0') Turn(steps=2, path='1', pauli='X0*X1') (0, 1) X0*X1
        """
        place, string = place_word(at, after), string_word(pauli)
        self.numbers()
        return way_of(program.run(["propagate", "--at", place, *["--every"] * every, string], self.asked).decode())

    def propagate_each(self, *, everywhere: bool = False) -> list[Effect]:
        """What each error flips and leaves: X and Z at the targets of `I` alone, or everywhere, as `faults` takes them and in that order.

        Each is what `propagate` says of that Pauli there, so a detector may be random.

        >>> import stabsim
        >>> [(error.pauli, error.left) for error in stabsim.Circuit("I 0\\nCX 0 1\\nM 1").propagate_each()]
        [('X0', 'X0*X1'), ('Z0', 'Z0')]
        """
        self.numbers()
        written = program.run(["propagate_each", *["--everywhere"] * everywhere], self.asked).decode()
        return [effect_of(line) for line in written.splitlines()]

    def distance(self, *, everywhere: bool = False, letters: Letters = "all", most: int | None = None, graphlike: bool = False,
                 sure_only: bool = False, count: bool = False, workers: int = 1) -> Distance:
        """The least number of errors that flip an observable and no detector: exact, for any circuit.

        Errors are X, Y and Z at each target of `I`; I[X], I[Y], I[Z] and I[XZ] have these letters alone, and I[pairs] all fifteen
        products on each pair of its targets. With everywhere they are those of circuit-level noise: after gates and resets, before
        measurements, and each record wrong by itself. letters: with XZ only errors of X alone and of Z alone. most: the most errors
        that are looked for. graphlike: only errors that flip at most two detectors, after any other gave way to the X and the Z at each
        of its qubits, which takes less time. count: `Distance.count` says how many such sets there are, which takes longer the more there
        are. Raises stabsim.Refused, 18 NotDeterministic, as `faults` does; with sure_only random bits are left out.

        workers: how many processes look, for the same answer. One has two seconds; then all look for each further number of errors in
        turn, a part of the sets each, and each time for fewer ones first. So it pays if a number takes several times as long as the one
        before it. If tqdm is there, a line on a terminal says how far they are. Ctrl-C ends them. Not beside graphlike or count.

        >>> import stabsim
        >>> c = stabsim.Circuit("R 0 1 2\\nI[X] 0 1 2\\nMPP Z0*Z1 Z1*Z2\\nDETECTOR rec[-1]\\nDETECTOR rec[-2]\\nM 0\\nOBSERVABLE_INCLUDE(0) rec[-1]")
        >>> print(c.distance(), c.distance(most=2), sep="; ")
        distance 3 of all marked errors; none up to 2 of all marked errors
        >>> c.distance(count=True).count, c.distance(most=2, count=True).count
        (1, 0)
        """
        checking.one_of("letters", letters, get_args(Letters))
        self.numbers()
        words = [*["--everywhere"] * everywhere, *([] if letters == "all" else ["--letters", letters]), *option_words(graphlike, count, workers),
                 *["--deterministic_only"] * sure_only]
        found = distance_of(distance_text(self.asked, words, most, workers), everywhere)
        return found if everywhere else of_marks(found, self.asked)
