"""Detectors and observables of records that are given, as `stim m2d` makes them."""

from typing import Literal, overload

import numpy as np
from numpy.typing import NDArray

from stabsim import checking
from stabsim.circuit.circuit import Circuit
from stabsim.formats import bits
from stabsim.formats.combining import Numbers, odd
from stabsim.noise.marked_faults import faults_of
from stabsim.noise.sourced import errors_of
from stabsim.text.judging import judged
from stabsim.text.reading import items_of
from stabsim.text.record_sums import sums_of
from stabsim.text.sweeping import as_errors

Bits = NDArray[np.bool_]
Packed = NDArray[np.uint8]

# How many shots are looked at together.
TOGETHER = 8192


@overload
def m2d(circuit: Circuit, records: Bits | Packed, *, separate_observables: Literal[False] = ...,
        flips: bool = ..., sweep_bits: Bits | Packed | None = ...) -> Bits: ...


@overload
def m2d(circuit: Circuit, records: Bits | Packed, *, separate_observables: Literal[True],
        flips: bool = ..., sweep_bits: Bits | Packed | None = ...) -> tuple[Bits, Bits]: ...


def m2d(circuit: Circuit, records: Bits | Packed, *, separate_observables: bool = False,
        flips: bool = False, sweep_bits: Bits | Packed | None = None) -> Bits | tuple[Bits, Bits]:
    """The detectors of given records, bool (shots, detectors), as of a machine that ran the circuit: raw parities, as those of `detect`.

    circuit: it is taken without its noise. records: bool (shots, records), or packed as `read_shots` gives them, uint8
    (shots, (records + 7) // 8). With separate_observables a pair: that array, and the observables, bool (shots, observables). If a detector
    is 1 without noise, so is it here. flips: what was flipped alone, as decoders take it; stabsim.Refused names a bit that coins decide.
    sweep_bits: those of each shot, bool (shots, bits), or packed: what they flip is taken out, and no coin may decide a bit then.

    >>> import numpy, stabsim
    >>> circuit = stabsim.Circuit("M 0 1\\nDETECTOR rec[-1] rec[-2]\\nOBSERVABLE_INCLUDE(0) rec[-1]\\n")
    >>> stabsim.m2d(circuit, numpy.array([[0, 0], [0, 1], [1, 1]], dtype=bool)).astype(int).tolist()
    [[0], [1], [0]]
    """
    whole = checking.of_kind("circuit", circuit, Circuit, "a circuit, as stabsim.Circuit(text)")
    circuit = whole.circuit
    has = circuit.numbers()
    table = bits.table_of(records, has.records, "records")
    sums = sums_of(items_of(circuit.text))
    rows = np.append(sums.of_detectors[:, 0], has.detectors + sums.of_observables[:, 0])
    columns = np.append(sums.of_detectors[:, 1], sums.of_observables[:, 1])
    found = parities(table, *odd(rows, columns, has.records), has.detectors + has.observables)
    if flips or sweep_bits is not None:
        # It refuses a bit that coins decide, of which no run has the value without errors.
        whole.faults()
    if flips:
        found ^= np.concatenate(circuit.detect(1, seed=0, separate_observables=True), axis=1)
    if sweep_bits is not None:
        found ^= swept(whole, sweep_bits, len(table))
    return (found[:, : has.detectors], found[:, has.detectors :]) if separate_observables else found[:, : has.detectors]


def swept(circuit: Circuit, sweep_bits: Bits | Packed, shots: int) -> Bits:
    """What sweep bits flip in each shot, bool (shots, detectors + observables), if no coin decides it."""
    given = bits.table_of(sweep_bits, circuit.num_sweep_bits, "sweep_bits")
    if len(given) != shots:
        raise ValueError(f"sweep_bits is of {len(given)} shots, and records is of {shots}: give as many")
    text, bit_of_line = as_errors(circuit.text)
    marks, table, _ = faults_of(judged(text), True)
    flipped = np.zeros((given.shape[1], table.num_detectors + table.num_observables), dtype=np.bool_)
    for source in marks.sources:
        if source.line in bit_of_line:
            np.logical_xor.at(flipped[bit_of_line[source.line]], errors_of(source, table)[2], True)
    # How many Paulis flip each, which a float counts exactly.
    found: Bits = (given.astype(np.float64) @ flipped.astype(np.float64)) % 2 == 1
    return found


def parities(records: Bits, rows: Numbers, columns: Numbers, count: int) -> Bits:
    """The sum modulo 2 of the records in the columns of each of this many rows; the pairs are ascending."""
    some, begins = np.unique(rows, return_index=True)
    found = np.zeros((len(records), count), dtype=np.bool_)
    for start in range(0, len(records), TOGETHER) if len(some) else ():
        # A row for each record, with shots side by side in its bytes.
        sides = np.packbits(records[start : start + TOGETHER].T, axis=1)
        sums = np.bitwise_xor.reduceat(sides[columns], begins, axis=0)
        found[start : start + TOGETHER, some] = np.unpackbits(sums, axis=1, count=len(records[start : start + TOGETHER])).T
    return found
