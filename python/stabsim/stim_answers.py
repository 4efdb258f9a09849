"""What Stim's commands write that the package has: `stim_commands` has their words."""

import argparse
import contextlib
import itertools
import pathlib
import sys
from collections.abc import Iterable, Iterator
from typing import BinaryIO

import numpy as np
from numpy.typing import NDArray

from stabsim import codes, program, streams
from stabsim.circuit.circuit import Circuit, from_stim
from stabsim.circuit.measured import m2d
from stabsim.diagrams import OF_TICKS, Kind
from stabsim.formats import formats
from stabsim.noise import drawing
from stabsim.noise.models import ErrorModel, error_model
from stabsim.shots import chunks
from stabsim.shots.seeds import drawn_seed

Bits = NDArray[np.bool_]

# Codes and tasks of Stim's, as the codes that they are here, and the basis that is kept.
TASKS = {
    "repetition_code:memory": ("repetition_code", "Z"),
    "surface_code:rotated_memory_x": ("surface_code", "X"), "surface_code:rotated_memory_z": ("surface_code", "Z"),
    "surface_code:unrotated_memory_x": ("unrotated_surface_code", "X"), "surface_code:unrotated_memory_z": ("unrotated_surface_code", "Z"),
}
# Types of pictures, by Stim's names.
KINDS: dict[str, Kind] = {
    "timeline-svg": "timeline", "timeslice-svg": "timeslice", "time-slice-svg": "timeslice", "detslice-svg": "detslice",
    "detector-slice-svg": "detslice", "detslice-with-ops-svg": "detslice-with-ops", "time+detector-slice-svg": "detslice-with-ops",
    "matchgraph-svg": "matchgraph", "match-graph-svg": "matchgraph",
}
# How many shots are drawn together, and how many bits of shots with noise if more than a block is.
TOGETHER, MOST_BITS = 8192, 1 << 26


def bytes_in(path: str | None) -> bytes:
    """What a file has, or standard input."""
    return pathlib.Path(path).read_bytes() if path else sys.stdin.buffer.read()


def text_in(path: str | None) -> str:
    return program.text_of(bytes_in(path))


def write_out(path: str | None, data: bytes) -> None:
    """Writes a file, or to standard output."""
    if path:
        pathlib.Path(path).write_bytes(data)
    else:
        streams.write_out(data)


def gen(given: argparse.Namespace) -> None:
    """A circuit of a code."""
    name = f"{given.code}:{given.task}"
    if name not in TASKS:
        raise ValueError(f"{name} is none of {', '.join(TASKS)}; python3 -m stabsim.codes --help has other codes, as colour_code")
    noise = codes.Noise(before_round=given.before_round_data_depolarization, after_gate=given.after_clifford_depolarization,
                        after_reset=given.after_reset_flip_probability, before_measurement=given.before_measure_flip_probability)
    code, basis = TASKS[name]
    write_out(given.out, codes.memory(code, given.distance, basis, noise).text(given.rounds).encode())


def convert(given: argparse.Namespace) -> None:
    """Which detectors are flipped against a run without noise, or without that their parities."""
    circuit = from_stim(text_in(given.circuit))
    records = shots_in(given.input, given.in_format, circuit.num_records)
    sweep_bits = shots_in(given.sweep, given.sweep_format, circuit.num_sweep_bits) if given.sweep else None
    both = m2d(circuit, records, separate_observables=True, flips=not given.skip_reference_sample, sweep_bits=sweep_bits)
    write_shots(given, [both], given.append_observables)


def shots_in(path: str | None, format: formats.Format, width: int) -> Bits:
    """Shots of this many bits, of a file or of standard input."""
    return formats.READERS[format](np.frombuffer(bytes_in(path), dtype=np.uint8), formats.kinds_of(width, 0, 0))


def write_shots(given: argparse.Namespace, shots: Iterable[tuple[Bits, Bits]], is_appended: bool = False) -> None:
    """Writes detectors, perhaps with observables after them, and observables by themselves if a file is named for them."""
    with contextlib.ExitStack() as files:
        out: BinaryIO = files.enter_context(open(given.out, "wb")) if given.out else streams.standard_output()
        alone = files.enter_context(open(given.obs_out, "wb")) if given.obs_out else None
        for detectors, observables in shots:
            shown = np.append(detectors, observables, axis=1) if is_appended else detectors
            kinds = formats.kinds_of(0, detectors.shape[1], observables.shape[1] * is_appended)
            out.write(formats.WRITERS[given.out_format](shown, kinds))
            if alone:
                alone.write(formats.WRITERS[given.obs_out_format](observables, formats.kinds_of(0, 0, observables.shape[1])))
        out.flush()


def draw(given: argparse.Namespace, text: str) -> None:
    """The records of shots with noise, or their detectors, perhaps with observables after them."""
    if given.out_format == "ptb64":
        formats.check_groups(given.shots)
    shots = shots_of(given, from_stim(text))
    # If shots are refused, an older file stays.
    first = next(shots, b"")
    with contextlib.ExitStack() as files:
        out: BinaryIO = streams.standard_output() if given.out is None else files.enter_context(open(given.out, "wb"))
        for written in itertools.chain([first], shots):
            out.write(written)
        out.flush()


def shots_of(given: argparse.Namespace, circuit: Circuit) -> Iterator[bytes]:
    """Shots as they are written, a few at a time."""
    write, seeds = formats.WRITERS[given.out_format], {"seed": given.seed, "first_shot": given.first_shot}
    records, detectors, observables = circuit.widths()
    if given.command == "sample":
        kinds = formats.kinds_of(records, 0, 0)
        return (write(some, kinds) for some in circuit.iter_sample(given.shots, together(records), **seeds))
    kinds = formats.kinds_of(0, detectors, observables * given.append_observables)
    width = sum(kinds.values())
    pairs = circuit.iter_detect(given.shots, together(detectors + observables), **seeds)
    return (write(np.append(*both, axis=1)[:, :width], kinds) for both in pairs)


def together(width: int) -> int:
    """How many shots of this many bits are drawn together: whole blocks, of which a table has at most MOST_BITS if it can."""
    return drawing.BLOCK * max(1, min(TOGETHER, MOST_BITS // max(width, 1)) // drawing.BLOCK)


def analyze_errors(given: argparse.Namespace) -> None:
    """The error model of a circuit."""
    if given.approximate_disjoint_errors not in (0, 1):
        raise ValueError("disjoint errors are approximated whatever their chances: --approximate_disjoint_errors takes no other chance than 1")
    model = error_model(text_in(given.input), decompose=given.decompose_errors, ignore_decomposition_failures=given.ignore_decomposition_failures,
                        approximate_disjoint_errors=bool(given.approximate_disjoint_errors), allow_gauge_detectors=given.allow_gauge_detectors)
    write_out(given.out, model.dem.encode())


def sample_dem(given: argparse.Namespace) -> None:
    """Shots of an error model."""
    model = ErrorModel.from_dem(text_in(given.input))
    if given.err_out or given.replay_err_in:
        with contextlib.ExitStack() as files:
            out = files.enter_context(open(given.err_out, "wb")) if given.err_out else None
            write_shots(given, shots_by_errors(model, errors_of(given, model), given.err_out_format, out))
    else:
        write_shots(given, model.iter_sample(given.shots, TOGETHER, seed=given.seed))


def errors_of(given: argparse.Namespace, model: ErrorModel) -> Iterator[Bits]:
    """Which errors of a model happen, bool (shots, errors), a few shots at a time: those of a file, or drawn as `ErrorModel.sample` does."""
    kept = shots_in(given.replay_err_in, given.replay_err_in_format, len(model)) if given.replay_err_in else None
    if kept is not None and len(kept) < given.shots:
        raise ValueError(f"{given.replay_err_in} has {len(kept)} shots, and --shots asks for {given.shots}")
    seed = drawn_seed(given.seed)
    for first, count in chunks.of(given.shots, drawing.BLOCK, 0):
        errors = np.zeros((count, len(model)), dtype=np.bool_) if kept is None else kept[first : first + count]
        for mechanisms, places in drawing.events(model.chances, count, seed, first) if kept is None else ():
            errors[places, mechanisms] = True
        yield errors


def shots_by_errors(model: ErrorModel, several: Iterable[Bits], format: formats.Format, out: BinaryIO | None) -> Iterator[tuple[Bits, Bits]]:
    """The detectors and observables that errors flip; they are written too, if there is a file for them."""
    for errors in several:
        if out:
            out.write(formats.WRITERS[format](errors, formats.kinds_of(len(model), 0, 0)))
        drawn = np.zeros((len(errors), model.num_detectors + model.num_observables), dtype=np.bool_)
        places, mechanisms = np.nonzero(errors)
        drawing.flip(drawn, mechanisms, places, model.indptr, model.indices)
        yield drawn[:, : model.num_detectors], drawn[:, model.num_detectors :]


def explain_errors(given: argparse.Namespace) -> None:
    """Each mechanism of a circuit's error model, with the lines that make it."""
    model = error_model(text_in(given.input), approximate_disjoint_errors=True)
    wanted = None
    if given.dem_filter:
        only = ErrorModel.from_file(given.dem_filter)
        wanted = {flips_of(only, it) for it in range(len(only))}
    lines = [line for it in range(len(model)) if wanted is None or flips_of(model, it) in wanted for line in lines_of(model, it, given.single)]
    write_out(given.out, "".join(f"{line}\n" for line in lines).encode())


def flips_of(model: ErrorModel, mechanism: int) -> str:
    """What a mechanism flips, as D3 L0."""
    flipped = model.flipped(mechanism).tolist()
    return " ".join(f"D{bit}" if bit < model.num_detectors else f"L{bit - model.num_detectors}" for bit in flipped)


def lines_of(model: ErrorModel, mechanism: int, is_single: bool) -> Iterator[str]:
    """A mechanism, and the errors that make it, or the first of them."""
    yield f"error({model.chances[mechanism]}) {flips_of(model, mechanism)}"
    for cause in model.explain(mechanism)[: 1 if is_single else None]:
        rounds = f" in round {'/'.join(map(str, cause.rounds))}" if cause.rounds else ""
        yield f"    line {cause.line}{rounds}: {cause.error} of {cause.name}, chance {cause.chance}"


def diagram(given: argparse.Namespace) -> None:
    """A picture of a circuit."""
    noisy = from_stim(text_in(given.input))
    kind, circuit = KINDS[given.type], noisy.circuit
    ticks = ticks_of(given.tick) if given.tick else range(circuit.num_ticks + 1) if kind in OF_TICKS else None
    detectors = None
    if given.filter_coords:
        detectors = named_by(given.filter_coords, circuit.detector_coordinates())
    drawn = circuit.diagram if given.remove_noise else noisy.diagram
    picture = drawn(kind, tick=ticks, detectors=detectors)
    if given.out:
        picture.save(given.out)
    else:
        write_out(None, picture.svg().encode())


def ticks_of(words: str) -> range:
    """A tick, as 5, or several, as 5:10."""
    first, _, end = words.partition(":")
    try:
        return range(int(first), int(end) if end else int(first) + 1)
    except ValueError:
        raise ValueError(f"{words} is no tick, as 5, and no range of them, as 5:10") from None


def named_by(points: str, coordinates: NDArray[np.float64]) -> list[str]:
    """The detectors and observables that points name, as D5, L0, or the first coordinates of detectors, as 2,4."""
    found: list[str] = []
    for point in points.split(":"):
        if point[:1] in ("D", "L"):
            found.append(point)
        else:
            wanted = np.array([float(number) for number in point.split(",")])
            if len(wanted) <= coordinates.shape[1]:
                found += [f"D{number}" for number in np.flatnonzero((coordinates[:, : len(wanted)] == wanted).all(axis=1))]
    return found
