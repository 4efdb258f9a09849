#!/usr/bin/env python3
"""Measures what docs/build/benchmarks.md, docs/use/scaling.md and docs/trust/tested.md say of times, and prints lines of their tables.

Times are by the clock, the least of five calls, if nothing else is said. Do nothing else on the machine meanwhile."""

import argparse
import itertools
import os
import subprocess
import sys
import tempfile
import time
from collections.abc import Callable
from pathlib import Path

from oracle.formats import FORMATS
from oracle.reading import MOST_DEPTH, MOST_OBSERVABLES
from program import TOP, find_program
from stabsim import codes
from stabsim.codes.dense import dense_circuit

CALLS = 5
# Few shots and many, on each side of the numbers of lanes.
SHOTS = (1, 2, 8, 16, 17, 64, 65, 256, 1_000)
# How many qubits a text has whose lines have one target each.
QUBITS = 64
# Surface codes by distance and rounds, of which shots are measured for an hour, by runs of at least this many seconds.
SIZES = ((3, 3), (7, 7), (13, 13), (21, 21), (21, 349))
SECONDS = 5
MOST_SHOTS = 1_000_000
HOUR = 3600
# What is timed of a text at a limit, three times: commands, and the script of `edit`.
COMMANDS = {"sample": "", "edit": "insert 0 TICK\ndelete 0\nshow circuit\n"}
REPEATS = 3


def head(*cells: str) -> None:
    """Prints the head of a table."""
    row(*cells)
    print("|---" * len(cells) + "|")


def row(*cells: str) -> None:
    print("| " + " | ".join(cells) + " |", flush=True)


def rounded(number: float) -> str:
    """A number with its two leading digits, in thousands."""
    return f"{number:.2g}" if number < 100 else f"{float(f'{number:.2g}'):,.0f}"


def least(*words: str | Path) -> float:
    """The least time of a call by the clock, in seconds."""
    times = []
    for _ in range(CALLS):
        before = time.perf_counter()
        subprocess.run(words, stdout=subprocess.DEVNULL, check=True)
        times.append(time.perf_counter() - before)
    return min(times)


def time_shots(program: Path, path: Path) -> None:
    """The milliseconds of few shots and of many, with what reading the text takes, less what the program takes to start: they show
    whether somewhere a shot more takes less time than one fewer."""
    circuits = {
        "`X 0`, 1,048,576 rounds": "REPEAT 1048576 {\n    X 0\n}\n",
        "`H 0`, `M 0`, 500,000 rounds": "REPEAT 500000 {\n    H 0\n    M 0\n}\n",
        "surface code, distance 21, 300 rounds": codes.surface_code(21, 300),
        "the same written out": codes.surface_code(21, 300, written_out=True),
        "surface code, distance 7, 1,000 rounds": codes.surface_code(7, 1_000),
        "colour code, distance 7, 300 rounds": codes.colour_code(7, 300),
        "repetition code, distance 25, 1,000 rounds": codes.repetition_code(25, 1_000),
        "Bacon–Shor code 8x8, 200 rounds": codes.bacon_shor_code(8, 200),
        "dense, 256 qubits, 20,000 steps": dense_circuit(256, 20_000),
        f"one target a line, {QUBITS} qubits": "".join(f"H {number % QUBITS}\nM {number % QUBITS}\n" for number in range(100_000)),
    }
    head("Circuit", *(f"{shots:,}" for shots in SHOTS))
    start = least(program, "--version")
    for name, text in circuits.items():
        path.write_text(text)
        times = [least(program, "sample", "--shots", str(shots), "--out_format", "b8", "--in", path) for shots in SHOTS]
        row(name, *(rounded((it - start) * 1e3) for it in times))


def seconds_and_bytes(program: Path, path: Path, form: str, shots: int) -> tuple[float, int]:
    """The seconds of processor time of shots of `detect`, and the bytes that they are."""
    before, written = os.times(), 0
    words: list[str | Path] = [program, "detect", "--shots", str(shots), "--out_format", form, "--in", path]
    with subprocess.Popen(words, stdout=subprocess.PIPE) as process:
        assert process.stdout
        while some := process.stdout.read(1 << 20):
            written += len(some)
    if process.returncode:
        raise SystemExit(f"bench: stabsim ended with status {process.returncode}")
    after = os.times()
    return after.children_user + after.children_system - before.children_user - before.children_system, written


def time_an_hour(program: Path, path: Path) -> None:
    """The shots that an hour is good for, the bytes of a shot and the gigabytes of an hour, by a run that takes seconds of processor
    time, or has the most shots of a run."""
    head("Surface code", "Steps", "Detectors", "Format", "Shots an hour", "Bytes a shot", "GB an hour")
    for (distance, rounds), form in itertools.product(SIZES, FORMATS):
        path.write_text(codes.surface_code(distance, rounds))
        told = subprocess.run([program, "check", "--in", path], capture_output=True, text=True, check=True).stdout
        numbers = dict(line.split(": ") for line in told.splitlines())
        shots = 1
        while (took := seconds_and_bytes(program, path, form, shots))[0] < SECONDS and shots < MOST_SHOTS:
            shots = min(MOST_SHOTS, shots * 4)
        hour, size = HOUR * shots / max(took[0], 0.01), took[1] / shots
        row(f"distance {distance}, {rounds} rounds", *(f"{int(numbers[it]):,}" for it in ("steps", "detectors")), f"`{form}`", rounded(hour),
            f"{size:,.0f}", f"{hour * size / 1e9:.1f}")


# Texts at limits: what they begin with, and the lines that they are filled with.
TEXTS = {
    "lines of one letter": ("", "X\n"),
    "blocks in 16 others": ("", "REPEAT 1 {\n" * MOST_DEPTH + "TICK\n" + "}\n" * MOST_DEPTH),
    "detectors of one record": ("M 0\n", "DETECTOR rec[-1]\n"),
    "additions to 4,096 observables": ("M 0\n", "".join(f"OBSERVABLE_INCLUDE({it}) rec[-1]\n" for it in range(MOST_OBSERVABLES))),
}

# A process counts the memory that its starter held: so a small one starts the program, and says what it cost.
TELL_COST = """
import os, sys
_, status, usage = os.wait4(os.posix_spawn(sys.argv[1], sys.argv[1:], os.environ), 0)
print(usage.ru_utime + usage.ru_stime, usage.ru_maxrss, file=sys.stderr)
sys.exit(os.waitstatus_to_exitcode(status))
"""


def costs_of(program: Path, path: Path) -> list[float]:
    """For each command the least of the processor's time, in seconds, and of the memory, in KiB, of some runs."""
    found: list[float] = []
    for command, script in COMMANDS.items():
        words: list[str | Path] = [sys.executable, "-S", "-c", TELL_COST, program, command, "--in", path]
        runs = [subprocess.run(words, input=script, stdout=subprocess.DEVNULL, stderr=subprocess.PIPE, text=True, check=True) for _ in range(REPEATS)]
        found += map(min, zip(*(map(float, it.stderr.split()) for it in runs)))
    return found


def time_limits(program: Path, path: Path) -> None:
    """What texts cost that go to a limit, as ratios to a surface code written out that has as many bytes."""
    path.write_text(codes.surface_code(21, codes.deepest("surface_code", 21), written_out=True))
    length, base = path.stat().st_size, costs_of(program, path)
    print(f"Texts of {length:,} bytes, against a surface code written out:\n")
    head("Text", *(f"{what} of `{command}`" for command in COMMANDS for what in ("time", "memory")))
    for name, (first, line) in TEXTS.items():
        path.write_text(first + line * ((length - len(first)) // len(line)))
        row(name, *(f"{one / other:.2f}" for one, other in zip(costs_of(program, path), base)))


def time_page(_: Path, path: Path) -> None:
    """How long the page takes from a key until it is painted."""
    # It needs a browser, and the others don't.
    import bench_page

    bench_page.measure(path)


def time_noise(_: Path, __: Path) -> None:
    """The milliseconds of processor time of models of noise, also after edits of noise, of gates and of a detector, and of shots."""
    # It needs numpy, and the others don't.
    import bench_noise

    head("Circuit", "model", "after a channel", "after gates", "after a detector", *(f"{bench_noise.SHOTS:,} shots of `{it}`" for it in ("detect", "sample")))
    bench_noise.measure(row)


def time_crate(_: Path, path: Path) -> None:
    """Times the tableau, reading, whole runs, edits and tables of faults, by the program of crates/bench, built for this processor."""
    crate, folder = TOP / "crates" / "bench", path.parent
    level = subprocess.run([TOP / "python/stabsim/programs/level"], capture_output=True, text=True, check=True).stdout.strip()
    subprocess.run(["rt", "run", f"--cpu=x86-64-{level or 'v2'}"], cwd=crate, stdin=subprocess.DEVNULL, stdout=subprocess.DEVNULL, check=True)

    def bench(*words: str) -> None:
        subprocess.run([crate / "out" / "bench", *words], cwd=folder, check=True)

    def made(name: str, distance: int, form: str = "") -> str:
        """The file of a code's deepest circuit, or as deep as wide if it is written out."""
        file = f"{name}_{distance}{form}.stim"
        rounds = distance if form.startswith("_rounds") else codes.deepest(name, distance)
        (folder / file).write_text(codes.memory(name, distance).text(rounds, form != ""))
        return file

    distances = (7, 13, 21)
    blocks = [made("surface_code", distance) for distance in distances]
    written_out = [made("surface_code", distance, "_written_out") for distance in distances]
    products = [made(name, distance) for name in ("colour_code", "bacon_shor_code") for distance in (7, 21)]
    (folder / "dense_1024.stim").write_text(dense_circuit(1024, 1_048_576, 1))
    bench("measure")
    bench("run", made("surface_code", 3), *blocks, written_out[-1], *products, "dense_1024.stim")
    # X on the qubit 2d + 3, which measures a check of Z, flips its next record and nothing else. Each circuit has a process of its
    # own, so that the memory that a session keeps is reported.
    for distance, *files in zip(distances, blocks, written_out):
        for file in files:
            bench("edit", str(2 * distance + 3), file)
    # Written out, so that a session can put a fault into one round alone.
    bench("faults", *(made("surface_code", distance, f"_rounds_{distance}") for distance in (7, 21)))


# What is measured, with the program and a file for circuits.
KINDS: dict[str, Callable[[Path, Path], None]] = {
    "shots": time_shots, "hour": time_an_hour, "limits": time_limits, "page": time_page, "noise": time_noise, "crate": time_crate,
}


def main() -> None:
    words = argparse.ArgumentParser(description=__doc__)
    words.add_argument("what", choices=KINDS)
    with tempfile.TemporaryDirectory() as folder:
        KINDS[words.parse_args().what](find_program(), Path(folder) / "circuit.stim")


if __name__ == "__main__":
    main()
