"""Shots in parts, on one core or on many: the bytes are the same however the shots are split."""

import itertools
from collections.abc import Iterator
from concurrent.futures import Executor
from dataclasses import dataclass, replace
from typing import Literal

from stabsim import checking, program

# The most shots of one run of the program.
MOST_SHOTS = 1_000_000

What = Literal["sample", "detect", "detect_both"]
WORDS = {"sample": ["sample"], "detect": ["detect"], "detect_both": ["detect", "--append_observables"]}


@dataclass(frozen=True)
class Shots:
    """What is asked of the program: this many shots of a seed from a first one on, of a circuit's text."""

    text: str
    what: What
    seed: int
    first: int
    count: int


def bytes_of(shots: Shots, executor: Executor | None, parts: int) -> bytes:
    """The shots in the format b8, one after another; with an executor its workers take parts, as many as these or more."""
    checking.whole("parts", parts, 1)
    if executor is None:
        return b"".join(map(run, split(shots, 1)))
    workers = checking.of_kind("executor", executor, Executor, "one of concurrent.futures, as ThreadPoolExecutor()")
    return b"".join(workers.map(run, list(split(shots, parts))))


def split(shots: Shots, parts: int) -> Iterator[Shots]:
    """The shots in this many parts of about the same length, none empty and none over what one run takes."""
    parts = min(max(parts, -(-shots.count // MOST_SHOTS)), max(shots.count, 1))
    bounds = [shots.first + part * shots.count // parts for part in range(parts + 1)]
    for first, end in itertools.pairwise(bounds):
        yield replace(shots, first=first, count=end - first)


def run(shots: Shots) -> bytes:
    """One run of the program. A worker in another process, or on another machine, finds its program by itself."""
    words = [*WORDS[shots.what], "--shots", str(shots.count), *program.seed_words(shots.seed), "--out_format", "b8"]
    # If shots begin at 0, also a program that knows no other serves.
    return program.run(words + (["--first_shot", str(shots.first)] if shots.first else []), shots.text)
