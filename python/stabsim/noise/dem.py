"""Text of Stim's detector error models, read as arrays."""

import functools
import itertools
import re
from collections.abc import Iterable
from dataclasses import dataclass, field

import numpy as np
from numpy.typing import NDArray

from stabsim.errors import BadErrorModel, Refused
from stabsim.formats.combining import Chances, Numbers, odd, starts_of
from stabsim.formats.words import SPACE, numbers_in, words_in_lines
from stabsim.noise.decomposing import Parts
from stabsim.program import FILE_NAME
from stabsim.text import names
from stabsim.text.reading import Instruction, Line, block_of, content_of, instruction_of, is_number
from stabsim.text.rewriting import GATES

TARGET = re.compile(r"([DLdl])(\d{1,9})", re.ASCII)
# A line: of an error its chance and targets, of one detector its place and number, if they are written as models are; or else all of it.
NUMBER, TAG, WORDS = r"\d+(?:\.\d*)?(?:e-?\d+)?", r"(?:\[[^\]#\n]*\])?", r"(?: [DL]\d{1,9})+"
PLAIN = re.compile(rf"^(?: *error{TAG}\(({NUMBER})\)((?:{WORDS}(?: \^{WORDS})*)?) *\r?|"
                   rf" *detector{TAG}(?:\((-?{NUMBER}(?:, ?-?{NUMBER})*)\))? D(\d{{1,9}}) *\r?|(.*))$", re.ASCII | re.MULTILINE)
CARET, LOWER = ord("^"), 0x20
# The most errors, targets or detectors that a text may stand for, and how deep blocks may be nested.
MOST = 2**26
MOST_DEEP = 16
MOST_DIGITS = 9
# The most observables.
MOST_OBSERVABLES = 2**20
CHANCE = "an error has one chance, from 0 to 1"
# What a circuit has and a model has not, and what is said of it.
IN_CIRCUITS = names.READ | names.UNREAD_NOISE | set(names.MEASURING) | set(names.ALIASES) | GATES
OF_CIRCUIT = ", but a circuit may have it: stabsim.error_model(text), or the command analyze_errors, makes the model of a circuit"

Place = tuple[float, ...]
# One group of several lines.
Words = tuple[str, ...]


@dataclass
class Flat:
    """Some lines with their blocks written out, from where nothing was shifted on.

    chances: float64 (errors,). targets: int64 (targets, 4): of each its error, which part of it, its number, and 1 if it is an
    observable. places: the coordinates of each detector that is declared; observables: one more than the greatest that is declared;
    shift, moved: by how much the lines shift the detectors and coordinates of later ones.
    """

    chances: Chances
    targets: Numbers
    places: dict[int, Place] = field(default_factory=dict)
    observables: int = 0
    shift: int = 0
    moved: Place = ()

    def rounds(self, count: int, line: int) -> "Flat":
        """The same this many times, one after the other."""
        if count * max(len(self.chances), len(self.targets), len(self.places)) > MOST or count * self.shift > MOST:
            raise BadErrorModel(line, f"written out, this block would have more than {MOST} errors, targets or detectors")
        steps = np.array([len(self.chances), 0, self.shift, 0]) * np.arange(count if len(self.targets) else 0)[:, None, None]
        targets = self.targets + steps
        targets[:, :, 2] -= targets[:, :, 3] * steps[:, :, 2]
        places: dict[int, Place] = {}
        for now in range(count if self.places else 0):
            gone = tuple(now * it for it in self.moved)
            places.update((number + now * self.shift, sum_of(place, gone)) for number, place in self.places.items())
        moved = tuple(count * it for it in self.moved)
        return Flat(np.tile(self.chances, count), targets.reshape(-1, 4), places, self.observables, count * self.shift, moved)


def sum_of(place: Place, moved: Place) -> Place:
    """A place that is moved, as far as it has coordinates."""
    return tuple(one + other for one, other in itertools.zip_longest(place, moved[: len(place)], fillvalue=0.0))


class Run:
    """Lines without blocks, read one after another.

    words: of each error its targets as they are written, with shifts: by how much detectors are shifted there.
    """

    def __init__(self) -> None:
        self.chances: list[float] = []
        self.words: list[str] = []
        self.shifts: list[int] = []
        self.rest = Flat(np.zeros(0), np.zeros((0, 4), dtype=np.int64))

    def add(self, line: Line) -> None:
        """Reads one line."""
        item = instruction_of(line, "")
        if item.name == "ERROR":
            self.add_error(chance_of(item), words_of(item))
        elif item.name == "DETECTOR":
            self.add_detectors(numbers_of(item), declared(item, "D"))
        elif item.name == "LOGICAL_OBSERVABLE":
            self.rest.observables = max([self.rest.observables, *(number + 1 for number in declared(item, "L"))])
        elif item.name == "SHIFT_DETECTORS":
            self.rest.shift += shift_of(item)
            self.rest.moved = tuple(map(sum, itertools.zip_longest(self.rest.moved, numbers_of(item), fillvalue=0.0)))
        else:
            raise BadErrorModel(item.line, f"{item.name.lower()} is nothing that an error model has{OF_CIRCUIT * (item.name in IN_CIRCUITS)}")

    def add_plain(self, first: int, columns: list[Words]) -> None:
        """Reads lines that are written as models are, from a number on, as the groups of `PLAIN`."""
        is_error, words, places, detectors, _ = columns
        chances = list(map(float, filter(None, is_error)))
        if max(chances, default=0) > 1:
            raise BadErrorModel(next(first + place for place, chance in enumerate(is_error) if chance and float(chance) > 1), CHANCE)
        self.chances += chances
        self.words += itertools.compress(words, is_error)
        self.shifts += [self.rest.shift] * len(chances)
        for place, detector in zip(itertools.compress(places, detectors), filter(None, detectors)):
            self.add_detectors(list(map(float, place.split(","))) if place else [], [int(detector)])

    def add_error(self, chance: float, words: str) -> None:
        """Adds an error with these targets."""
        self.chances.append(chance)
        self.words.append(words)
        self.shifts.append(self.rest.shift)

    def add_detectors(self, place: list[float], numbers: Iterable[int]) -> None:
        """Adds the place of detectors."""
        moved = sum_of(tuple(place), self.rest.moved)
        self.rest.places.update((number + self.rest.shift, moved) for number in numbers)

    def flat(self) -> Flat:
        """What the lines say."""
        self.rest.chances = np.array(self.chances, dtype=np.float64)
        self.rest.targets = targets_of(self.words, np.array(self.shifts, dtype=np.int64))
        return self.rest


def targets_of(words: list[str], shifts: Numbers) -> Numbers:
    """The targets of errors, as those of a `Flat`, by their words and by how much their detectors are shifted."""
    data = np.frombuffer("".join(f"{its}\n" for its in words).encode(), dtype=np.uint8)
    starts, ends, errors, is_first = words_in_lines(data, SPACE)
    letters = data[starts] & ~np.uint8(LOWER)
    # A ^ has its number among all, and a target how many there are before it since its error began.
    carets = np.cumsum(letters == CARET)
    before = np.append(0, carets[np.append(is_first[1:], True)[: len(starts)]])[errors]
    is_target = (letters == ord("D")) | (letters == ord("L"))
    is_observable = letters[is_target] == ord("L")
    numbers = numbers_in(data, starts[is_target] + 1, ends[is_target])
    errors = errors[is_target]
    return np.column_stack([errors, (carets - before)[is_target], numbers + shifts[errors] * ~is_observable, is_observable])


def numbers_of(item: Instruction) -> list[float]:
    """The arguments as numbers."""
    try:
        return item.numbers()
    except Refused:
        raise BadErrorModel(item.line, f"({', '.join(item.arguments)}) are not all numbers") from None


def chance_of(item: Instruction) -> float:
    """The chance of an error."""
    chances = numbers_of(item)
    if len(chances) != 1 or not 0 <= chances[0] <= 1:
        raise BadErrorModel(item.line, CHANCE)
    return chances[0]


def shift_of(item: Instruction) -> int:
    """By how many detectors a line shifts."""
    if len(item.targets) != 1 or not is_number(item.targets[0]) or len(item.targets[0]) > MOST_DIGITS:
        raise BadErrorModel(item.line, f"shift_detectors is by a number of detectors, of up to {MOST_DIGITS} digits")
    return int(item.targets[0])


def words_of(item: Instruction) -> str:
    """The targets of an error, between whose parts `^` is."""
    size = 0
    for target in [*item.targets, *["^"] * bool(item.targets)]:
        if target != "^":
            target_of(item, target)
        elif not size:
            raise BadErrorModel(item.line, "a part of an error has no targets")
        size = 0 if target == "^" else size + 1
    return " ".join(item.targets)


def target_of(item: Instruction, target: str) -> tuple[int, int]:
    """The number of a target, and 1 of an observable or 0 of a detector."""
    found = known_target(target)
    if not found:
        raise BadErrorModel(item.line, f"{target} is neither D nor L and a number")
    return found


@functools.lru_cache(maxsize=65536)
def known_target(target: str) -> tuple[int, int] | None:
    """The same; None of what is no target."""
    found = TARGET.fullmatch(target)
    return (int(found[2]), int(found[1] in "Ll")) if found else None


def declared(item: Instruction, kind: str) -> list[int]:
    """The numbers of the detectors, D, or the observables, L, that a line declares."""
    found = [target_of(item, target) for target in item.targets]
    if any(is_observable != (kind == "L") for _, is_observable in found):
        raise BadErrorModel(item.line, f"{item.name.lower()} declares {kind} and a number")
    return [number for number, _ in found]


class Lines:
    """The lines of a text. others: which ones, from 0, are not written as models are, one after another."""

    def __init__(self, text: str) -> None:
        self.columns: list[Words] = list(zip(*PLAIN.findall(text)))
        self.others = iter([place for place, other in enumerate(self.columns[-1]) if other])
        self.passed = 0

    def before(self, place: int) -> tuple[int, list[Words]]:
        """The number of the first line after those that were passed, and the lines up to another, which is passed too."""
        first, self.passed = self.passed, place + 1
        return first + 1, [column[first:place] for column in self.columns]


def flat_of(lines: Lines, opened: int = 0, depth: int = 0) -> Flat:
    """What lines say, up to the one that closes the block which a line opened, or else to the last."""
    found, run = [], Run()
    for place in lines.others:
        run.add_plain(*lines.before(place))
        text = lines.columns[-1][place]
        line = Line(place + 1, text, content_of(text))
        if line.opens:
            block = block_of(line, "")
            if depth == MOST_DEEP:
                raise BadErrorModel(line.number, f"blocks are nested over {MOST_DEEP} deep: write inner blocks out")
            found += [run.flat(), flat_of(lines, line.number, depth + 1).rounds(block.repeat, line.number)]
            run = Run()
        elif line.closes:
            if not opened:
                raise Refused(5, "BadBlock", line.number)
            return joined([*found, run.flat()])
        elif line.content:
            run.add(line)
    run.add_plain(*lines.before(len(lines.columns[-1])))
    if opened:
        raise Refused(5, "BadBlock", opened)
    return joined([*found, run.flat()])


def joined(flats: list[Flat]) -> Flat:
    """Lines one after another, each shifted by those before it."""
    if len(flats) == 1:
        return flats[0]
    whole = Flat(np.zeros(0), np.zeros((0, 4), dtype=np.int64))
    targets = [whole.targets]
    errors = 0
    for flat in flats:
        steps = np.array([errors, 0, whole.shift, 0]) - flat.targets[:, 3:] * np.array([0, 0, whole.shift, 0])
        targets.append(flat.targets + steps)
        whole.places.update((number + whole.shift, sum_of(place, whole.moved)) for number, place in flat.places.items())
        whole.observables = max(whole.observables, flat.observables)
        whole.shift += flat.shift
        whole.moved = tuple(map(sum, itertools.zip_longest(whole.moved, flat.moved, fillvalue=0.0)))
        errors += len(flat.chances)
    whole.chances = np.concatenate([whole.chances, *(flat.chances for flat in flats)])
    whole.targets = np.concatenate(targets)
    return whole


@dataclass
class Read:
    """An error model as its text says: as the fields of an ErrorModel."""

    chances: Chances
    indptr: Numbers
    indices: Numbers
    detectors: int
    observables: int
    coordinates: NDArray[np.float64]
    parts: Parts | None


def read(text: str) -> Read:
    """The error model of a text, with an error for each that there is once blocks are written out."""
    if FILE_NAME.fullmatch(text):
        raise BadErrorModel(1, "this is no line of an error model: if it is the name of a file, stabsim.ErrorModel.from_file(name) reads it")
    try:
        flat = flat_of(Lines(text))
    except Refused as refused:
        raise BadErrorModel(refused.line or 0, "this is no line of an error model, or a block is not closed") from None
    errors, parts, numbers, is_observable = flat.targets.T
    detectors = max(int(numbers[is_observable == 0].max(initial=-1)), max(flat.places, default=-1)) + 1
    observables = max(int(numbers[is_observable == 1].max(initial=-1)) + 1, flat.observables)
    check_count(text, "D", detectors, MOST)
    check_count(text, "L", observables, MOST_OBSERVABLES)
    columns, width = numbers + detectors * is_observable, detectors + observables
    sets, indices = odd(errors, columns, width)
    indptr = starts_of(np.bincount(sets, minlength=len(flat.chances)))
    found = None
    if parts.any():
        is_first = (np.diff(errors, prepend=-1) != 0) | (np.diff(parts, prepend=-1) != 0)
        part = np.cumsum(is_first) - 1
        starts = starts_of(np.bincount(errors[is_first], minlength=len(flat.chances)))
        sets, columns = odd(part, columns, width)
        found = Parts(starts, starts_of(np.bincount(sets, minlength=int(starts[-1]))), columns)
    return Read(flat.chances, indptr, indices, detectors, observables, places_of(flat.places, detectors), found)


def check_count(text: str, kind: str, count: int, most: int) -> None:
    """Raises what is wrong if a model has more detectors, D, or observables, L, than one may have: at the first line that names one past
    these, or at the last line, if it is past them by shifts alone."""
    if count > most:
        past = next((it for it in re.finditer(rf"(?i)\b{kind}(\d{{1,9}})\b", text, re.ASCII) if int(it[1]) >= most), None)
        line = text.rstrip("\n").count("\n", 0, past.start() if past else len(text)) + 1
        raise BadErrorModel(line, f"{kind}{count - 1} is past the last that a model may have, {kind}{most - 1}")


def places_of(places: dict[int, Place], detectors: int) -> NDArray[np.float64]:
    """The coordinates of each detector, float64 (detectors, width), nan if a detector has none."""
    filled = np.full((detectors, max(map(len, places.values()), default=0)), np.nan)
    for detector, place in places.items():
        filled[detector, : len(place)] = place
    return filled
