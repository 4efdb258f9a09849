"""Shots in files, in Stim's result formats."""

import itertools
import pathlib
from collections.abc import Callable
from os import PathLike
from typing import Literal, TypeVar, overload

import numpy as np
from numpy.typing import NDArray

from stabsim import checking
from stabsim.errors import BadShots
from stabsim.formats import bits
from stabsim.formats.combining import starts_of
from stabsim.formats.words import COMMA, LINE_END, SPACE, ZERO, Bytes, numbers_in, words_in_lines

Bits = NDArray[np.bool_]
Packed = NDArray[np.uint8]
Format = Literal["01", "b8", "r8", "hits", "dets", "ptb64"]

# How many bits of each kind a shot has, by the prefix of the kind.
Kinds = dict[str, int]
Read = Callable[[Bytes, Kinds], Bits]
Write = Callable[[Bits, Kinds], bytes]
Function = TypeVar("Function")

# How many zeros a byte of r8 counts that no 1 follows, and how many shots ptb64 has together.
LONG, TOGETHER = 255, 64
ADD_UP = "num_measurements, num_detectors and num_observables add up to"
# What a line of dets begins with.
SHOT = b"shot"


@overload
def read_shots(path: str | PathLike[str], *, format: Format, num_measurements: int = ..., num_detectors: int = ...,
               num_observables: int = ..., bit_packed: Literal[False] = ...) -> Bits: ...


@overload
def read_shots(path: str | PathLike[str], *, format: Format, num_measurements: int = ..., num_detectors: int = ...,
               num_observables: int = ..., bit_packed: Literal[True]) -> Packed: ...


def read_shots(path: str | PathLike[str], *, format: Format, num_measurements: int = 0, num_detectors: int = 0,
               num_observables: int = 0, bit_packed: bool = False) -> Bits | Packed:
    """The shots of a file, bool (shots, bits): measurements, detectors and observables, one kind after another.

    format: 01, b8, r8, hits, dets or ptb64. The three numbers say how many bits of each kind a shot has. With bit_packed bit k is bit
    k % 8 of byte k // 8, uint8 (shots, (bits + 7) // 8). Raises stabsim.BadShots if the file has no such shots. In b8 and ptb64 shots
    without bits are no bytes, and so there are none.

    >>> import stabsim, tempfile
    >>> with tempfile.NamedTemporaryFile("w") as file:
    ...     file.write("shot D0 L0\\nshot\\n")
    ...     file.flush()
    ...     stabsim.read_shots(file.name, format="dets", num_detectors=2, num_observables=1).astype(int)
    16
    array([[1, 0, 1],
           [0, 0, 0]])
    """
    kinds = kinds_of(num_measurements, num_detectors, num_observables)
    data = np.frombuffer(pathlib.Path(checking.file_name("path", path)).read_bytes(), dtype=np.uint8)
    found = chosen(READERS, format)(data, kinds)
    return bits.packed(found) if bit_packed else found


def write_shots(path: str | PathLike[str], shots: Bits | Packed, *, format: Format, num_measurements: int = 0, num_detectors: int = 0,
                num_observables: int = 0) -> None:
    """Writes shots to a file: bool (shots, bits), or packed as `read_shots` has them, uint8 (shots, (bits + 7) // 8).

    format: 01, b8, r8, hits, dets or ptb64, which takes a multiple of 64 shots. The three numbers add up to the bits of a shot.

    >>> import numpy, stabsim, tempfile
    >>> with tempfile.NamedTemporaryFile() as file:
    ...     stabsim.write_shots(file.name, numpy.ones((2, 9), dtype=bool), format="b8", num_measurements=9)
    ...     file.read()
    b'\\xff\\x01\\xff\\x01'
    """
    kinds = kinds_of(num_measurements, num_detectors, num_observables)
    table = bits.table_of(shots, sum(kinds.values()), "shots")
    pathlib.Path(checking.file_name("path", path)).write_bytes(chosen(WRITERS, format)(table, kinds))


def kinds_of(measurements: int, detectors: int, observables: int) -> Kinds:
    """How many bits of each kind a shot has, by the prefix of the kind."""
    return {"M": checking.whole("num_measurements", measurements), "D": checking.whole("num_detectors", detectors),
            "L": checking.whole("num_observables", observables)}


def chosen(functions: dict[str, Function], format: str) -> Function:
    """The function of a format."""
    return functions[checking.one_of("format", format, functions)]


def lines_in(data: Bytes) -> Bytes:
    """Lines of a file, whose ends may have a carriage return, as those of a circuit may. The last one has an end too."""
    lines = np.frombuffer(data.tobytes().replace(b"\r\n", b"\n"), dtype=np.uint8)
    if len(lines) and lines[-1] != LINE_END:
        raise BadShots("the last line has no end", int(np.sum(lines == LINE_END)) + 1)
    return lines


def refuse_any(is_wrong: NDArray[np.bool_], lines: NDArray[np.int64] | range, why: str) -> None:
    """Raises BadShots at the first of the lines, counted from 0, in which something is wrong."""
    wrong = np.flatnonzero(is_wrong)
    if len(wrong):
        raise BadShots(why, int(lines[wrong[0]]) + 1)


def read_01(data: Bytes, kinds: Kinds) -> Bits:
    width = sum(kinds.values())
    text = lines_in(data)
    lengths = np.diff(np.flatnonzero(text == LINE_END), prepend=-1) - 1
    shots = range(len(lengths))
    first = int(lengths[lengths != width][:1].sum())
    refuse_any(lengths != width, shots, f"it has {first} characters, and {ADD_UP} {width}")
    table = text.reshape(-1, width + 1)[:, :width]
    refuse_any(np.any((table | 1) != ZERO + 1, axis=1), shots, "a character is neither 0 nor 1")
    return np.equal(table, ZERO + 1)


def write_01(shots: Bits, kinds: Kinds) -> bytes:
    lines = np.full((shots.shape[0], shots.shape[1] + 1), LINE_END, dtype=np.uint8)
    lines[:, :-1] = shots
    lines[:, :-1] += ZERO
    return lines.tobytes()


def read_b8(data: Bytes, kinds: Kinds) -> Bits:
    width = sum(kinds.values())
    each = bits.bytes_of_shot(width)
    if len(data) % each if each else len(data):
        raise BadShots(f"{len(data)} bytes are not shots of {each} bytes each")
    return bits.of_b8(data.tobytes(), len(data) // each if each else 0, width)


def write_b8(shots: Bits, kinds: Kinds) -> bytes:
    return bits.packed(shots).tobytes()


def read_r8(data: Bytes, kinds: Kinds) -> Bits:
    # With the 1 that is put after its bits each shot has one bit more, so all of them are one long run of bits.
    length = sum(kinds.values()) + 1
    is_one = data != LONG
    behind = np.cumsum(data.astype(np.int64) + is_one)
    total = int(behind[-1]) if len(data) else 0
    shots, places = np.divmod(behind[is_one] - 1, length)
    if total % length or not is_one[-1:].all() or int(np.sum(places == length - 1)) != total // length:
        raise BadShots(f"these are no shots of {length - 1} bits each")
    table = np.zeros((total // length, length), dtype=np.bool_)
    table[shots, places] = True
    return table[:, :-1]


def write_r8(shots: Bits, kinds: Kinds) -> bytes:
    ended = np.append(shots, np.ones((len(shots), 1), dtype=np.bool_), axis=1)
    gaps = np.diff(np.flatnonzero(ended), prepend=-1) - 1
    ends = np.cumsum(gaps // LONG + 1)
    written = np.full(int(ends[-1]) if len(ends) else 0, LONG, dtype=np.uint8)
    written[ends - 1] = gaps % LONG
    return written.tobytes()


def places_in(data: Bytes, starts: NDArray[np.int64], ends: NDArray[np.int64], lines: NDArray[np.int64]) -> NDArray[np.int64]:
    """The numbers from starts to ends, each of 1 to 9 digits, which are in these lines."""
    lengths = ends - starts
    # How many digits are in front of each byte: between the ends of a number there are as many as it is long.
    digits = starts_of(np.logical_and(data >= ZERO, data <= ZERO + 9).astype(np.int64))
    refuse_any((lengths < 1) | (lengths > 9) | (digits[ends] - digits[starts] != lengths), lines, "a place is no number, or has over 9 digits")
    return numbers_in(data, starts, ends)


def table_of(lines: NDArray[np.int64], places: NDArray[np.int64], count: int, width: int) -> Bits:
    """The bits of this many lines, whose ones are at these places."""
    refuse_any(places >= width, lines, f"a place is past the last bit, and {ADD_UP} {width}")
    table = np.zeros((count, width), dtype=np.bool_)
    table[lines, places] = True
    return table


def read_hits(data: Bytes, kinds: Kinds) -> Bits:
    text = lines_in(data)
    words = words_in_lines(text, COMMA)
    # A line without hits is one empty word.
    is_some = ~((words.starts == words.ends) & words.is_first & (text[words.ends] == LINE_END))
    starts, ends, lines = (it[is_some] for it in words[:3])
    return table_of(lines, places_in(text, starts, ends, lines), int(np.sum(words.is_first)), sum(kinds.values()))


def write_hits(shots: Bits, kinds: Kinds) -> bytes:
    return "".join(",".join(map(str, np.flatnonzero(shot).tolist())) + "\n" for shot in shots).encode()


def read_dets(data: Bytes, kinds: Kinds) -> Bits:
    count, lines, places = ones_of_dets(lines_in(data), kinds)
    return table_of(lines, places, count, sum(kinds.values()))


def ones_of_dets(text: Bytes, kinds: Kinds) -> tuple[int, NDArray[np.int64], NDArray[np.int64]]:
    """How many shots lines of dets have, and in which shot and at which place each 1 is, in the order of the lines."""
    words = words_in_lines(text, SPACE)
    heads = np.flatnonzero(words.is_first)
    shots = range(len(heads))
    refuse_any(words.ends[heads] - words.starts[heads] != len(SHOT), shots, "it does not begin with the word shot")
    letters = text[words.starts[heads, None] + np.arange(len(SHOT))]
    refuse_any(np.any(letters != np.frombuffer(SHOT, dtype=np.uint8), axis=1), shots, "it does not begin with the word shot")
    starts, ends, lines = (it[~words.is_first] for it in words[:3])
    return len(heads), lines, ones_in(text, starts, ends, lines, kinds)


def ones_in(data: Bytes, starts: NDArray[np.int64], ends: NDArray[np.int64], lines: NDArray[np.int64], kinds: Kinds) -> NDArray[np.int64]:
    """The place among all bits of each word from starts to ends, as `D3`, which are in these lines: the kinds come one after another."""
    refuse_any(starts == ends, lines, "it has two spaces side by side, or one at its end")
    first, count = np.zeros(256, dtype=np.int64), np.full(256, -1, dtype=np.int64)
    for letter, begin in zip(kinds, itertools.accumulate(kinds.values(), initial=0)):
        first[ord(letter)], count[ord(letter)] = begin, kinds[letter]
    its = data[starts]
    refuse_any(count[its] < 0, lines, "a word is none of M, D and L with a number")
    places = places_in(data, starts + 1, ends, lines)
    refuse_any(places >= count[its], lines, "a number is past the bits of its kind, of which num_measurements, num_detectors or num_observables says how many there are")
    found: NDArray[np.int64] = first[its] + places
    return found


def write_dets(shots: Bits, kinds: Kinds) -> bytes:
    names = [f" {letter}{number}" for letter, count in kinds.items() for number in range(count)]
    return "".join("shot" + "".join(names[place] for place in np.flatnonzero(shot).tolist()) + "\n" for shot in shots).encode()


def read_ptb64(data: Bytes, kinds: Kinds) -> Bits:
    width = sum(kinds.values())
    each = width * TOGETHER // 8
    if len(data) % each if each else len(data):
        raise BadShots(f"{len(data)} bytes are not groups of {TOGETHER} shots of {width} bits")
    groups = np.unpackbits(data.reshape(len(data) // each if each else 0, width, TOGETHER // 8), axis=2, bitorder="little")
    return groups.view(np.bool_).transpose(0, 2, 1).reshape(len(groups) * TOGETHER, width)


def check_groups(shots: int) -> None:
    """Raises ValueError if ptb64 can't have this many shots."""
    if shots % TOGETHER:
        raise ValueError(f"ptb64 has a multiple of {TOGETHER} shots, and not {shots}")


def write_ptb64(shots: Bits, kinds: Kinds) -> bytes:
    check_groups(len(shots))
    groups = shots.reshape(len(shots) // TOGETHER, TOGETHER, shots.shape[1]).transpose(0, 2, 1)
    return np.packbits(groups, axis=2, bitorder="little").tobytes()


READERS: dict[str, Read] = {"01": read_01, "b8": read_b8, "r8": read_r8, "hits": read_hits, "dets": read_dets, "ptb64": read_ptb64}
WRITERS: dict[str, Write] = {"01": write_01, "b8": write_b8, "r8": write_r8, "hits": write_hits, "dets": write_dets, "ptb64": write_ptb64}
