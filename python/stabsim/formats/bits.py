"""Bits as the program writes them, as numpy arrays."""

from typing import Any

import numpy as np
from numpy.typing import NDArray

from stabsim import checking


def bytes_of_shot(bits: int) -> int:
    """How many bytes a shot of this many bits has in the format b8."""
    return (bits + 7) // 8


def make_room(shots: int, bits: int) -> None:
    """Raises MemoryError, before anything is run, if memory is refused to an array of this many shots and bits."""
    try:
        np.empty((shots, max(bits, 1)), dtype=np.bool_)
    except (MemoryError, ValueError, OverflowError):
        raise MemoryError(f"shots is {shots}, of {bits} bits each, which memory does not hold: take fewer at once") from None


def of_b8(data: bytes, shots: int, bits: int) -> NDArray[np.bool_]:
    """Shots in the format b8, as a bool array (shots, bits)."""
    return unpacked(packed_of_b8(data, shots, bits), bits)


def packed_of_b8(data: bytes, shots: int, bits: int) -> NDArray[np.uint8]:
    """The same packed as they are, uint8 (shots, (bits + 7) // 8)."""
    each = bytes_of_shot(bits)
    if len(data) != shots * each:
        raise ValueError(f"{len(data)} bytes are not {shots} shots of {bits} bits")
    return np.frombuffer(data, dtype=np.uint8).reshape(shots, each)


def unpacked(packed: NDArray[np.uint8], bits: int) -> NDArray[np.bool_]:
    """Packed shots, uint8 (shots, (bits + 7) // 8), as a bool array (shots, bits)."""
    return np.unpackbits(packed, axis=1, count=bits, bitorder="little").view(np.bool_)


def packed(shots: NDArray[np.bool_]) -> NDArray[np.uint8]:
    """Shots, bool (shots, bits), as uint8 (shots, (bits + 7) // 8): bit k is bit k % 8 of byte k // 8."""
    return np.packbits(shots, axis=1, bitorder="little")


def transposed(packed: NDArray[np.uint8]) -> NDArray[np.uint8]:
    """Packed rows, uint8 (8 rows, columns), as packed columns, uint8 (8 columns, rows): eight bytes of eight rows are turned at once, bit
    by bit, pair by pair, and four by four."""
    rows, columns = packed.shape[0] // 8, packed.shape[1]
    words = np.ascontiguousarray(packed.reshape(rows, 8, columns).transpose(2, 0, 1)).view("<u8")[..., 0]
    for shift, mask in ((7, 0x00AA00AA00AA00AA), (14, 0x0000CCCC0000CCCC), (28, 0x00000000F0F0F0F0)):
        turned = (words ^ words >> np.uint64(shift)) & np.uint64(mask)
        words = words ^ turned ^ turned << np.uint64(shift)
    return np.ascontiguousarray(words[..., None].view(np.uint8).transpose(0, 2, 1)).reshape(8 * columns, rows)


def table_of(shots: NDArray[np.bool_] | NDArray[np.uint8], bits: int, name: str) -> NDArray[np.bool_]:
    """Shots that a user gave by this name, as a bool array (shots, bits): they are one, or they are packed, uint8."""
    if not isinstance(shots, np.ndarray):
        raise TypeError(f"{name} is {checking.shown(shots)}: give a bool array (shots, {bits}), as numpy.array(.., dtype=bool)")
    given: NDArray[Any] = np.asarray(shots)
    each = bytes_of_shot(bits)
    if given.ndim == 2 and given.dtype == np.bool_ and given.shape[1] == bits:
        return given
    if given.ndim == 2 and given.dtype == np.uint8 and given.shape[1] == each:
        return unpacked(given, bits)
    raise ValueError(f"{name} is an array {given.dtype} {given.shape}: give a bool array (shots, {bits}), or packed a uint8 array (shots, {each})")


def of_text(line: bytes) -> NDArray[np.bool_]:
    """The characters 0 and 1 of a line, as a bool array (bits,)."""
    return np.equal(np.frombuffer(line, dtype=np.uint8), ord("1"))
