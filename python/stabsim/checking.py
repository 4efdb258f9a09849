"""Arguments of public calls: what is wrong with one is said in a sentence, with what to give in its place.

A value of another kind raises TypeError, and one that is out of range ValueError. `name` is the argument's. This needs no numpy.
"""

import os
from collections.abc import Iterable
from numbers import Integral, Real
from typing import Any, TypeVar

Kind = TypeVar("Kind")

# Seeds and numbers of shots are below this.
MOST_NUMBERS = 2**64
# How much of a value a message shows.
MOST_SHOWN = 60


def whole(name: str, value: object, least: int = 0, below: int | None = None) -> int:
    """A whole number of Python or numpy, from least on; True and False are none."""
    limit = f"from {least} on" if below is None else f"from {least} to {'2**64 - 1' if below == MOST_NUMBERS else below - 1}"
    if not isinstance(value, Integral) or isinstance(value, bool):
        raise TypeError(f"{name} is {shown(value)}: give a whole number, an int {limit}")
    number = int(value)
    if number < least or (below is not None and number >= below):
        raise ValueError(f"{name} is {shown(number)}: give a whole number {limit}")
    return number


def place(name: str, value: object, count: int) -> int:
    """The number of one of several things, counted from 0; IndexError if there are not as many."""
    number = whole(name, value) if not isinstance(value, Integral) or isinstance(value, bool) else int(value)
    if not 0 <= number < count:
        raise IndexError(f"{name} is {shown(number)}: give a whole number from 0 to {count - 1}" if count else f"{name} is {shown(number)}, and there is none")
    return number


def seed(name: str, value: object) -> int:
    """A seed of the program's."""
    return whole(name, value, 0, MOST_NUMBERS)


def number(name: str, value: object, kind: str = "a number") -> float:
    """A number of Python or numpy; True and False are none."""
    if not isinstance(value, Real) or isinstance(value, bool):
        raise TypeError(f"{name} is {shown(value)}: give {kind}")
    return float(value)


def chance(name: str, value: object) -> float:
    """A chance: a number from 0 to 1."""
    if not 0 <= number(name, value, "a chance, a number from 0 to 1") <= 1:
        raise ValueError(f"{name} is {number(name, value)}: give a chance, a number from 0 to 1")
    return number(name, value)


def text(name: str, value: object, reader: str) -> str:
    """A text; reader: what reads a file of such a text, as `stabsim.Circuit.from_file(path)`."""
    if isinstance(value, str):
        return encodable(name, value)
    if isinstance(value, os.PathLike):
        raise TypeError(f"{name} is {shown(value)}: give the text of that file, or read it by {reader}")
    if isinstance(value, (bytes, bytearray)):
        raise TypeError(f"{name} is {shown(value)}: give a str, which its decode() makes")
    raise TypeError(f"{name} is {shown(value)}: give a str, or read a file by {reader}")


def encodable(name: str, value: str) -> str:
    """A text that can be written to a file. Half of a surrogate pair, which no file has, is a ValueError."""
    try:
        value.encode("utf-8", "surrogateescape")
    except UnicodeEncodeError as fault:
        # The fault has the whole text.
        half = value[fault.start]
        raise ValueError(f"{name} is {shown(value)}: give a text without {half!r}, which is half of a surrogate pair") from None
    return value


def one_of(name: str, value: object, choices: Iterable[str]) -> str:
    """One of several words."""
    words = list(choices)
    if isinstance(value, str) and value in words:
        return value
    raise (ValueError if isinstance(value, str) else TypeError)(f"{name} is {shown(value)}: give one of {', '.join(map(repr, words))}")


def of_kind(name: str, value: object, kind: type[Kind], remedy: str) -> Kind:
    """An object of a class; remedy: how one comes by such an object, as `a circuit, as of stabsim.from_stim(text)`."""
    if isinstance(value, kind):
        return value
    raise TypeError(f"{name} is {shown(value)}: give {remedy}")


def several(name: str, value: object, example: str) -> list[Any]:
    """What a list or another iterable gives, which is no text; example: as `[0, 3]`."""
    if isinstance(value, Iterable) and not isinstance(value, (str, bytes)):
        return list(value)
    raise TypeError(f"{name} is {shown(value)}: give several, as {example}")


def file_name(name: str, value: object) -> "str | os.PathLike[str]":
    """The name of a file, as a text or a path."""
    if isinstance(value, (str, os.PathLike)):
        return value
    raise TypeError(f"{name} is {shown(value)}: give the name of a file, as 'circuit.stim', or a pathlib.Path")


def shown(value: object) -> str:
    """A value as a message shows it, with its type unless it is a whole number, a text or None."""
    said = repr(value)
    if len(said) > MOST_SHOWN:
        said = f"{said[:MOST_SHOWN]}.."
    return said if value is None or type(value) in (int, str) else f"{said}, of the type {type(value).__name__}"
