"""Linear algebra modulo 2. A vector is a number in base 2, whose bit q is its entry q."""

from collections.abc import Iterable, Sequence

from stabsim import checking


def vectors_of(matrix: Iterable[Iterable[object]], name: str) -> tuple[list[int], int]:
    """The rows of a matrix of 0 and 1, and how many columns it has: of lists, an array of numpy, or a sparse matrix of scipy."""
    dense = getattr(matrix, "toarray", lambda: matrix)()
    rows = [checking.several(f"a row of {name}", row, "[1, 0, 1]") for row in checking.several(name, dense, "[[1, 0, 1], [0, 1, 1]]")]
    width = len(rows[0]) if rows else 0
    if any(len(row) != width for row in rows) or any(entry not in (0, 1) for row in rows for entry in row):
        raise ValueError(f"{name} is a matrix of 0 and 1, with rows of one length")
    return [sum(1 << place for place, entry in enumerate(row) if entry) for row in rows], width


def places_of(vector: int) -> list[int]:
    """The entries of a vector that are 1."""
    return [place for place in range(vector.bit_length()) if vector >> place & 1]


class Span:
    """All sums of some vectors, by a basis whose vectors have different greatest entries."""

    def __init__(self, vectors: Iterable[int] = ()) -> None:
        self.basis: dict[int, int] = {}
        for vector in vectors:
            self.add(vector)

    def add(self, vector: int) -> bool:
        """Adds a vector; whether it was no sum of those before it."""
        left = self.rest(vector)
        if left:
            self.basis[left.bit_length()] = left
        return left != 0

    def rest(self, vector: int) -> int:
        """What is left of a vector, which is 0 if it is a sum of those that were added."""
        while vector and vector.bit_length() in self.basis:
            vector ^= self.basis[vector.bit_length()]
        return vector

    def __len__(self) -> int:
        return len(self.basis)


def rank(vectors: Iterable[int]) -> int:
    """How many vectors there are of which none is a sum of others, at most."""
    return len(Span(vectors))


def kernel(rows: Sequence[int], width: int) -> list[int]:
    """A basis of the vectors of this many entries that have an even number of ones in common with each row."""
    # After each unit vector comes which rows it meets; what sums to no row is in the kernel.
    columns = [sum((row >> place & 1) << at for at, row in enumerate(rows)) for place in range(width)]
    basis: dict[int, tuple[int, int]] = {}
    found = []
    for place, meets in enumerate(columns):
        vector = 1 << place
        while meets and meets.bit_length() in basis:
            other, its = basis[meets.bit_length()]
            meets, vector = meets ^ its, vector ^ other
        if meets:
            basis[meets.bit_length()] = (vector, meets)
        else:
            found.append(vector)
    return found
