"""Sparse matrices of 0 and 1, which scipy takes, and which are there without it."""

import importlib
from dataclasses import dataclass
from typing import Any, Literal

import numpy as np
from numpy.typing import NDArray

from stabsim.formats.combining import starts_of

Form = Literal["csr", "csc"]


@dataclass(frozen=True, eq=False)
class SparseMatrix:
    """A matrix of 0 and 1, by rows (`csr`) or by columns (`csc`).

    indptr: int64 (rows + 1,), or of columns (columns + 1,), and indices: int64 (ones,): the ones of row or column i are in
    indices[indptr[i]:indptr[i + 1]], ascending. data: uint8 (ones,), a 1 for each.

    >>> import stabsim
    >>> model = stabsim.error_model("R 0 1\\nX_ERROR(0.1) 0 1\\nM 0 1\\nDETECTOR rec[-1]\\nDETECTOR rec[-1] rec[-2]\\n")
    >>> checks, observables = model.sparse_check_matrices("csc")
    >>> checks.shape, checks.indptr.tolist(), checks.indices.tolist()
    ((2, 2), [0, 2, 3], [0, 1, 1])
    >>> checks.dense().astype(int).tolist()
    [[1, 0], [1, 1]]
    """

    form: Form
    indptr: NDArray[np.int64]
    indices: NDArray[np.int64]
    shape: tuple[int, int]

    @property
    def data(self) -> NDArray[np.uint8]:
        """A 1 for each that is no 0, uint8 (ones,)."""
        return np.ones(len(self.indices), dtype=np.uint8)

    def to_scipy(self) -> Any:
        """The matrix as `scipy.sparse.csr_matrix` or `csc_matrix` of uint8; it needs scipy (Debian: python3-scipy)."""
        scipy: Any = importlib.import_module("scipy.sparse")
        made = scipy.csr_matrix if self.form == "csr" else scipy.csc_matrix
        return made((self.data, self.indices, self.indptr), shape=self.shape)

    def dense(self) -> NDArray[np.bool_]:
        """The matrix as a bool array (rows, columns)."""
        table = np.zeros(self.shape, dtype=np.bool_)
        outer = np.repeat(np.arange(len(self.indptr) - 1), np.diff(self.indptr))
        table[(outer, self.indices) if self.form == "csr" else (self.indices, outer)] = True
        return table

    def transposed(self, form: Form) -> "SparseMatrix":
        """Its columns as rows, in a form."""
        other: Form = "csc" if self.form == "csr" else "csr"
        turned = SparseMatrix(other, self.indptr, self.indices, (self.shape[1], self.shape[0]))
        return turned if form == other else turned.other_form()

    def other_form(self) -> "SparseMatrix":
        """The same matrix by columns if this is by rows, and by rows if it is by columns."""
        inner = self.shape[1] if self.form == "csr" else self.shape[0]
        outer = np.repeat(np.arange(len(self.indptr) - 1), np.diff(self.indptr))
        order = np.argsort(self.indices, kind="stable")
        return SparseMatrix("csc" if self.form == "csr" else "csr", starts_of(np.bincount(self.indices, minlength=inner)), outer[order],
                            self.shape)


def split_columns(indptr: NDArray[np.int64], indices: NDArray[np.int64], cut: int, end: int) -> tuple[SparseMatrix, SparseMatrix]:
    """Of a matrix by rows its columns below a cut, and those from there up to an end, each by rows."""
    rows = len(indptr) - 1
    is_left = indices < cut
    of_row = np.repeat(np.arange(rows), np.diff(indptr))
    left = SparseMatrix("csr", starts_of(np.bincount(of_row[is_left], minlength=rows)), indices[is_left], (rows, cut))
    right = starts_of(np.bincount(of_row[~is_left], minlength=rows))
    return left, SparseMatrix("csr", right, indices[~is_left] - cut, (rows, end - cut))
