"""Which detectors and observables are the same for all random bits."""

from typing import NamedTuple

import numpy as np
from numpy.typing import NDArray


class Sure(NamedTuple):
    """What is the same for all random bits: detectors is a bool array (detectors,), observables a bool array (observables,).

    >>> import stabsim
    >>> stabsim.Circuit("MX 0\\nOBSERVABLE_INCLUDE(0) rec[-1]").deterministic().observables.tolist()
    [False]
    """

    detectors: NDArray[np.bool_]
    observables: NDArray[np.bool_]


def deterministic_of(bits: NDArray[np.bool_], detectors: int) -> Sure:
    """The bits of this many detectors, and after them of the observables."""
    return Sure(bits[:detectors], bits[detectors:])
