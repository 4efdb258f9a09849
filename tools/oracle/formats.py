"""The bytes of one shot in each result format, as the package writes them, which its own tests compare with worked examples."""

from collections.abc import Sequence

import numpy as np

from stabsim.formats.formats import WRITERS

FORMATS = ("01", "b8", "r8", "hits", "dets")


def name(place: int, detectors: int | None) -> str:
    """What dets calls a bit: a measurement if `detectors` is None, else one of this many detectors, or an observable after them."""
    return f"M{place}" if detectors is None else f"D{place}" if place < detectors else f"L{place - detectors}"


def shot(form: str, bits: Sequence[int], detectors: int | None = None) -> bytes:
    kinds = {"M": len(bits)} if detectors is None else {"D": detectors, "L": len(bits) - detectors}
    return WRITERS[form](np.array([bits], bool), kinds)
