"""A line on a terminal that says how far something is."""

import contextlib
import importlib
import sys
from typing import Any


def bar_of(total: int, unit: str) -> Any:
    """A line of tqdm's (Debian: python3-tqdm) on standard error if that is a terminal and tqdm is there; else None."""
    if sys.stderr.isatty():
        with contextlib.suppress(ImportError):
            return importlib.import_module("tqdm").tqdm(total=total, unit=unit, desc="stabsim", file=sys.stderr)
    return None
