"""Standard output, as a command writes it: a closed or full one is an OSError, which the command says in a line."""

import errno
import sys
from typing import BinaryIO


def standard_output() -> BinaryIO:
    """Standard output, unless the caller closed it: Python has none then."""
    if sys.stdout is None:
        raise OSError(errno.EBADF, "standard output is closed")
    return sys.stdout.buffer


def write_out(data: bytes) -> None:
    """Writes to standard output, and waits until it has taken all."""
    out = standard_output()
    out.write(data)
    out.flush()
