"""A file that is written anew as a whole: it is the old one or the new one, and never a part."""

import os
import pathlib
import tempfile


def write_whole(path: pathlib.Path, text: str) -> None:
    """Writes a text beside a file, and then has it take the file's name."""
    with tempfile.NamedTemporaryFile("w", dir=path.parent, prefix=f".{path.name}.", delete=False) as file:
        try:
            file.write(text)
            file.flush()
            os.fsync(file.fileno())
            os.chmod(file.name, mode_of(path))
            os.replace(file.name, path)
        except BaseException:
            os.unlink(file.name)
            raise


def mode_of(file: pathlib.Path) -> int:
    """The rights of a file, or those that a new one gets."""
    if file.exists():
        return file.stat().st_mode & 0o7777
    mask = os.umask(0)
    os.umask(mask)
    return 0o666 & ~mask
