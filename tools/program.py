"""The program that the tools try. After an import of it the package of python/, the helpers of its tests and the examples are found too."""

import subprocess
import sys
from pathlib import Path

TOP = Path(__file__).resolve().parent.parent
sys.path[:0] = [str(TOP / "python")]
sys.path += [str(TOP / "python/tests"), str(TOP / "examples")]


def find_program() -> Path:
    """The program of the sources as they are, which tools/find_program.sh finds or builds. If it can't, that says why, and the
    tool ends with its status."""
    found = subprocess.run([TOP / "tools" / "find_program.sh"], stdout=subprocess.PIPE, text=True, check=False)
    if found.returncode:
        sys.exit(found.returncode)
    return Path(found.stdout.strip())
