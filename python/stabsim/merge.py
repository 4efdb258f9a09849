"""The command `python3 -m stabsim.merge FILE..`: parts of a distance in, as `stabsim distance --part K/N` writes them, and the answer of one
run out. If a part is missing, torn, there twice or of another search, a line on standard error says so, and nothing else is written."""

import pathlib
import sys

from stabsim import program, streams
from stabsim.questions.distance_parts import merged


def main() -> int:
    names = sys.argv[1:]
    if not names or {"-h", "--help"}.intersection(names):
        print(__doc__, file=sys.stdout if names else sys.stderr)
        return 0 if names else 2
    try:
        streams.write_out(merged((name, program.text_of(pathlib.Path(name).read_bytes())) for name in names).encode())
    except (OSError, ValueError) as fault:
        print(f"merge: {fault}", file=sys.stderr)
        return 1
    return 0


if __name__ == "__main__":
    sys.exit(main())
