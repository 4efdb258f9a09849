"""What coins decide, found the slow way: by runs with the coins of a list."""

import subprocess
import tempfile

from stabsim import program


def bits_of(text, sequence):
    """The records, detectors and observables of a run with these coins, as a string of 0 and 1."""
    words = ["--coins", "".join(map(str, sequence))]
    parts = [program.run(its + words, text) for its in (["sample"], ["detect", "--append_observables"])]
    return b"".join(parts).replace(b"\n", b"").decode()


def deciding_coins(text):
    """The numbers of the coins that decide an outcome, in an editing session."""
    with tempfile.NamedTemporaryFile(suffix=".stim") as file:
        file.write(program.bytes_of(text))
        file.flush()
        words = [program.find_program(), "edit", "--in", file.name]
        said = subprocess.run(words, input=b"show free\n", capture_output=True, check=True).stdout.decode()
    return [number for number, bit in enumerate(said.rstrip("\n")) if bit == "1"]
