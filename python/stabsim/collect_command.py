"""The command `stabsim-collect`: circuits in, counts of their logical errors out.

    stabsim-collect d=3,p=0.01.stim d=5,p=0.01.stim --decoder decoders:matching --shots 1000000 --errors 500 --save counts.csv

A circuit is Stim's text with its noise, or a detector error model if its file ends in .dem. A decoder is a function of a module, which
may be in the folder where the command is given: of an error model, a function from detectors to observables. Counting goes on
from the file of --save. At its end a table of the sums is written to standard output, as CSV. A file whose name is like
d=3,p=0.01.stim has these as metadata. On a terminal a line says how far it is if tqdm is there.

    stabsim-collect --combine counts.csv others.csv

adds up what files count.
"""

import argparse
import contextlib
import csv
import importlib
import io
import json
import os
import pathlib
import signal
import sys
from collections.abc import Iterable, Iterator
from concurrent.futures import ProcessPoolExecutor
from typing import Any

from stabsim import program, streams
from stabsim.collecting.collecting import collect
from stabsim.collecting.counting import Decoder
from stabsim.collecting.sums import Sums
from stabsim.collecting.totals import combine
from stabsim.errors import BadPrediction, StabsimError
from stabsim.noise.models import ErrorModel, error_model

COLUMNS = ("name", "decoder", "shots", "discards", "errors", "rate", "low", "high", "seconds", "metadata")


def command_line() -> argparse.ArgumentParser:
    words = argparse.ArgumentParser(prog="stabsim-collect", description=__doc__, formatter_class=argparse.RawDescriptionHelpFormatter)
    words.add_argument("files", nargs="+", metavar="FILE", help="circuits (.stim) or detector error models (.dem); with --combine, counts")
    words.add_argument("--decoder", metavar="MODULE:FUNCTION", help="what makes a decoder of an error model")
    words.add_argument("--decompose", action="store_true", help="write errors of many detectors as parts, for decoders by matching")
    words.add_argument("--shots", type=int, help="how many shots of a circuit are enough")
    words.add_argument("--errors", type=int, help="how many logical errors of a circuit are enough")
    words.add_argument("--seed", type=int, default=0, help="of all shots (default 0)")
    words.add_argument("--processes", type=int, default=os.cpu_count() or 1, help="how many count (default: as many as there are processors)")
    words.add_argument("--save", metavar="FILE", help="where counts are kept, and gone on from")
    words.add_argument("--combine", action="store_true", help="add up what files count")
    return words


def told(what: object) -> SystemExit:
    """What ends the command with one line on standard error and status 1."""
    return SystemExit(f"stabsim-collect: {what}")


@contextlib.contextmanager
def telling(path: str = "") -> Iterator[None]:
    """Ends the command with a line if what it was given is wrong, such as the file of a path."""
    try:
        yield
    except OSError as fault:
        # It names its file.
        raise told(fault) from None
    except (StabsimError, TypeError, ValueError) as fault:
        raise told(f"{path}: {fault}" if path else fault) from None


def model_of(path: str, decompose: bool) -> ErrorModel:
    """The error model of a file."""
    with telling(path):
        if path.endswith(".dem"):
            return ErrorModel.from_file(path)
        return error_model(program.text_of(pathlib.Path(path).read_bytes()), decompose=decompose, approximate_disjoint_errors=True)


def name_of(path: str) -> str:
    """The name that a file's counts are kept by: its own, without the folder and the ending."""
    return pathlib.Path(path).name.removesuffix(".stim").removesuffix(".dem")


def metadata_of(name: str) -> dict[str, Any]:
    """What a name like d=3,p=0.01 says; nothing of another one."""
    pairs = [part.partition("=") for part in name.split(",")]
    return {key: value_of(value) for key, _, value in pairs} if all(key and sign for key, sign, _ in pairs) else {}


def value_of(word: str) -> int | float | str:
    """A word as a number, if it is one."""
    try:
        number = float(word)
    except ValueError:
        return word
    return int(word) if word.isdigit() else number


def decoder_of(words: str) -> tuple[str, Decoder]:
    """The function of a module, as module:function, with these as its name."""
    module, _, name = words.partition(":")
    # The folder of the command is no place for modules when a command of a package runs.
    if os.getcwd() not in sys.path:
        sys.path.insert(0, os.getcwd())
    try:
        found = importlib.import_module(module)
    except ModuleNotFoundError as lack:
        # A module that this one asks for is not what was named.
        if not f"{module}.".startswith(f"{lack.name}."):
            raise
        raise told(f"there is no module {lack.name}, here or installed") from None
    if not hasattr(found, name):
        raise told(f"the module {module} has no {name}")
    decoder: Decoder = getattr(found, name)
    return f"{module}.{name}", decoder


def table_of(counted: Iterable[Sums]) -> str:
    """The table of sums."""
    output = io.StringIO()
    table = csv.writer(output, lineterminator="\n")
    table.writerow(COLUMNS)
    for it in counted:
        low, best, high = it.rate()
        metadata = json.dumps(it.metadata, sort_keys=True) if it.metadata else ""
        rates = (f"{rate:.6g}" for rate in (best, low, high))
        table.writerow((it.name, it.decoder, it.shots, it.discards, it.errors, *rates, f"{it.seconds:.3f}", metadata))
    return output.getvalue()


def count(given: argparse.Namespace) -> list[Sums]:
    """Counts what the words ask for. What a decoder raises comes through, as Python shows it."""
    names = [name_of(path) for path in given.files]
    twice = {name for name in names if names.count(name) > 1}
    if twice:
        raise told(f"two files are named {min(twice)}")
    decoder = decoder_of(given.decoder)
    models = {name: model_of(path, given.decompose) for name, path in zip(names, given.files)}
    with telling():
        # This process gets an interrupt, and ends the others.
        executor = ProcessPoolExecutor(given.processes, initializer=signal.signal, initargs=(signal.SIGINT, signal.SIG_IGN))
    with executor:
        with telling():
            counting = collect(models, decoder, shots=given.shots, errors=given.errors, seed=given.seed, executor=executor, save=given.save,
                               metadata={name: metadata_of(name) for name in names})
        sums = {it.name: it for it in counting}
    return [sums[name] for name in names]


def combined(given: argparse.Namespace) -> list[Sums]:
    """What files count, together."""
    with telling():
        return combine(*given.files)


def main() -> int:
    words = command_line()
    given = words.parse_args()
    if not given.combine and (given.decoder is None or ":" not in given.decoder):
        words.error("--decoder MODULE:FUNCTION says what decodes")
    try:
        counted = combined(given) if given.combine else count(given)
    except BadPrediction as fault:
        raise told(fault) from None
    except KeyboardInterrupt:
        print("stabsim-collect: interrupted" + (f"; the same words go on from {given.save}" if given.save else ""), file=sys.stderr)
        return 130
    # A closed pipe ends the command without a word, as it ends others.
    signal.signal(signal.SIGPIPE, signal.SIG_DFL)
    with telling():
        streams.write_out(table_of(counted).encode())
    return 0


if __name__ == "__main__":
    sys.exit(main())
