"""The program `stabsim`: where it is, and one run of it."""

import functools
import os
import pathlib
import re
import shutil
import subprocess
import tempfile

from stabsim import checking
from stabsim.errors import MissingProgram, ProgramFailed, Refused

# The version of the program that first had what this package asks for.
NEEDED_VERSION = (0, 2, 0)

REFUSAL = re.compile(r"^stabsim: (?:line (\d+): )?refused (\d+) (\w+)$", re.MULTILINE)

# A text that no instruction has, and a file's name may be.
FILE_NAME = re.compile(r"[^\s#(\[{*]*[./][^\s#(\[{*]*")
NO_FILE = "\nIf this is the name of a file, stabsim.Circuit.from_file(name) reads it."

WHAT_TO_DO = (
    "Build it by `./stabsim --version` at the top of its repository, and use this package from there, "
    "or install the package anew, which brings the program, or put the program on the PATH, "
    "or name it by the environment variable STABSIM."
)


def find_program() -> str:
    """The path of the program: what STABSIM names, else the shipped one, the one built in this repository, the one on the PATH.

    Raises stabsim.MissingProgram if there is none that runs here.

    >>> import stabsim, subprocess
    >>> subprocess.run([stabsim.find_program(), "--version"], capture_output=True).stdout[:7]
    b'stabsim'
    """
    named = os.environ.get("STABSIM")
    if named:
        return checked(named, "STABSIM names")
    package = pathlib.Path(__file__).resolve().parent
    if (package / "programs" / "shipped.txt").is_file():
        return checked(shipped_program(package / "programs"), "the package has")
    built = package.parents[1] / "crates" / "stabsim" / "out" / "stabsim"
    if built.is_file():
        return checked(str(built), "the repository has")
    found = shutil.which("stabsim")
    if found:
        return checked(found, "the PATH has")
    raise MissingProgram(f"There is no program stabsim {version_text(NEEDED_VERSION)} or later. {WHAT_TO_DO}")


@functools.cache
def shipped_program(folder: pathlib.Path) -> str:
    """The path of the shipped program that this machine can run; raises MissingProgram if none can."""
    chosen = subprocess.run(["sh", folder / "choose"], capture_output=True, text=True, check=False)
    if chosen.returncode:
        raise MissingProgram(chosen.stderr.removeprefix("stabsim: ").rstrip("\n"))
    return chosen.stdout.rstrip("\n")


@functools.cache
def checked(path: str, where: str) -> str:
    """The path, once its program has said a version that serves."""
    try:
        said = subprocess.run([path, "--version"], capture_output=True, text=True, check=False).stdout
    except OSError as fault:
        raise MissingProgram(f"{where} {path}, which does not start: {fault.strerror}. {WHAT_TO_DO}") from fault
    version = re.match(r"stabsim (\d+)\.(\d+)\.(\d+)", said)
    if not version:
        raise MissingProgram(f"{where} {path}, which is no program stabsim. {WHAT_TO_DO}")
    if tuple(map(int, version.groups())) < NEEDED_VERSION:
        needed = version_text(NEEDED_VERSION)
        raise MissingProgram(f"{where} {path}, of version {version[0][8:]}; {needed} or later is needed. {WHAT_TO_DO}")
    return path


def bytes_of(text: str) -> bytes:
    """A text as it was in its file, even if some bytes of it are no UTF-8."""
    return text.encode("utf-8", "surrogateescape")


def text_of(data: bytes) -> str:
    """The text of bytes, which `bytes_of` gives back."""
    return data.decode("utf-8", "surrogateescape")


def seed_words(seed: int) -> list[str]:
    """The option of a seed; raises TypeError or ValueError if it is none."""
    return ["--seed", str(checking.seed("seed", seed))]


def version_text(version: tuple[int, int, int]) -> str:
    return ".".join(map(str, version))


def run(words: list[str], text: str) -> bytes:
    """What the program writes of a circuit's text when it is run with these words, which name a command and its options."""
    program = find_program()
    # A file, not a pipe: the program then reads by itself while its output is taken here.
    with tempfile.NamedTemporaryFile(prefix="stabsim-", suffix=".stim") as file:
        file.write(bytes_of(text))
        file.flush()
        done = subprocess.run([program, *words, "--in", file.name], stdin=subprocess.DEVNULL, capture_output=True, check=False)
    if done.returncode:
        # What `check` writes of a circuit that is refused is why.
        why = done.stdout.decode(errors="replace").rstrip("\n") + NO_FILE * bool(FILE_NAME.fullmatch(text)) if words[0] == "check" else ""
        raise failure(program, done.returncode, done.stderr.decode(errors="replace"), why)
    return done.stdout


def failure(program: str, status: int, said: str, why: str = "") -> Exception:
    """What to raise if a program ended with a status other than 0 and said this on standard error; why: what explains a refusal,
    if it was not said there."""
    refused = REFUSAL.search(said)
    if refused:
        line = int(refused[1]) if refused[1] else None
        rest = said[refused.end():].replace("stabsim: ", "").strip()
        return Refused(int(refused[2]), refused[3], line, why or rest)
    if status == 2 and "unexpected argument" in said:
        return MissingProgram(f"{program} is too old for this package: {said.strip()}. {WHAT_TO_DO}")
    return ProgramFailed(f"{program} ended with status {status}: {said.strip() or 'it said nothing'}")
