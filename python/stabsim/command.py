"""The commands of an installed package: `stabsim`, and `stabsim-page [FILE]`."""

import os
import pathlib
import signal
import stat
import subprocess
import sys
from collections.abc import Sequence

PACKAGE = pathlib.Path(__file__).resolve().parent
HELPING = {"--help", "-h", "help"}

# How many bytes are passed on at once, at most.
MOST_BYTES = 1 << 20


def run_program(given: Sequence[str] | None = None) -> int:
    """Runs the program that STABSIM names, or else the shipped one, with these words or those of the command line, in place of this process.
    If its output goes into a pipe, this process passes it on: a pipe that is closed then ends the command without a word, as it ends other
    commands."""
    program, words = chosen_program(), ["stabsim", *(sys.argv[1:] if given is None else given)]
    if not program:
        return 2
    if HELPING.intersection(words):
        say_where_documents_are()
    if not is_piped():
        os.execv(program, words)
    return pass_on(program, words)


def chosen_program() -> bytes:
    """The path of the program; of none, once it was said why."""
    if not os.environ.get("STABSIM"):
        return subprocess.run(["sh", PACKAGE / "programs" / "choose"], stdout=subprocess.PIPE, check=False).stdout.rstrip(b"\n")
    from stabsim.errors import MissingProgram
    from stabsim.program import find_program
    try:
        return os.fsencode(find_program())
    except MissingProgram as missing:
        print(f"stabsim: {missing}", file=sys.stderr)
        return b""


def say_where_documents_are() -> None:
    """Names the folder into which pip put what help speaks of, below one of those around the package."""
    for folder in PACKAGE.parents:
        if (documents := folder / "share" / "doc" / "stabsim").is_dir():
            print(f"The pages and examples that this help names are in {documents}.\n", flush=True)
            return


def is_piped() -> bool:
    """Whether standard output is a pipe."""
    try:
        return stat.S_ISFIFO(os.fstat(1).st_mode)
    except OSError:
        # It is closed, which is for the program to say.
        return False


def pass_on(program: bytes, words: list[str]) -> int:
    """Runs a program, passes its output on, and answers its status, or if a signal ended it the one that a shell gives that."""
    with subprocess.Popen(words, executable=program, stdout=subprocess.PIPE, pipesize=MOST_BYTES) as running:
        hand_signals_to(running)
        assert running.stdout
        try:
            copy_to_output(running.stdout.fileno())
        except BrokenPipeError:
            # The program ends before it meets a closed pipe itself.
            running.kill()
            return 128 + signal.SIGPIPE
    return running.returncode if running.returncode >= 0 else 128 - running.returncode


def hand_signals_to(running: "subprocess.Popen[bytes]") -> None:
    """Sends a program the signals that would end this process."""
    for number in (signal.SIGHUP, signal.SIGINT, signal.SIGTERM):
        if signal.getsignal(number) != signal.SIG_IGN:
            signal.signal(number, lambda it, _: running.send_signal(it))


def copy_to_output(pipe: int) -> None:
    """Copies what comes through a pipe, as it comes, to standard output."""
    with open(1, "wb", closefd=False) as output:
        while data := os.read(pipe, MOST_BYTES):
            output.write(data)
            output.flush()


def serve_page() -> int:
    """Starts the server of the page; it needs aiohttp, which the package does not ask for."""
    try:
        from stabsim.page.__main__ import main
    except ModuleNotFoundError as lack:
        if lack.name != "aiohttp":
            raise
        print("stabsim-page: needs aiohttp: python3 -m pip install aiohttp", file=sys.stderr)
        return 1
    return main()
