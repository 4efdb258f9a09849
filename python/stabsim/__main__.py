"""`python3 -m stabsim`: the program, as the installed command `stabsim` runs it, Stim's commands that the package has, and shots with noise."""

import signal
import sys

from stabsim.command import HELPING, run_program

PACKAGED = ("gen", "m2d", "analyze_errors", "sample_dem", "explain_errors", "diagram")
DRAWN = ("sample", "detect")


def main() -> int:
    words = sys.argv[1:]
    try:
        if words and words[0] in PACKAGED:
            return packaged(words)
        if words and words[0] in DRAWN and not HELPING.intersection(words):
            from stabsim import noisy_commands
            return noisy_commands.main(words)
    except ModuleNotFoundError as lack:
        if lack.name != "numpy":
            raise
        print(f"stabsim {words[0]}: needs numpy: python3 -m pip install numpy, or Debian's python3-numpy", file=sys.stderr)
        return 1
    if not words or words[0] in HELPING:
        print(f"The package has these of Stim's commands too, which `{PACKAGED[0]} --help` and so on explain: {', '.join(PACKAGED)}; and "
              f"it draws noise in {' and '.join(DRAWN)}.\n",
              file=sys.stdout if words else sys.stderr, flush=True)
    if HELPING.intersection(words) and set(DRAWN).intersection(words):
        print("Of a circuit that the program does not read, as one with noise, the package draws the shots, without --coins and also as ptb64:\n"
              "detectors are raw parities of records then too, and Stim's are what noise flips.\n", flush=True)
    return run_program()


def packaged(words: list[str]) -> int:
    """Runs a command of the package's."""
    from stabsim import stim_commands

    # A closed pipe ends it without a word, as it ends other commands.
    signal.signal(signal.SIGPIPE, signal.SIG_DFL)
    return stim_commands.main(words)


if __name__ == "__main__":
    sys.exit(main())
