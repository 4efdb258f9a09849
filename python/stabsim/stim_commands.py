"""Commands of Stim's that the program does not have, with Stim's options, by the package. No proof covers them.

    python3 -m stabsim gen --code surface_code --task rotated_memory_z --distance 3 --rounds 3 --after_clifford_depolarization 0.001
    python3 -m stabsim m2d --circuit circuit.stim --in_format b8 --in records.b8 --out_format dets
    python3 -m stabsim analyze_errors --decompose_errors --in circuit.stim --out model.dem
    python3 -m stabsim sample_dem --shots 1000 --in model.dem --out_format b8 --out detectors.b8 --obs_out observables.01
    python3 -m stabsim explain_errors --in circuit.stim
    python3 -m stabsim diagram --type timeline-svg --in circuit.stim --out timeline.svg

What is not given by --in is read from standard input, and what is not named by --out goes to standard output.
"""

import argparse
import sys
from collections.abc import Callable, Sequence
from typing import Any, NoReturn

from stabsim import stim_answers
from stabsim.errors import StabsimError
from stabsim.formats.formats import WRITERS

# What runs a command.
Run = Callable[[argparse.Namespace], None]
# An option with what argparse takes of it, or with the reason why it is not here.
Words = dict[str, Any]
Options = dict[str, Words | str]

FORMAT: Words = {"choices": list(WRITERS), "default": "01", "help": "default 01"}
CHANCE: Words = {"type": float, "default": 0.0, "help": "default 0"}
INPUT: Words = {"dest": "input", "metavar": "FILE"}
FILE: Words = {"metavar": "FILE"}
FLAG: Words = {"action": "store_true"}

COMMANDS: dict[str, tuple[Run, str, Options]] = {
    "gen": (stim_answers.gen, "Prints a circuit of a code with noise", {
        "--code": {"required": True, "metavar": "CODE", "help": "surface_code or repetition_code"},
        "--task": {"required": True, "help": "as rotated_memory_z, and of repetition_code memory"}, "--distance": {"type": int, "required": True}, "--rounds": {"type": int, "required": True},
        "--after_clifford_depolarization": CHANCE, "--after_reset_flip_probability": CHANCE, "--before_measure_flip_probability": CHANCE,
        "--before_round_data_depolarization": CHANCE, "--out": FILE,
    }),
    "m2d": (stim_answers.convert, "Makes detection events of records", {
        "--circuit": {"required": True, "metavar": "FILE"}, "--in_format": {"required": True, "choices": list(WRITERS)}, "--in": INPUT,
        "--append_observables": FLAG, "--obs_out": FILE, "--obs_out_format": FORMAT, "--out": FILE, "--out_format": FORMAT,
        "--skip_reference_sample": FLAG, "--sweep": {**FILE, "help": "sweep bits of each shot: what they flip is taken out"},
        "--sweep_format": FORMAT, "--ran_without_feedback": "feedback is carried out here, and never taken out of a circuit",
    }),
    "analyze_errors": (stim_answers.analyze_errors, "Prints the detector error model of a circuit", {
        "--decompose_errors": FLAG, "--ignore_decomposition_failures": FLAG,
        "--block_decompose_from_introducing_remnant_edges": {**FLAG, "help": "changes nothing: parts are errors of the model anyhow"},
        "--approximate_disjoint_errors": {"nargs": "?", "type": float, "const": 1.0, "default": 0.0, "metavar": "CHANCE"},
        "--fold_loops": {**FLAG, "help": "changes nothing: the same model is printed without loops"}, "--in": INPUT, "--out": FILE,
        "--allow_gauge_detectors": FLAG,
    }),
    "sample_dem": (stim_answers.sample_dem, "Samples a detector error model", {
        "--shots": {"type": int, "default": 1, "help": "default 1"}, "--seed": {"type": int}, "--in": INPUT, "--out": FILE, "--out_format": FORMAT,
        "--obs_out": FILE, "--obs_out_format": FORMAT, "--err_out": {**FILE, "help": "where it is written which errors happen in each shot"},
        "--err_out_format": FORMAT, "--replay_err_in": {**FILE, "help": "errors of each shot, which are not drawn then"},
        "--replay_err_in_format": FORMAT,
    }),
    "explain_errors": (stim_answers.explain_errors, "Says which lines of a circuit make each error of its model", {
        "--in": INPUT, "--out": FILE, "--single": {**FLAG, "help": "one line for each error"},
        "--dem_filter": {"metavar": "FILE", "help": "of these errors alone"},
    }),
    "diagram": (stim_answers.diagram, "Draws a circuit as SVG", {
        "--type": {"required": True, "choices": list(stim_answers.KINDS)}, "--tick": {"metavar": "NUMBER or FIRST:END"},
        "--filter_coords": {"metavar": "POINTS", "help": "detectors by coordinates or name, as 2,4:D5:L0"}, "--remove_noise": FLAG,
        "--in": INPUT, "--out": FILE,
    }),
}


class Absent(argparse.Action):
    """An option of Stim's that is not here: its constant says why."""

    def __call__(self, parser: argparse.ArgumentParser, namespace: object, values: object, option_string: str | None = None) -> NoReturn:
        parser.error(f"{option_string}: {self.const}")


def command_line() -> argparse.ArgumentParser:
    """The commands with their options."""
    words = argparse.ArgumentParser(prog="python3 -m stabsim", description=__doc__, formatter_class=argparse.RawDescriptionHelpFormatter)
    commands = words.add_subparsers(dest="command", required=True)
    for name, (run, about, options) in COMMANDS.items():
        command = commands.add_parser(name, help=about, description=about)
        command.set_defaults(run=run)
        add_options(command, options)
    return words


def add_options(command: argparse.ArgumentParser, options: Options) -> None:
    """Adds what a command takes."""
    for option, given in options.items():
        if isinstance(given, str):
            command.add_argument(option, action=Absent, nargs="?", const=given, help=argparse.SUPPRESS)
        else:
            command.add_argument(option, **given)


def main(words: Sequence[str]) -> int:
    """Runs a command. What is wrong with what it is given is said in one line, with status 1; an interrupted one ends with 130."""
    given = command_line().parse_args(words)
    try:
        given.run(given)
    except KeyboardInterrupt:
        print(f"stabsim {given.command}: interrupted", file=sys.stderr)
        return 130
    except (StabsimError, ValueError, OSError, MemoryError) as fault:
        print(f"stabsim {given.command}: {str(fault) or 'memory was refused'}", file=sys.stderr)
        return 1
    return 0
