"""Help ends with an example, which can be run at the top of the repository; commands, options and named values of completions/ and man/
are those of --help; and the names of instructions on the page, in the package and among the nearest ones are those of the tables of stab_instructions."""

import re
import subprocess

import pytest
from pages import quoted, rows_below, text_of
from program import TOP
from running import COMMANDS as COMMANDS_WITHOUT_WORDS
from running import Ended, run
from stabsim.text.names import TABLE

COMMANDS = [*COMMANDS_WITHOUT_WORDS, "propagate"]
OPTION = re.compile(r"--[a-z_]+")
ASK_BASH = """
. completions/stabsim.bash
COMP_WORDS=(stabsim {words} '') COMP_CWORD={place}
_stabsim
printf '%s\\n' "${{COMPREPLY[@]}}"
"""
# Words that ask for help, and the command of its example.
ASKED = {
    "--help": "sample", "-h": "sample", "help": "sample", "sample --help": "sample", "sample --shots 2 -h": "sample",
    "help sample": "sample", "detect --help": "detect", "detect --coins 12 --help": "detect", "help detect": "detect",
}
# What each of the last five lines of a help begins and goes on with; the middle one is empty.
LAST = [
    ("Example", "at the top of the repository:"),
    ("  ./stabsim ", " --in examples/"),
    ("", ""),
    ("raw", "no reference sample is subtracted."),
    ("Refusals", "docs/use/refusals.md"),
]
STRIDE = "How many steps lie between two checkpoints"
MANUAL = text_of(TOP / "man/stabsim.1").replace("\\-", "-")
ZSH = text_of(TOP / "completions/_stabsim")
PAGE = text_of(TOP / "docs/use/circuit-text.md")
ROWS = [re.findall(r'"(\w+)"', row)
        for row in re.findall(r'^ *\[.*\] (b"\w+"(?: or b"\w+")*);$', text_of(TOP / "crates/stab_instructions/src/table.rt"), re.MULTILINE)]


def help_of(*words: str) -> str:
    """The help that these words ask for, which is all that is written."""
    status, text, told = run(words)
    assert (status, told) == (0, "")
    return text


def section(text: str, head: str) -> list[str]:
    """The indented lines below a head of a help text."""
    return [line.strip() for line in text.split(f"\n{head}:\n", 1)[1].split("\n\n", 1)[0].splitlines()]


def options_of(command: str) -> set[str]:
    return {found[0] for line in section(help_of(command, "--help"), "Options") if (found := OPTION.search(line))}


def bash_words(*words: str) -> set[str]:
    asked = ASK_BASH.format(words=" ".join(words), place=len(words) + 1)
    return set(subprocess.run(["bash", "-c", asked], cwd=TOP, capture_output=True, text=True, check=True).stdout.split())


def zsh_words(command: str, pattern: str) -> set[str]:
    return set(re.findall(pattern, ZSH.split(f"_stabsim_{command}() {{", 1)[1].split("\n}\n", 1)[0]))


def manual_section(head: str, end: str) -> str:
    return MANUAL.split(f"\n{head}\n", 1)[1].split(f"\n{end}", 1)[0]


@pytest.mark.parametrize("words, command", ASKED.items())
def test_help_ends_with_an_example(words: str, command: str) -> None:
    last = help_of(*words.split()).splitlines()[-len(LAST) :]
    assert all(part in line and rest in line and (line == "") == (part == "") for line, (part, rest) in zip(last, LAST, strict=True))
    _, *example = last[1].split()
    ended: Ended = run(example)
    assert example[0] == command and ended == (0, ended[1], "") and ended[1] != ""


def test_bash_and_help_know_the_commands() -> None:
    commands = {line.split()[0] for line in section(help_of("--help"), "Commands")}
    assert commands == {*COMMANDS, "help"}
    assert bash_words() == commands | {"--help", "--version"}
    assert bash_words("help") == set(COMMANDS)


@pytest.mark.parametrize("command", COMMANDS)
def test_completions_and_manual_have_the_options_of_a_command(command: str) -> None:
    options, text = options_of(command), help_of(command, "--help")
    assert bash_words(command) == options
    assert zsh_words(command, OPTION.pattern) == options
    assert zsh_words(command, r"(--[a-z_]+)=\[") == set(re.findall(r"(--[a-z_]+) <", text))
    assert set(OPTION.findall(manual_section(f".SS {command}", ".S"))) == options
    assert text == help_of("help", command)
    [line] = [line for line in text.splitlines() if "--in <FILE>" in line]
    assert line.endswith(f"in place of {'the empty circuit' if command == 'edit' else 'standard input'}")
    for option, names in re.findall(r"(--[a-z_]+) <.*\[possible values: (.*)\]", text):
        assert bash_words(command, option) == bash_words(command, option, "=") == set(names.split(", "))


def test_the_manual_has_all_options_and_the_lines_of_scripts() -> None:
    assert set(OPTION.findall(manual_section(".SH OPTIONS", ".SH"))) == {"--version"}.union(*map(options_of, COMMANDS))
    found: set[str] = set()
    # What is in bold after each .TP.
    for line in re.findall(r"\.TP\n(\.BR? .*)", manual_section(".SH SCRIPT", ".SH")):
        found |= set(re.findall(r'"([a-z][^"]*)"', line)) or {line.removeprefix(".B ")}
    assert found == set(re.findall(r"^  ([a-z].*?)  ", help_of("edit", "--help"), re.MULTILINE))


def test_a_checkpoint_has_one_name() -> None:
    assert STRIDE in help_of("edit", "--help") and STRIDE in MANUAL
    assert "A checkpoint is a stored state" in text_of(TOP / "docs/use/editing.md")


def test_the_page_has_the_instructions_and_their_other_names() -> None:
    printed = {name for row in rows_below(PAGE, "| Names | Arguments | Targets |") for name in quoted(row[0])}
    # A block's name is in no table of the source.
    assert ROWS and printed == {"REPEAT", *(row[0] for row in ROWS)}
    others = [[name for cell in row for name in quoted(cell)] for row in rows_below(PAGE, "| Printed name | Other names |")]
    assert others == [row for row in ROWS if row[1:]]


def test_the_package_and_the_page_have_the_instructions_and_their_other_names() -> None:
    table = {name: row.get("aliases", []) for name, row in TABLE.items() if name != "REPEAT"}
    assert table == {row[0]: row[1:] for row in ROWS}


def test_the_nearest_name_is_one_that_is_read() -> None:
    nearest = text_of(TOP / "crates/stab_circuit/src/nearest.rt").split("const READ", 1)[1].split('"')[1]
    assert set(re.findall(r"\w+", nearest)) == {"REPEAT"}.union(*ROWS)
