"""The table of instructions, instructions.json, says of each name and each other name what the program does with it."""

import subprocess

import pytest
from stabsim import program
from stabsim.text import names

# The targets that each kind takes, after a record, each with how many steps and records that is.
TAKEN = {
    "gate": [("0 1", 2, 0)],
    "controlled gate": [("0 1", 1, 0), ("0 1 2 3", 2, 0), ("rec[-1] 0", 1, 0)],
    "pair gate": [("0 1", 1, 0), ("0 1 2 3", 2, 0)],
    "measurement": [("0 !1", 2, 2)],
    "measurement and reset": [("0 !1", 2, 2)],
    "product measurement": [("X0*!Z1 Y2", 2, 2), ("X0*Y1*Z2", 1, 1)],
    "reset": [("0 1", 2, 0)],
    "declaration": [("rec[-1]", 1, 0)],
    "annotation": [("", 0, 0)],
}
# Those that it refuses, each with the number of the refusal: 4 for qubits that make no pairs.
REFUSED = {
    "gate": [("!0", 3), ("rec[-1]", 3), ("X0", 3)],
    "controlled gate": [("0", 4), ("0 0", 4), ("0 1 2", 4), ("!0 1", 3)],
    "pair gate": [("0", 4), ("0 0", 4), ("rec[-1] 0", 3)],
    "measurement": [("rec[-1]", 3), ("X0*Z1", 3)],
    "measurement and reset": [("rec[-1]", 3), ("X0*Z1", 3)],
    "product measurement": [("0", 3), ("rec[-1]", 3), ("X0*Z0", 3)],
    "reset": [("!0", 3), ("rec[-1]", 3)],
    "declaration": [("0", 3), ("!0", 3)],
    "annotation": [("rec[-1]", 3), ("X0", 3)],
}
# What an instruction can't be without, besides.
ARGUMENTS = {"OBSERVABLE_INCLUDE": "(0)"}
TARGETS = {"QUBIT_COORDS": "0"}
INSTRUCTIONS = [name for name in names.TABLE if name != "REPEAT"]


def line_of(name, targets, word=None):
    """An instruction, by one of its names."""
    return f"{word or name}{ARGUMENTS.get(name, '')} {targets or TARGETS.get(name, '')}".strip()


def replies_to(*lines):
    """What a script of edits is answered, line by line, on ten qubits after one record."""
    words = [program.find_program(), "edit", "--qubits", "10"]
    script = "\n".join(["insert 0 M 9", *lines, ""])
    return subprocess.run(words, input=script, capture_output=True, text=True, check=False).stdout.splitlines()[1:]


def cases_of(by_kind):
    return [(name, case) for name in INSTRUCTIONS for case in by_kind[names.TABLE[name]["kind"]]]


def test_the_program_reads_each_name_and_prints_one():
    found = [(name, line_of(name, targets, word)) for name, (targets, _, _) in cases_of(TAKEN) for word in names.spellings([name])]
    replies = replies_to(*(f"insert 1 {text}" for _, text in reversed(found)), "show circuit")
    assert replies[:len(found)] == ["ok"] * len(found)
    printed = [line_of(name, targets) for name, (targets, _, _) in cases_of(TAKEN) for _ in names.spellings([name])]
    assert replies[len(found):] == ["M 9", *printed]


@pytest.mark.parametrize("kind", TAKEN)
def test_the_program_counts_steps_and_records_of_a_kind(kind):
    cases = [(line_of(name, case[0]), *case[1:]) for name, case in cases_of(TAKEN) if names.TABLE[name]["kind"] == kind]
    lines = program.run(["check"], "\n".join(["M 9", *(text for text, _, _ in cases), ""])).decode().splitlines()
    numbers = dict(line.split(": ") for line in lines)
    assert (int(numbers["steps"]), int(numbers["records"])) == (1 + sum(it[1] for it in cases), 1 + sum(it[2] for it in cases))


def test_the_program_refuses_what_a_kind_does_not_take():
    cases = [(line_of(name, targets), number) for name, (targets, number) in cases_of(REFUSED)]
    replies = replies_to(*(f"insert 1 {line}" for line, _ in cases))
    assert [(line, int(reply.split()[1])) for (line, _), reply in zip(cases, replies, strict=True)] == cases


def test_gates_and_their_inverses_leave_a_bell_pair_as_it_is():
    pair = ["insert 1 H 0", "insert 2 CX 0 1"]
    for name in names.ONE_QUBIT:
        back = names.INVERSES.get(name, name)
        shown = "show stabilisers"
        replies = replies_to(*pair, f"insert 3 {name} 0", shown, f"insert 4 {back} 0", shown, "delete 3", "delete 3", shown)
        assert replies[:3] == ["ok"] * 3
        between, after, without = replies[3:13], replies[14:24], replies[26:36]
        assert after == without and names.INVERSES.get(back, back) == name
        assert (between != without) == (name != "I")


def test_no_word_is_of_two_instructions():
    words = [word for name in names.TABLE for word in names.spellings([name])]
    assert len(words) == len(set(words))
