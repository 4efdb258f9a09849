"""What `check` says of an edit that the session refused."""

import re

import stabsim
from stabsim import program
from stabsim.page.edits import Edit
from stabsim.page.noise import quiet
from stabsim.page.room import MOST_MORE, MOST_QUBITS
from stabsim.text import names
from stabsim.text.reading import items_of, lines_at, walk

# The refusals of an edit that `check` explains: those of a circuit's text.
EXPLAINED = range(1, 12)
QUBIT_OUT_OF_RANGE = 6
# The number of the line at fault, which is in front of it.
LINE_NUMBER = re.compile(r"\d+: ")
# The name of each line; and what the page shows, in capitals.
FIRST_WORDS = re.compile(r"^[ \t]*([^\s([{}]+)", re.MULTILINE)
SHOWN = frozenset((*names.READ, *names.NOISE))
FIRST = SHOWN | {"REPEAT"}


def explained(refused: stabsim.Refused, edit: Edit, circuit: str, qubits: int) -> stabsim.Refused:
    """A refusal of an edit of a circuit, as a session of this many qubits writes it, with what is wrong: the line at fault, carets
    under the word, what is wrong with it, and what to do."""
    if edit.kind in ("split", "open") or refused.number not in EXPLAINED:
        return refused
    said = refused.explanation
    checked = refusal_of(quiet(edited(circuit, edit)))
    if checked and checked.number == refused.number:
        said = checked.explanation
    elif refused.number == QUBIT_OUT_OF_RANGE:
        said = f"There are qubits 0 to {qubits - 1}, and an item may name up to {MOST_MORE} more, below {MOST_QUBITS}."
    return stabsim.Refused(refused.number, refused.name, refused.line, without_line_number(said))


def refusal_of(text: str) -> stabsim.Refused | None:
    """What `check` refuses a circuit by, with its words, or None."""
    try:
        program.run(["check"], text)
    except stabsim.Refused as refused:
        return refused
    return None


def refuse_unread(item: str) -> None:
    """Refuses an item, as the program does, that has instructions which are neither read nor noise: the page shows none."""
    if FIRST.issuperset(FIRST_WORDS.findall(item)):
        return
    try:
        items = items_of(item)
    except stabsim.Refused:
        # The session says what is wrong.
        return
    for unread in (it for it in walk(items) if it.repeat is None and it.name not in SHOWN):
        program.run(["check"], str(unread))


def without_line_number(said: str) -> str:
    """An explanation whose first two lines, the one at fault and its carets, have lost the number of the line, since items have
    paths on the page. Both move to the left as far as they are blank."""
    number = LINE_NUMBER.match(said)
    lines = said.split("\n")
    if not number or len(lines) < 2:
        return said
    shown, carets = (line[number.end():] for line in lines[:2])
    blank = len(shown) - len(shown.lstrip())
    return "\n".join([shown[blank:], carets[blank:], *lines[2:]])


def edited(circuit: str, edit: Edit) -> str:
    """The text of a circuit, as a session writes it, after an edit at a place that is there."""
    lines = circuit.removesuffix("\n").split("\n")
    first, end = lines_at(circuit, edit.place)
    put_in = [] if edit.kind == "delete" else edit.item.split("\n")
    return "\n".join(lines[:first] + put_in + lines[first if edit.kind == "insert" else end:]) + "\n"
