"""Refusals of a session's requests in words."""

import contextlib
from collections.abc import Iterator

from stabsim import program
from stabsim.errors import Refused

# What a refusal means in a session, by its number. One of an item's text is said in the words of `check`.
SENTENCES = {
    3: "A string of Paulis is written as X0*Z3 or -X0, or with a letter for each qubit, as +XZ_.",
    6: "It names a qubit that the session does not have: open the session with more, as edit(qubits=9).",
    8: "A rec[-k] would look back past the first record: measure before it, or look back less far.",
    9: "There would be more than 1048576 steps with all blocks written out: put in less, or give blocks fewer rounds.",
    10: "Blocks would be nested over 16 deep: write inner blocks out.",
    11: "The text is not one item, which is an instruction on a line or a whole block: put items in one by one.",
    12: "There is no such item, round, detector or observable: count from 0, and in each block anew.",
    13: "The session reads no such request.",
    14: "The text is over 16777216 bytes, or a line of it over 65536: put it in in parts.",
    17: "The path leads into an instruction, and only a block has items and rounds: circuit() has the items.",
    18: "A detector or observable is random: deterministic() has all that are not, and why() the coins that decide one.",
    20: "There is not enough memory: run fewer programs beside this one.",
}


def in_words(number: int, name: str) -> Refused:
    """A refusal of a request, as the program says it, with its sentence."""
    return Refused(number, name, None, SENTENCES.get(number, ""))


@contextlib.contextmanager
def explaining(item: str) -> Iterator[None]:
    """Gives a refusal of an edit the words that `check` has for the item that the edit puts in, if the item by itself has that fault."""
    try:
        yield
    except Refused as refused:
        raise Refused(refused.number, refused.name, refused.line, words_of(item, refused.number) or refused.explanation) from None


def words_of(item: str, number: int) -> str:
    """What `check` says of a text by itself, if it refuses a line of it with this number."""
    try:
        program.run(["check"], item)
    except Refused as alone:
        # A lookback is judged in the whole circuit, of which an item by itself says nothing; such a fault has no line.
        if alone.number == number and alone.line is not None:
            return alone.explanation
    return ""
