"""What is known of the lines of a text, after edits too, and a session's text that is made of the lines that changed."""

import random

import numpy as np
import pytest
import stabsim
from random_edits import TEXTS, edit, told
from stabsim import program
from stabsim.noise.changed_lines import change_of
from stabsim.noise.flipped import rows_of_lengths
from stabsim.noise.known_lines import KnownLines
from stabsim.text.carrying import written_back
from stabsim.text.reading import items_of
from stabsim.text.sizes import sizes_of


@pytest.mark.parametrize("seed", range(8))
def test_lines_after_edits_are_those_of_the_edited_text(seed):
    numbers = random.Random(seed)
    with stabsim.Circuit(TEXTS[seed]).edit() as session:
        known = KnownLines(session.circuit())
        assert len(known.facts) == len(known.quiet) == len(known.lines)
        for _ in range(10):
            told(lambda: edit(session, numbers))
            text = session.circuit()
            change, anew = change_of(known, text), KnownLines(text)
            known = change.after
            assert known.lines == text.split("\n") and known.quiet == anew.quiet and np.array_equal(known.facts, anew.facts)
            assert [*change.before.lines[: change.first], *change.new, *change.before.lines[change.old_end :]] == known.lines
            assert change.before.lines[change.first : change.old_end] == change.old


def test_counts_are_those_of_all_rounds():
    for text in TEXTS:
        text = str(stabsim.Circuit(stabsim.without_noise(text)))
        known, sizes = KnownLines(text), sizes_of(items_of(text))
        assert known.counts(0, len(known.lines)) == (sizes.records, sizes.detectors, 0)
        numbers = [known.detector_numbers(place, place + 1).ravel() for place, line in enumerate(known.lines) if "DETECTOR" in line]
        assert sorted(np.concatenate(numbers).tolist()) == list(range(sizes.detectors))


@pytest.mark.parametrize("seed", range(8))
def test_a_session_prints_what_its_program_has_after_each_edit(seed):
    numbers = random.Random(seed)
    text = "# above\n\n" + TEXTS[seed].replace("MR", "# a note\nMR", 2).replace("}", "    # below\n}  # end", 1) + "MXX 0 1\n"
    with stabsim.Circuit(text).edit() as session:
        for _ in range(10):
            told(lambda: edit(session, numbers))
            assert session.circuit() == written_back(session.printed(), False)
            if numbers.random() < 0.3:
                session.undo()


def test_rows_are_read_as_the_words_of_their_bits_say():
    text = "".join(f"R {qubit}\nI {qubit}\nM {qubit}\n" + "DETECTOR rec[-1]\n" * (qubit % 3) for qubit in range(700)) + "OBSERVABLE_INCLUDE(0) rec[-1]\n"
    words = program.run(["faults", "--out_format", "dets"], text).decode().splitlines()
    wanted = [[699 if word == "L0" else int(word[1:]) for word in line.split()[1:]] for line in words]
    indptr, indices = rows_of_lengths(program.run(["faults", "--out_format", "r8"], text), 700)
    assert [its.tolist() for its in np.split(indices, indptr[1:-1])] == wanted and len(wanted) == 1400
    assert [its.tolist() for its in rows_of_lengths(b"", 700)] == [[0], []]
