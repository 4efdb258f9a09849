"""The package's reader of circuit text: lines, items and where they are."""

import pytest
import stabsim
from stabsim import codes
from stabsim.text.reading import Block, Instruction, items_of, lines_at, lines_of, walk

TEXT = """
# REPEAT 2 {
H 0 # X 1 {
  repeat[a(b] 2{ # }

\tMpp[c]( 0.1 , 2)\tX0*Z1  !Y3\t# }
    REPEAT 3 {
    }
TICK
}\r
X\r
"""


def test_lines_are_cut_into_their_parts():
    kinds = [(line.opens, line.closes, line.parts and line.parts.name) for line in lines_of(TEXT)]
    nothing = (False, False, None)
    assert kinds == [
        nothing, nothing, (False, False, "H"), (True, False, "REPEAT"), nothing, (False, False, "MPP"), (True, False, "REPEAT"), (False, True, None),
        (False, False, "TICK"), (False, True, None), (False, False, "X"), nothing,
    ]
    measured = list(lines_of(TEXT))[5]
    assert measured.parts == ("MPP", "c", ("0.1", "2"), ("X0*Z1", "!Y3")) and measured.indentation == "\t"
    assert measured.without_arguments() == "\tMpp[c]\tX0*Z1  !Y3\t# }"


def test_items_have_their_lines_and_paths():
    first, block, last = items_of(TEXT)
    assert (first.line, first.path, last.line, last.path, last.targets) == (3, "0", 11, "2", ())
    assert (block.line, block.end, block.path, block.repeat, block.tag) == (4, 10, "1", 2, "a(b")
    assert [(item.line, item.path) for item in walk(block.items)] == [(6, "1/0"), (7, "1/1"), (9, "1/2")]
    assert block.items[1] == Block(7, 3, path="1/1", end=8)


def test_names_are_those_that_are_printed():
    names = {"cnot": "CX", "ZCX": "CX", "ZCY": "CY", "ZCZ": "CZ", "H_XZ": "H", "SQRT_Z": "S", "SQRT_Z_DAG": "S_DAG", "MZ": "M", "MRZ": "MR", "RZ": "R"}
    on = {"CX": " 0 1", "CY": " 0 1", "CZ": " 0 1"}
    for name, printed in names.items():
        text = name + on.get(printed, " 0")
        with stabsim.Circuit(text).edit() as session:
            assert session.circuit() == f"{items_of(text)[0]}\n" == f"{printed}{on.get(printed, ' 0')}\n"


def test_only_what_is_asked_for_is_read():
    found = items_of("X 0\nM 0\nREPEAT 2 {\n    ? 5\n    m 1\n}\nM 2\n", ("M",))
    assert [item.path for item in walk(found)] == ["1", "2", "2/1", "3"]


@pytest.mark.parametrize("text, number, line", [
    ("X 0\n7", 11, 2), ("[a] X", 11, 1), ("X 0\n}", 5, 2), ("REPEAT 2 {\nREPEAT 2 {\n}\n", 5, 1), ("REPEAT x {\n}", 3, 1),
    ("REPEAT 2 3 {\n}", 5, 1), ("X 0 {\n}", 5, 1), ("REPEAT ² {\n}", 3, 1), ("REPEAT 0 {\n}", 5, 1), ("REPEAT 1000000000000000000 {\n}", 5, 1),
    ("REPEAT {\n}", 5, 1),
])
def test_a_misshapen_text_is_refused_as_the_program_refuses_it(text, number, line):
    for read in (items_of, lambda text: stabsim.Circuit(text).numbers()):
        with pytest.raises(stabsim.Refused) as told:
            read(text)
        assert (told.value.number, told.value.line) == (number, line)


def test_an_item_is_where_its_lines_are():
    text = codes.surface_code(3, 4) + "REPEAT 2 {\n    REPEAT 3 {\n    }\n    X 0\n}\n"
    lines = text.split("\n")
    with stabsim.Circuit(text).edit() as session:
        for item in stabsim.Circuit(text).walk():
            first, end = lines_at(text, item.path)
            assert items_of("\n".join(lines[first:end])) == items_of(session.item(item.path)) != ()


def test_a_new_item_goes_behind_the_last_of_its_list():
    text = "X 0\nREPEAT 2 {\n    REPEAT 3 {\n    }\n    X 0\n}\n"
    assert [lines_at(text, path) for path in ("0", "1", "2", "1/0", "1/1", "1/2", "1/0/0")] == [(0, 1), (1, 6), (6, 6), (2, 4), (4, 5), (5, 5), (3, 3)]
    assert lines_at("", "0") == (0, 0)
    for path in ("3", "1/3", "0/0", "1/1/0", "7/0"):
        with pytest.raises(ValueError):
            lines_at(text, path)


def test_an_item_is_written_as_the_program_writes_it():
    assert str(Instruction(1, "M", "a", ("0.5", "1"), ("0", "!1"))) == "M[a](0.5, 1) 0 !1" and str(Instruction(1, "TICK")) == "TICK"
    assert str(Block(1, 3, "a", (Block(2, 2), Instruction(4, "X", "", (), ("0",))))) == "REPEAT[a] 3 {\n    REPEAT 2 {\n    }\n    X 0\n}"
