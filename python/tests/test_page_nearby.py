"""Edits of records on the page are made of a part of the circuit: they are those that the whole circuit gives."""

import pytest
import stabsim
from stabsim import codes
from stabsim.page import following
from stabsim.page.edits import Edit
from stabsim.page.nearby import nearby
from stabsim.text.reading import items_of, walk
from test_retargeting import Maker


def edits_of(maker, text):
    """Some edits as the page makes them: what is moved is taken out and put in again."""
    at = {item.path: str(item) for item in walk(items_of(text))}
    for kind, path, *words in maker.edits(text):
        if kind != "move":
            yield Edit(kind, path, *words)
        elif path in at:
            yield from (Edit("delete", path), Edit("insert", words[0], at[path]))


def told(circuit, edits):
    try:
        return following.followed(circuit, edits)
    except (ValueError, stabsim.Refused) as wrong:
        return str(wrong)


@pytest.mark.parametrize("seed", range(12))
def test_a_part_gives_the_edits_of_the_whole(seed, monkeypatch):
    maker, cases, shorter, lost = Maker(seed), [], 0, 0
    for _ in range(40):
        lines, made = [], 0
        for _ in range(8):
            # Lookbacks go a few records back.
            its, records = maker.lines(2, min(made, 4))
            lines, made = lines + its, made + records
        text = "".join(f"{item}\n" for item in items_of("\n".join(lines)))
        cases.append((text, list(edits_of(maker, text))))
    found = [told(*case) for case in cases if case[1]]
    shorter = sum(isinstance(its, following.Followed) and len(nearby(*case).text) < len(case[0]) / 2 for its, case in zip(found, (it for it in cases if it[1])))
    lost = sum(isinstance(its, following.Followed) and bool(its.lost) for its in found)

    def nowhere(circuit, edits):
        raise IndexError

    monkeypatch.setattr(following, "nearby", nowhere)
    assert found == [told(*case) for case in cases if case[1]]
    assert shorter > 5 and lost > 0


def test_a_code_of_many_rounds_is_looked_at_as_far_as_lookbacks_go():
    text = str(stabsim.Circuit(codes.surface_code(3, 40)).flattened())
    [place, *_] = [item.path for item in items_of(text) if item.name == "CX"][80:]
    part = nearby(text, [Edit("insert", place, "M 1")])
    # A round has eight records, and a detector looks back by up to sixteen.
    assert 20 < len(part.text.splitlines()) < 100 and part.before == int(place) and part.text.split("\n")[0] == "M" + 16 * " 0"
    assert part.outwards("1/2") == f"{place}/2" and part.inwards(place) == "1" and part.bit("L0") == "L0"
    assert part.bit("D0") == f"D{sum(item.name == 'DETECTOR' for item in items_of(text)[:int(place)])}"


def test_what_is_past_the_end_is_said_of_the_whole():
    with pytest.raises(ValueError, match="no item 7"):
        following.followed("M 0\n", [Edit("insert", "7", "M 1")])
    made = following.followed("M 0\nDETECTOR rec[-1]\n", [Edit("delete", "0")])
    assert made.lost == ("D0",) and [edit.place for edit in made.edits] == ["1", "0"]
    assert following.followed("", [Edit("insert", "0", "M 1")]).edits == [Edit("insert", "0", "M 1")]
