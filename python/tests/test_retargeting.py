"""Edits after which lookbacks name the records that they named, compared with circuits that are written out record by record."""

import itertools
import random

import numpy as np
import pytest
import stabsim
from stabsim import codes
from stabsim.session.record_trees import lookbacks_in, lookbacks_of
from stabsim.text.reading import Block, items_of

MEASURING = ("M", "MX", "MR", "MRY", "MPP")


class Maker:
    """Random circuits whose instructions have a tag each, by which they are known after edits too."""

    def __init__(self, seed):
        self.random = random.Random(seed)
        self.number = 0

    def tag(self):
        self.number += 1
        return f"[{self.number}]"

    def measurement(self):
        name = self.random.choice(MEASURING)
        qubits = self.random.sample(range(6), self.random.randint(1, 3))
        return f"{name}{self.tag()} " + " ".join(f"{'!' * (self.random.random() < 0.2)}{'Z' * (name == 'MPP')}{qubit}" for qubit in qubits)

    def naming(self, before):
        """An item that names some of the records before it."""
        back = [f"rec[-{number}]" for number in self.random.sample(range(1, before + 1), min(before, self.random.randint(1, 3)))]
        kind = self.random.choice(("DETECTOR", "DETECTOR", "OBSERVABLE_INCLUDE", "CX"))
        if kind == "CX":
            return f"CX{self.tag()} {back[0]} {self.random.randrange(6)}"
        return f"{kind}{self.tag()}{'(0)' * (kind != 'DETECTOR')} {' '.join(back)}"

    def lines(self, deep, before):
        """The lines of a list of items, and how many records it makes in its first round."""
        found, made = [], 0
        for _ in range(self.random.randint(2, 5)):
            kind = self.random.random()
            if kind < 0.45:
                found.append(self.measurement())
                made += len(found[-1].split()) - 1
            elif kind < 0.8 and before + made:
                found.append(self.naming(before + made))
            elif kind > 0.85 and deep:
                rounds = self.random.randint(1, 4)
                inner, once = self.lines(deep - 1, before + made)
                found += [f"REPEAT {rounds} {{", *inner, "}"]
                made += rounds * once
            else:
                found.append(f"H{self.tag()} {self.random.randrange(6)}")
        return found, made

    def edits(self, text):
        """Some edits of a circuit, as the function takes them. They are made one after another, so their places may be others' by then."""
        paths = list(paths_of(items_of(text)))
        for number in range(self.random.choice((1, 1, 1, 2, 3))):
            path, item = self.random.choice(paths)
            kind = self.random.choice(("insert", "insert", "delete", "move", "replace"))
            # By then another item may be there, to which the tag does not belong.
            item = None if number and kind == "replace" else item
            if kind == "insert" or item is None:
                yield "insert", path, self.random.choice((self.measurement, self.measurement, lambda: "REPEAT 2 {\n" + self.measurement() + "\n}"))()
            elif kind == "move":
                *outer, last = path.split("/")
                yield "move", path, "/".join([*outer, str(max(0, int(last) + self.random.randint(-3, 3)))])
            elif kind == "replace" and item.name in MEASURING:
                targets = [*item.targets, f"{'Z' * (item.name == 'MPP')}{self.random.randint(6, 9)}"]
                self.random.shuffle(targets)
                yield "replace", path, f"{item.name}[{item.tag}] {' '.join(targets[:self.random.randint(1, len(targets))])}"
            else:
                yield "delete", path


def paths_of(items, above=""):
    for number, item in enumerate(items):
        yield f"{above}{number}", item
        if isinstance(item, Block):
            yield from paths_of(item.items, f"{above}{number}/")
    yield f"{above}{len(items)}", None


def written_out(text):
    """The records of a circuit, and what names some: each record as its tag, how often that came by then, and its target; of each tag
    that names records, the name and the records each time that it comes, and the numbers of its detectors."""
    counts, records, naming, detectors = {}, [], {}, itertools.count()

    def run(items):
        for item in items:
            if isinstance(item, Block):
                for _ in range(item.repeat):
                    run(item.items)
                continue
            counts[item.tag] = counts.get(item.tag, 0) + 1
            own = item.tag, counts[item.tag]
            if item.name in MEASURING:
                records.extend((*own, target.replace("!", "")) for target in item.targets)
            elif item.name in ("MXX", "MZZ"):
                records.append((*own, " ".join(item.targets).replace("!", "")))
            elif item.name in ("DETECTOR", "OBSERVABLE_INCLUDE", "CX"):
                bit = f"D{next(detectors)}" if item.name == "DETECTOR" else "L0" if item.name == "OBSERVABLE_INCLUDE" else ""
                its = {records[int(target[4:-1])] for target in item.targets if target.startswith("rec")}
                naming.setdefault(item.tag, []).append((bit, its))

    run(items_of(text))
    return records, naming


def compare(text, made):
    """Whether each item names the records that it named, as far as they are there, by circuits that are written out."""
    (records, naming), (now, naming_now) = written_out(text), written_out(made.text)
    place = {record: number for number, record in enumerate(now)}
    assert made.records.tolist() == [place.get(record, -1) for record in records]
    lost = set()
    for tag, times in naming_now.items():
        # A gate whose record is gone is gone too.
        left = [(was, {record for record in was if record in place}) for bit, was in naming[tag]]
        left = [(was, its) for was, its in left if its or times[0][0]]
        assert [its for _, its in times] == [its for _, its in left]
        lost |= {bit for (bit, its), (was, _) in zip(times, left, strict=True) if bit and its != was}
    assert set(made.lost) == lost


def made_by_edits(text, edits):
    """The circuit that a session makes by edits, none of which it refuses."""
    with stabsim.Circuit(text).edit(qubits=60) as session:
        for kind, path, *words in edits:
            getattr(session, kind)(path, *(map(int, words) if kind == "split" else words))
        return session.circuit()


@pytest.mark.parametrize("first", range(0, 240, 20))
def test_after_any_edits_each_item_names_the_records_that_it_named(first):
    done = 0
    for seed in range(first, first + 20):
        maker = Maker(seed)
        text = "\n".join(maker.lines(2, 0)[0])
        try:
            made = stabsim.retargeted(stabsim.Circuit(text), list(maker.edits(text)))
        except ValueError as fault:
            assert "come after" in str(fault) or "there is no" in str(fault), fault
            continue
        compare(text, made)
        assert made_by_edits(text, made.edits) == made_by_edits(made.text, [])
        done += 1
    assert done >= 10


NOISE = ("X_ERROR(0.25) 0 1", "DEPOLARIZE2(0.125) 2 3", "E(0.5) X0 Z5", "I_ERROR(0.1) 0")


class NoisyMaker(Maker):
    """Its circuits have channels between items, wrong records, pairs that are measured, and comments above items and at their ends."""

    def measurement(self):
        if self.random.random() < 0.3:
            pair = self.random.sample(range(6), 2)
            return f"{self.random.choice(('MXX', 'MZZ'))}{self.tag()}(0.25) {pair[0]} !{pair[1]}"
        name, _, rest = super().measurement().partition(" ")
        return f"{name}{self.random.choice(('', '(0.125)'))} {rest}"

    def lines(self, deep, before):
        found, made = super().lines(deep, before)
        return [line for old in found for line in self.around(old)], made - sum(line.startswith(("MXX", "MZZ")) for line in found)

    def around(self, line):
        if "{" in line or "}" in line or "#" in line:
            return [line]
        above = [f"# {self.tag()}"] if self.random.random() < 0.2 else []
        return [*above, line + f" # {self.tag()}" * (self.random.random() < 0.2), *[self.random.choice(NOISE)] * (self.random.random() < 0.3)]


@pytest.mark.parametrize("first", range(0, 120, 20))
def test_in_a_session_with_noise_each_item_names_the_records_that_it_named_and_keeps_its_comments(first):
    done = 0
    for seed in range(first, first + 20):
        maker = NoisyMaker(seed)
        text = "\n".join(maker.lines(2, 0)[0]) + "\n"
        try:
            session = stabsim.Circuit(text).edit(qubits=60)
        except stabsim.Refused:
            continue
        with session:
            written = session.circuit(comments=True)
            edits = list(maker.edits(text))
            try:
                made = session.retarget(edits)
            except ValueError as fault:
                assert "come after" in str(fault) or "there is no" in str(fault), fault
                assert session.circuit(comments=True) == written
                continue
            compare(text, made)
            now = session.circuit(comments=True)
            assert stabsim.Circuit(now) == stabsim.Circuit(made.text) and comments_by_tag(now) == comments_by_tag(made.text)
            # What is as it was has the comments that it had, in each round that is a block by itself.
            before, after = comments_by_tag(written), comments_by_tag(now)
            replaced = {text.partition("[")[2].partition("]")[0] for kind, _, *words in edits if kind == "replace" for text in words}
            assert all(set(after[tag]) <= set(before[tag]) for tag in before if tag in after and tag not in replaced)
            assert session.undo() == bool(made.edits) and session.circuit(comments=True) == written
            done += 1
    assert done >= 8


def comments_by_tag(text):
    """The comment at the end of each line, and those above it, by the tag of its item."""
    found, above = {}, []
    for line in text.splitlines():
        content, _, comment = line.partition("#")
        tag = content.partition("[")[2].partition("]")[0]
        if content.strip() and tag:
            found.setdefault(tag, []).append((tuple(above), comment))
        above = [] if content.strip() else [*above, comment]
    return found


def with_values(text):
    """Which detectors are the same for all coins, and their values."""
    sure = stabsim.Circuit(text).deterministic().detectors
    with stabsim.Circuit(text).edit(qubits=60) as session:
        return sure, session.detectors() & sure


@pytest.mark.parametrize("seed", range(12))
def test_measurements_that_commute_with_all_leave_every_detector_as_it_was(seed):
    random_ = random.Random(seed)
    text = random_.choice((codes.surface_code(3, 4), codes.colour_code(3, 3), codes.repetition_code(3, 5), codes.toric_code(2, 3)))
    paths = [path for path, item in paths_of(items_of(text))]
    # What nothing else acts on commutes with all; so does a measurement right after the same one.
    edits = [("insert", random_.choice(paths), "MX 57 58")]
    twice = [(path, item) for path, item in paths_of(items_of(text)) if item and item.name in ("M", "MR")]
    path, item = random_.choice(twice)
    edits.append(("insert", following(path), f"M {' '.join(item.targets)}"))
    random_.shuffle(edits)
    with stabsim.Circuit(text).edit(qubits=60) as session:
        before, records = session.detectors(), session.records()
        made = session.retarget(edits)
        assert session.detectors().tolist() == before.tolist() and made.lost == ()
        assert len(made.records) == len(records) and (np.diff(made.records) > 0).all()
        assert session.circuit() == made_by_edits(made.text, []) and session.undo() and session.circuit() == made_by_edits(text, [])
    sure, values = with_values(made.text)
    assert sure.all() and values.tolist() == with_values(text)[1].tolist()


def following(path):
    *outer, last = path.split("/")
    return "/".join([*outer, str(int(last) + 1)])


# By hand: in the first of the rounds the detector names a record in front of the block, which is one farther back than the record of the
# round before it is in the others.
ROUNDS = "M 0 1\nREPEAT 4 {\n    MR 0\n    DETECTOR rec[-1] rec[-2]\n}\n"


def test_a_round_is_taken_out_if_a_lookback_out_of_the_block_cannot_be_the_same():
    made = stabsim.retargeted(stabsim.Circuit(ROUNDS), [("insert", "1/2", "M 5")])
    assert made.text == (
        "M 0 1\nREPEAT 1 {\n    MR 0\n    DETECTOR rec[-1] rec[-2]\n    M 5\n}\n"
        "REPEAT 3 {\n    MR 0\n    DETECTOR rec[-1] rec[-3]\n    M 5\n}\n")
    assert made.records.tolist() == [0, 1, 2, 4, 6, 8]
    assert made.edits[0] == ("split", "1", "0")


def test_lookbacks_are_looked_up_by_targets_alone_and_no_more_are_kept_than_a_number():
    [mixed, other, measured] = items_of("CX rec[-3] 1 2 rec[-12]\nDETECTOR rec[-3] 1 2 rec[-12]\nM rec[-3]")
    assert lookbacks_of(mixed) == lookbacks_of(other) == (3, 12) and lookbacks_of(measured) == lookbacks_of(None) == ()
    for number in range(1, 10_000):
        assert lookbacks_of(items_of(f"DETECTOR rec[-{number}]")[0]) == (number,)
    kept = lookbacks_in.cache_info()
    assert kept.currsize <= kept.maxsize == 8192 and lookbacks_of(mixed) == (3, 12)


def test_rounds_that_are_written_otherwise_than_the_one_before_are_written_by_themselves():
    # By hand: the far lookback names qubit 1's record in the first round, in the second the one that is gone, and then records of the block.
    text = "M 0 1 2\nREPEAT 5 {\n    M 3\n    DETECTOR rec[-1] rec[-3]\n}\n"
    made = stabsim.retargeted(stabsim.Circuit(text), [("replace", "0", "M 0 1")])
    assert made.text == "M 0 1\nREPEAT 1 {\n    M 3\n    DETECTOR rec[-1] rec[-2]\n}\nREPEAT 1 {\n    M 3\n    DETECTOR rec[-1]\n}\nREPEAT 3 {\n    M 3\n    DETECTOR rec[-1] rec[-3]\n}\n"
    assert made.lost == ("D1",)


def test_in_front_of_the_round_s_records_no_round_is_taken_out():
    made = stabsim.retargeted(stabsim.Circuit(ROUNDS), [("insert", "1/0", "M 5")])
    assert made.text == "M 0 1\nREPEAT 4 {\n    M 5\n    MR 0\n    DETECTOR rec[-1] rec[-3]\n}\n"


def test_a_record_that_is_gone_leaves_the_lists_that_named_it():
    made = stabsim.retargeted(stabsim.Circuit("M 0 1\nCX rec[-2] 3 rec[-1] 4\nDETECTOR rec[-1] rec[-2]\nDETECTOR rec[-1]\nOBSERVABLE_INCLUDE(0) rec[-2]\n"), [("replace", 0, "M 1")])
    assert made.text == "M 1\nCX rec[-1] 4\nDETECTOR rec[-1]\nDETECTOR rec[-1]\nOBSERVABLE_INCLUDE(0)\n"
    assert made.records.tolist() == [-1, 0] and made.lost == ("D0", "L0")


def test_what_is_taken_out_and_put_in_again_is_moved():
    text = "M 0\nTICK\nM 1\nTICK\nDETECTOR rec[-1]\nDETECTOR rec[-2]\n"
    for edits in ([("move", 2, 0)], [("delete", 2), ("insert", 0, "M 1")]):
        assert stabsim.retargeted(stabsim.Circuit(text), edits).text == "M 1\nM 0\nTICK\nTICK\nDETECTOR rec[-2]\nDETECTOR rec[-1]\n"
    # Also if only one of several targets is moved, as the page does it.
    part = stabsim.retargeted(stabsim.Circuit("M 0 1\nTICK\nM 2\nDETECTOR rec[-2]\n"), [("insert", 2, "M 1"), ("replace", 0, "M 0")])
    assert part.text == "M 0\nTICK\nM 1\nM 2\nDETECTOR rec[-2]\n" and part.lost == ()


def test_a_record_cannot_be_moved_after_what_names_it():
    with pytest.raises(ValueError, match=r"DETECTOR rec\[-1\]: the record that rec\[-1\] names would come after it"):
        stabsim.retargeted(stabsim.Circuit("M 0\nDETECTOR rec[-1]\nTICK\n"), [("move", 0, 3)])


def test_lookbacks_that_are_put_in_are_those_of_the_circuit_that_the_edits_make():
    made = stabsim.retargeted(stabsim.Circuit("M 0\nDETECTOR rec[-1]\n"), [("insert", 1, "DETECTOR rec[-1] rec[-2]"), ("insert", 1, "M 1")])
    assert made.text == "M 0\nM 1\nDETECTOR rec[-1] rec[-2]\nDETECTOR rec[-2]\n"


def test_if_a_block_has_other_rounds_its_last_ones_stay_the_last():
    made = stabsim.retargeted(stabsim.Circuit("REPEAT 3 {\n    M 0\n}\nDETECTOR rec[-1]\nDETECTOR rec[-3]\n"), [("replace", 0, "REPEAT 2 {\n    M 0\n    M 1\n}")])
    assert made.text == "REPEAT 2 {\n    M 0\n    M 1\n}\nDETECTOR rec[-2]\nDETECTOR\n"
    assert made.records.tolist() == [-1, 0, 2] and made.lost == ("D1",)


def test_of_too_many_rounds_none_are_taken_out():
    text = "M 0\nREPEAT 100000 {\n    CX rec[-1] 1\n}\n"
    with pytest.raises(ValueError, match="100000 rounds of REPEAT 100000 would have to be taken out"):
        stabsim.retargeted(stabsim.Circuit(text), [("insert", "1/0", "M 2")])
    long = stabsim.retargeted(stabsim.Circuit("M 0\nREPEAT 100000 {\n    M 1\n    DETECTOR rec[-1] rec[-2]\n}\n"), [("insert", "1/0", "M 2")])
    assert len(long.records) == 100_001 and long.records[-1] == 200_000


def test_a_session_keeps_records_by_one_step():
    text = "M 0\nM 1\nDETECTOR rec[-2]\n"
    with stabsim.Circuit(text).edit(qubits=4) as session:
        session.insert(1, "M 2", keep_records=True)
        assert session.circuit() == "M 0\nM 2\nM 1\nDETECTOR rec[-3]\n"
        session.delete(0, keep_records=True)
        assert session.circuit() == "M 2\nM 1\nDETECTOR\n"
        session.move(1, 0, keep_records=True)
        assert session.circuit() == "M 1\nM 2\nDETECTOR\n"
        session.replace(0, "M 1 3", keep_records=True)
        for _ in range(4):
            assert session.undo()
        assert session.circuit() == text and not session.undo()
        with pytest.raises(stabsim.Refused):
            session.insert(1, "M 9", keep_records=True)
        assert session.circuit() == text and not session.undo()
