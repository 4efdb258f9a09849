"""Parts of a distance are merged to the answer of one run, and parts that are not all of it are refused."""

import asyncio
import os
import pathlib
import signal
import subprocess
import sys
import time

import pytest
import stabsim
from part_making import Table, asked_of, processes_of, table_of, write_stand_in
from stabsim import codes
from stabsim.questions import distance_search
from stabsim.questions.distance_parts import merged

sys.path.append(str(pathlib.Path(__file__).resolve().parents[2] / "tools"))

from oracle import tables  # noqa: E402: its folder was named above

# A path of three errors, and a longer one of four; no set of two errors is unseen.
TABLE = "1 1 X0 D0 L0\n2 1 X1 D0 D1\n3 1 X2 D1\n4 1 X3 D1 D2\n5 1 X4 D2 D3\n6 1 X5 D3\n"
FIRST = "part 1/3\ntable 4822678189205247\nnone of 1\nnone of 2\nfirst 0\ndistance 3 of all marked errors\n1 1 X0 D0 L0\n2 1 X1 D0 D1\n3 1 X2 D1\nend\n"
SECOND = "part 2/3\ntable 4822678189205247\nnone of 1\nnone of 2\nnone of 3\nend\n"
THIRD = "part 3/3\ntable 4822678189205247\nnone of 1\nnone of 2\nnone of 3\nend\n"
NONE = "part 3/3\ntable 4822678189205247\nnone\nend\n"
# A larger set, and one of the same size that begins later.
LARGER = ("part 2/3\ntable 4822678189205247\nnone of 1\nnone of 2\nnone of 3\nfirst 1\ndistance 4 of all marked errors\n"
          + "".join(f"{it} 1 X{it} D0\n" for it in range(4)) + "end\n")
LATER = ("part 2/3\ntable 4822678189205247\nnone of 1\nnone of 2\nfirst 4\ndistance 3 of all marked errors\n"
         + "".join(f"{it} 1 X{it} D0\n" for it in range(3)) + "end\n")
ANSWER = "distance 3 of all marked errors\n1 1 X0 D0 L0\n2 1 X1 D0 D1\n3 1 X2 D1\n"


def merge_of(*texts):
    return merged((f"f{number}", text) for number, text in enumerate(texts, start=1))


def test_the_least_first_of_the_least_size_is_the_answer():
    # A part that looks for more errors may find a set that another part has.
    again = LARGER.replace("distance 4", "distance 3").replace("0 1 X0 D0\n", "")
    for second in (SECOND, LARGER, LATER, again):
        assert merge_of(FIRST, second, THIRD) == merge_of(THIRD, second, FIRST) == ANSWER
    without = FIRST[:FIRST.index("first")] + "end\n"
    assert merge_of(without, SECOND, THIRD) == "none up to 2\n"
    assert merge_of(*("\n".join([*text.split("\n")[:2], "end\n"]) for text in (FIRST, SECOND, THIRD))) == "none up to 0\n"
    assert merge_of(*(NONE.replace("3/3", f"{number}/3") for number in (1, 2, 3))) == "none\n"
    assert merge_of(FIRST.replace("1/3", "1/1")) == ANSWER


REFUSED = [
    ([], "there are no parts"),
    ([FIRST, THIRD], "of 3 parts these are missing: 2"),
    ([SECOND.replace("2/3", "4/9")], "of 9 parts these are missing: 1-3,5-9"),
    ([FIRST, SECOND, FIRST, THIRD], "f1 and f3 are both part 1"),
    ([FIRST, SECOND, SECOND], "f2 and f3 are both part 2"),
    ([FIRST, SECOND, THIRD.replace("3/3", "4/3")], "f3 is no part: there are 3"),
    ([FIRST, SECOND.replace("2/3", "2/4"), THIRD], "f1 and f2: they are not of as many parts"),
    ([FIRST, SECOND, THIRD.replace("5247", "5248")], "f1 and f3: they are of different errors, so of other circuits, options or versions"),
    ([FIRST, SECOND, NONE], "f3 says that there is no set of any size, and f1 does not"),
    ([FIRST, SECOND.replace("none of 3\n", ""), THIRD], "f2 says nothing of 3 errors, and another part has such a set: run part 2 again with --most 3"),
    ([LARGER, FIRST, THIRD.replace("none of 2\nnone of 3\n", "")],
     "f3 says nothing of 3 errors, and another part has such a set: run part 3 again with --most 3"),
    ([LARGER.replace("distance 4", "distance 3").replace("0 1 X0 D0\n", "").replace("2/3", "1/1")],
     "each part has no set of 3 errors by itself, and then one has such a set"),
    ([FIRST, "", THIRD], "f2 is no part of a distance"),
    ([FIRST, ANSWER, THIRD], "f2 is no part of a distance"),
    ([FIRST, SECOND, THIRD[:-1]], "f3 is torn: its last line is not `end`, so run that part again"),
]
CHANGED = [SECOND.replace("none of 2\n", ""), SECOND.replace("2/3", "0/3"), SECOND.replace("none of 1", "none of one"), SECOND + SECOND,
           SECOND.replace("end", "none\nnone\nend"), LATER.replace("first 4\n", ""), LATER.replace("0 1 X0 D0\n", ""), LATER.replace("none of 2\n", ""),
           SECOND.replace("5247", "524x"), LATER.replace("first 4", "first -4"), LATER.replace("X1", "X\u00e9")]


@pytest.mark.parametrize("texts, why", REFUSED)
def test_parts_that_are_not_all_of_one_search_are_refused(texts, why):
    with pytest.raises(ValueError) as refused:
        merge_of(*texts)
    assert str(refused.value) == why


@pytest.mark.parametrize("text", CHANGED)
def test_a_part_that_was_changed_is_refused(text):
    with pytest.raises(ValueError, match="^f2 was changed: it is not what `distance --part` writes$"):
        merge_of(FIRST, text, THIRD)


@pytest.mark.parametrize("text", [FIRST, SECOND])
def test_a_part_that_was_cut_off_anywhere_is_refused(text):
    for end in range(len(text)):
        with pytest.raises(ValueError, match="^f2 is (torn: its last line|no part of a distance)"):
            merge_of(THIRD, text[:end])


def test_parts_made_the_slow_way_are_those_by_hand():
    table = Table(TABLE, "all marked errors")
    made = [table.part(number, 3, 3).replace(str(table.digest), "4822678189205247") for number in (1, 2, 3)]
    assert made == [FIRST, SECOND, THIRD] and table.whole(3) == ANSWER and table.whole(2) == "none up to 2\n"
    assert Table(TABLE.replace(" L0", ""), "").whole(None) == "none\n" == Table("", "").whole(4)


CIRCUITS = {
    "surface 2": (codes.surface_code(2, 2), ["--everywhere"]),
    "repetition 3": (codes.repetition_code(3, 2), ["--everywhere"]),
    "surface 3": (codes.surface_code(3, 1), ["--everywhere", "--letters", "XZ"]),
    "Steane": (codes.steane_code(1), ["--everywhere"]),
    **{f"{shape} {number}": (table.circuit(), []) for shape in tables.SHAPES for number, table in enumerate(tables.tables(shape, 7, 8)) if table.rows},
}


@pytest.mark.parametrize("name", CIRCUITS)
def test_all_parts_together_are_one_search(name, tmp_path):
    text, words = CIRCUITS[name]
    path = tmp_path / "circuit.stim"
    path.write_text(text)
    table = table_of(stabsim.find_program(), words, path)
    one_run = subprocess.run([stabsim.find_program(), "distance", *words, "--in", path], capture_output=True, text=True).stdout
    assert table.whole(None).split("\n")[0] == one_run.split("\n")[0]
    for count, most in [(1, None), (2, None), (3, 1), (3, 2), (4, 3), (7, None)]:
        parts = [table.part(number, count, most) for number in range(1, count + 1)]
        assert merge_of(*parts) == table.whole(most)


@pytest.mark.parametrize("name", CIRCUITS)
def test_parts_of_the_program_are_one_run_of_it(name, tmp_path):
    text, words = CIRCUITS[name]
    path = tmp_path / "circuit.stim"
    path.write_text(text)

    def written(*more):
        return subprocess.run([stabsim.find_program(), "distance", *words, *more, "--in", path], capture_output=True, text=True, check=True).stdout

    whole = written()
    for count in (1, 2, 3, 7):
        for most in range(5):
            limit = ["--most", str(most)]
            parts = [written("--part", f"{number}/{count}", *limit) for number in range(1, count + 1)]
            assert merge_of(*parts) == written(*limit)
            if whole.startswith(f"distance {most} "):
                assert merge_of(*parts) == whole


def merge_command(folder, *words):
    return subprocess.run([sys.executable, "-m", "stabsim.merge", *words], cwd=folder, capture_output=True, text=True)


def test_the_command_writes_the_answer_or_a_line_and_no_file(tmp_path):
    for number, text in enumerate((FIRST, SECOND, THIRD), start=1):
        (tmp_path / f"part_{number}.txt").write_text(text)
    before = sorted((it.name, it.read_text()) for it in tmp_path.iterdir())
    done = merge_command(tmp_path, "part_3.txt", "part_1.txt", "part_2.txt")
    assert (done.returncode, done.stdout, done.stderr) == (0, ANSWER, "")
    for words, said in [(["part_1.txt", "part_3.txt"], "of 3 parts these are missing: 2"), (["none.txt"], "[Errno 2] No such file or directory: 'none.txt'")]:
        done = merge_command(tmp_path, *words)
        assert (done.returncode, done.stdout, done.stderr) == (1, "", f"merge: {said}\n")
    assert merge_command(tmp_path).returncode == 2 and "FILE" in merge_command(tmp_path, "--help").stdout
    assert sorted((it.name, it.read_text()) for it in tmp_path.iterdir()) == before


@pytest.mark.parametrize("output, why", [(">&-", "standard output is closed"), (">/dev/full", "No space left on device")])
def test_an_output_that_is_closed_or_full_has_a_line(tmp_path, output, why):
    for number, text in enumerate((FIRST, SECOND, THIRD), start=1):
        (tmp_path / f"part_{number}.txt").write_text(text)
    done = subprocess.run(["sh", "-c", f'exec "$0" -m stabsim.merge part_1.txt part_2.txt part_3.txt {output}', sys.executable], cwd=tmp_path, capture_output=True, text=True,
                          check=False)
    assert done.returncode == 1 and done.stderr.count("\n") == 1 and done.stderr.endswith(f"{why}\n")


@pytest.fixture(name="notes")
def stand_in(tmp_path, monkeypatch):
    """The folder in which each search is noted, by a program in the place of the program."""
    notes, program = tmp_path / "notes", tmp_path / "stand_in"
    write_stand_in(program, notes, stabsim.find_program())
    monkeypatch.setenv("STABSIM", str(program))
    # One has looked alone long enough once it has said something.
    monkeypatch.setattr(distance_search, "monotonic", lambda: 1000 * any(notes.glob("process_*")))
    return notes


def test_workers_find_what_one_finds(notes):
    circuit = stabsim.Circuit(codes.surface_code(3, 1))
    found = circuit.distance(everywhere=True, letters="XZ", workers=2)
    assert (found.distance, len(found.errors), str(found)) == (3, 3, "distance 3 of all errors everywhere")
    # One process excluded sets of one error, and all parts those of two.
    assert sorted(asked_of(notes).values()) == [("1/2", "2"), ("1/2", "3"), ("2/2", "2"), ("2/2", "3"), ("None", "None")]
    assert processes_of(notes) == []


@pytest.mark.parametrize("text, most, expected", [
    (codes.repetition_code(3, 1), 2, "none up to 2 of all errors everywhere"), (codes.repetition_code(3, 1), 1, "none up to 1 of all errors everywhere"),
    ("R 0\nM 0\nDETECTOR rec[-1]", None, "none of all errors everywhere"),
])
def test_workers_stop_at_the_limit_or_if_there_is_none(notes, text, most, expected):
    assert str(stabsim.Circuit(text).distance(everywhere=True, most=most, workers=3)) == expected
    assert {number for _, number in asked_of(notes).values() if number != "None"} <= {"1", "2"}


def test_workers_find_the_mechanisms_of_a_model(notes):
    noisy = stabsim.Circuit(codes.repetition_code(3, 1, noise=codes.Noise.uniform(0.01)))
    found = noisy.distance(workers=2)
    assert (found.distance, len(found.mechanisms), len(found.errors), found.searched) == (3, 3, 3, "all errors")


def test_what_is_refused_or_is_by_one_process_raises(notes):
    random = stabsim.Circuit("R 0\nI 0\nMX 0\nDETECTOR rec[-1]")
    with pytest.raises(stabsim.Refused, match="18 NotDeterministic"):
        random.distance(workers=2)
    for options in ({"workers": 0}, {"workers": 2, "count": True}, {"workers": 2, "graphlike": True}, {"workers": 2, "most": -1}):
        with pytest.raises(ValueError, match="workers is|most is"):
            stabsim.Circuit("I 0").distance(**options)
    assert processes_of(notes) == []


def wait_for(is_so):
    while not is_so():
        time.sleep(0.05)


CALL = "import stabsim\nstabsim.Circuit('I 0 1\\nM 0 1\\nDETECTOR rec[-1] rec[-2]\\nOBSERVABLE_INCLUDE(0) rec[-1]').distance(workers=3)"


@pytest.mark.parametrize("held", [False, True])
def test_no_process_is_left_of_a_call_that_is_interrupted(notes, held):
    # While one looks alone, or while parts do.
    (notes / "held_2").touch()
    with subprocess.Popen([sys.executable, "-c", CALL], stderr=subprocess.PIPE, start_new_session=True) as running:
        wait_for(lambda: any(part == "2/3" for part, _ in asked_of(notes).values()) if held else processes_of(notes))
        os.kill(running.pid, signal.SIGINT)
        said = running.communicate()[1]
    assert said.endswith(b"KeyboardInterrupt\n") and running.returncode == -signal.SIGINT
    assert processes_of(notes) == []


def test_how_far_workers_are_is_shown_on_a_terminal(notes):
    pytest.importorskip("tqdm")
    leader, follower = os.openpty()
    subprocess.run([sys.executable, "-c", CALL], stderr=follower, check=True)
    os.close(follower)
    shown = os.read(leader, 65536)
    os.close(leader)
    assert b"no set of 1" in shown and b"3/3 " in shown


async def searched_on_the_page(text, until=None):
    """What tabs hear of a search on the page, which is stopped once something is so."""
    from stabsim.page.distances import EVERYWHERE, DistanceSearch
    heard = []
    search = DistanceSearch(heard.append, asyncio.create_task)
    search.begin(7, EVERYWHERE, text)
    while not search.task.done():
        await asyncio.sleep(0.05)
        if until and until():
            search.end()
    return [(it["state"], it["first"] or it["said"]) for it in heard]


def test_the_page_has_all_processors_look(notes):
    pytest.importorskip("aiohttp")
    heard = asyncio.run(searched_on_the_page(codes.repetition_code(3, 1)))
    count = len(os.sched_getaffinity(0))
    assert heard[0] == ("running", "") and heard[-1] == ("found", "distance 3 of all errors everywhere")
    assert ("running", "no set of 1") in heard and ("running", f"no set of 2; of 3, {count} of {count} parts") in heard
    assert {part for part, _ in asked_of(notes).values()} == {"None", *(f"{number}/{count}" for number in range(1, count + 1))}


def test_a_search_on_the_page_that_is_stopped_leaves_no_process(notes):
    pytest.importorskip("aiohttp")
    (notes / "held_1").touch()
    heard = asyncio.run(searched_on_the_page(codes.repetition_code(3, 1), lambda: any(part.startswith("1/") for part, _ in asked_of(notes).values())))
    assert heard[-1] == ("none", "the search was stopped") and processes_of(notes) == []
