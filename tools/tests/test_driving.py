"""A driver of `edit` that waits for each reply before it sends the next line, and counted sessions."""

import subprocess
import sys

import drive_edit
import pytest
from program import TOP
from running import TIME_LIMIT, run

DRIVEN = """\
X 0 flips detectors [2] and observables []
X 1 flips detectors [2, 4] and observables []
X 2 flips detectors [2, 3] and observables []
X 3 flips detectors [3, 5] and observables []
X 4 flips detectors [3] and observables [0]
a second X 4 leaves detectors []
the circuit has 25 lines, and the group 5 rows
status 0
"""
# How many lines a script has that are alike.
LINES = 10_000


def test_the_driver_gets_each_reply_before_it_sends_the_next_line() -> None:
    # A reply that is held back would keep it waiting.
    done = subprocess.run([sys.executable, TOP / "examples" / "drive_edit.py"], capture_output=True, text=True, timeout=TIME_LIMIT, check=False)
    assert (done.returncode, done.stdout) == (0, DRIVEN), done.stderr


def test_the_driver_takes_no_refusal_for_bits() -> None:
    session = drive_edit.Session(drive_edit.CIRCUIT)
    for ask, line, refused in ((session.bits, "nothing", "show nothing: refused 13 BadCommand"),
                               (session.edit, "delete 99", "delete 99: refused 12 PlaceOutOfRange"),
                               (session.lines, "nothing", "show nothing: refused 13 BadCommand")):
        with pytest.raises(drive_edit.Refused) as told:
            ask(line)
        assert str(told.value) == refused
    assert (session.bits("observables"), session.close()) == ([], 3)
    empty = drive_edit.Session("/dev/null")
    assert (empty.lines("circuit"), empty.lines("stabilisers"), empty.close()) == ([], [], 0)


def test_a_framed_session_answers_each_of_many_lines() -> None:
    # The package's sessions wait for each reply before they send the next line.
    asked = {
        "delete 9": "ok 0", "mark": "ok 0", "insert 9 REPEAT 1 {\nX 2\n}": "ok 0", "show changed": "ok 1\nD2 D3",
        "show item 9": "ok 3\nREPEAT 1 {\n    X 2\n}", "show sign Z2": "ok 1\n-", "delete 99": "refused 12 PlaceOutOfRange",
        "\n".join(["mark"] * LINES): "\n".join(["ok 0"] * LINES), "show changed ": "ok 1\n",
    }
    status, written, told = run(["edit", "--framed", "--in", "examples/repetition_code.stim"], "".join(line + "\n" for line in asked))
    assert (status, told) == (3, "")
    assert written == "ready 1 5 36 9 8 1\n" + "".join(reply + "\n" for reply in asked.values())
