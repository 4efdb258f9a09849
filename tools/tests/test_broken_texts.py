"""Texts that are cut off, that never end or that break off."""

import fcntl
import pathlib
import socket
import subprocess
import termios

import pytest
from oracle import numbers
from oracle.reading import Refused, items_of
from program import TOP
from running import PROGRAM, READ_FAULT, TIME_LIMIT, TOO_LONG, Ended, run

# A repetition code of distance 3 over three rounds, as Stim prints it.
CODE = "".join(line for line in (TOP / "examples/repetition_code.stim").read_text().splitlines(True) if line[0] not in "#X")
# What some of the refusals are, by hand: that the oracle's rules are those of the pages.
CUT_BY_HAND = {
    12: "", 13: "line 2: refused 1 UnsupportedName", 22: "line 3: refused 4 BadPairing", 65: "line 8: refused 11 BadLine",
    72: "line 8: refused 3 BadTarget", 108: "line 10: refused 5 BadBlock", 127: "line 12: refused 1 UnsupportedName",
    274: "line 10: refused 5 BadBlock", 275: "", 380: "line 24: refused 2 BadArguments", 392: "",
}

SCRIPT = "show measurements\ninsert 1 H 0\nshow measurements\n"
# The replies if its reads fail after a number of bytes, from the first of these up to the second.
BROKEN = [(0, 17, ""), (18, 30, "1\n"), (31, 48, "1\nok\n"), (49, 49, "1\nok\n0\n")]


def told_by_the_rules(text: str) -> str:
    """What is said about a circuit that is refused, by the oracle."""
    try:
        numbers.check(items_of(text.encode()))
    except Refused as refused:
        return refused.told().decode()
    return ""


def test_the_rules_refuse_what_they_are_known_to() -> None:
    told = {length: told_by_the_rules(CODE[:length]) for length in CUT_BY_HAND}
    assert told == {length: refused and f"stabsim: {refused}\n" for length, refused in CUT_BY_HAND.items()}


@pytest.mark.parametrize("length", range(len(CODE) + 1))
def test_a_circuit_that_is_cut_off_is_run_or_refused_with_nothing_written(length: int) -> None:
    told = told_by_the_rules(CODE[:length])
    ended = run(["stabilisers"], CODE[:length])
    assert ended == ((1, "", told) if told else (0, ended[1], ""))


# What commands are given without end, byte by byte.
@pytest.mark.parametrize("words, byte", [
    ("sample --shots 2", "#"), ("sample --shots 2", "\\n"), ("detect --append_observables --shots 2", "#"),
    ("detect --append_observables --shots 2", "}"), ("stabilisers", "#"), ("edit", " "),
])
def test_a_text_without_end_is_too_long(words: str, byte: str) -> None:
    with open("/dev/zero", "rb") as zeros:
        with subprocess.Popen(["tr", r"\000", byte], stdin=zeros, stdout=subprocess.PIPE) as writer:
            assert writer.stdout
            ended = run(words.split(), writer.stdout.fileno())
            writer.kill()
    assert ended == (1, "", TOO_LONG)


def send_apart(end: socket.socket, given: bytes) -> None:
    """Sends bytes so that each is read by itself: the next one when the one before was read at the other end."""
    for place in range(len(given)):
        end.send(given[place : place + 1])
        while fcntl.ioctl(end, termios.TIOCOUTQ, bytes(4)) != bytes(4):
            pass


def run_broken(circuit: pathlib.Path, given: str) -> Ended:
    """A run of a script of which these bytes come, each by itself, and whose next read fails."""
    ours, theirs = socket.socketpair()
    # A socket that is closed with bytes unread resets the pair, so that reads at the other end fail.
    theirs.send(b"unread")
    with theirs:
        words = [str(PROGRAM), "edit", "--coins", "1", "--in", str(circuit)]
        program = subprocess.Popen(words, stdin=theirs.fileno(), stdout=subprocess.PIPE, stderr=subprocess.PIPE, text=True)
    with ours:
        send_apart(ours, given.encode())
    written, told = program.communicate(timeout=TIME_LIMIT)
    return program.returncode, written, told


@pytest.mark.parametrize("length, replies", [(length, replies) for first, last, replies in BROKEN for length in range(first, last + 1)])
def test_a_script_that_breaks_off_has_the_replies_to_whole_lines(tmp_path: pathlib.Path, length: int, replies: str) -> None:
    circuit = tmp_path / "circuit.stim"
    circuit.write_text("H 0\nM 0")
    assert length <= len(SCRIPT) == BROKEN[-1][1]
    assert run_broken(circuit, SCRIPT[:length]) == (1, replies, READ_FAULT)
