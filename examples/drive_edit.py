#!/usr/bin/env python3
"""Drives `stabsim edit` from a program: it sends a line, reads the reply, and decides what to send next.

    python3 examples/drive_edit.py

It asks a repetition code which detectors and observables an X on each qubit flips. If an observable flips, it puts a
second X after the first and looks whether that undoes it. A reply that is refused, or is missing since the program ended,
ends the driver with what was asked and replied: it is never taken for bits. It needs only Python, and runs the program that the
environment variable STABSIM names, else `./stabsim`.
"""

import os
import pathlib
import subprocess

TOP = pathlib.Path(__file__).resolve().parent.parent
CIRCUIT = TOP / "examples" / "repetition_code.stim"
ERROR = 9  # the item that is an X on the way
QUBITS = 5


class Refused(Exception):
    """A line that was refused, or had no reply."""


class Session:
    """An editing session: the reply to each line is read before another one is sent."""

    def __init__(self, circuit: str | pathlib.Path) -> None:
        words = [os.environ.get("STABSIM", TOP / "stabsim"), "edit", "--in", circuit]
        self.program = subprocess.Popen(words, stdin=subprocess.PIPE, stdout=subprocess.PIPE, text=True, bufsize=1)
        assert self.program.stdin and self.program.stdout
        self.input, self.output = self.program.stdin, self.program.stdout

    def send(self, *lines: str) -> None:
        for line in lines:
            self.input.write(line + "\n")
        self.input.flush()

    def read(self, line: str) -> str:
        reply = self.output.readline()
        if not reply.endswith("\n"):
            raise Refused(f"{line}: no whole reply, status {self.close()}")
        return reply[:-1]

    def ask(self, line: str) -> str:
        """The reply of one line to a line."""
        self.send(line)
        return self.read(line)

    def edit(self, line: str) -> None:
        reply = self.ask(line)
        if reply != "ok":
            raise Refused(f"{line}: {reply}")

    def bits(self, what: str) -> list[int]:
        """The places of the ones in what `show` says of measurements, free, detectors or observables."""
        reply = self.ask(f"show {what}")
        if reply.strip("01"):
            raise Refused(f"show {what}: {reply}")
        return [place for place, bit in enumerate(reply) if bit == "1"]

    def lines(self, what: str) -> list[str]:
        """What `show` says of the circuit or its stabilisers, perhaps no line at all: what comes before the bits that are asked next."""
        line = f"show {what}"
        self.send(line, "show observables")
        shown = [self.read(line)]
        while shown[-1].strip("01"):
            shown.append(self.read(line))
        if shown[0].startswith("refused"):
            raise Refused(f"{line}: {shown[0]}")
        return shown[:-1]

    def close(self) -> int:
        self.input.close()
        return self.program.wait()


def main() -> None:
    session = Session(CIRCUIT)
    for qubit in range(QUBITS):
        session.edit(f"replace {ERROR} X {qubit}")
        detectors = session.bits("detectors")
        observables = session.bits("observables")
        print(f"X {qubit} flips detectors {detectors} and observables {observables}")
        if observables:
            session.edit(f"insert {ERROR} X {qubit}")
            print(f"a second X {qubit} leaves detectors {session.bits('detectors')}")
            session.edit(f"delete {ERROR}")
    print(f"the circuit has {len(session.lines('circuit'))} lines, and the group {len(session.lines('stabilisers'))} rows")
    print(f"status {session.close()}")


if __name__ == "__main__":
    main()
