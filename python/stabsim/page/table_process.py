"""The process with the table of faults: it reads a question a line, as JSON, and writes a line with the answer (known.py)."""

import json
import signal
import sys

import stabsim
from stabsim import program
from stabsim.page.board import Message
from stabsim.page.moment_faults import Key, MomentFaults, key_of


def main() -> None:
    """Answers questions until there are no more. Ctrl-C ends the server, and by that this."""
    signal.signal(signal.SIGINT, signal.SIG_IGN)
    table = Table()
    for line in sys.stdin.buffer:
        question = json.loads(line)
        text = sys.stdin.buffer.read(question["bytes"])
        if question["ask"] == "table":
            answer = {"why": table.take(program.text_of(text))}
        else:
            answer = {**answer_to(question, table.faults), "id": question["id"]}
        sys.stdout.write(json.dumps(answer, separators=(",", ":")) + "\n")
        sys.stdout.flush()


class Table:
    """The table of the circuit that was taken last, and why there is none, or an empty text."""

    def __init__(self) -> None:
        self.key: Key = ()
        self.faults: MomentFaults | None = None
        self.why = ""

    def take(self, text: str) -> str:
        """Takes a circuit, and answers why there is no table of it. One that an edit has left as it was is not made anew."""
        key = key_of(text)
        if key != self.key:
            self.key, self.faults, self.why = key, *made(text)
        return self.why


def made(text: str) -> tuple[MomentFaults | None, str]:
    try:
        return MomentFaults.of_circuit(text), ""
    except stabsim.Refused as refused:
        return None, f"there is no table of faults: it was refused as {refused.name}"


def answer_to(question: Message, faults: MomentFaults | None) -> Message:
    """What the table says, or why it says nothing."""
    if faults is None:
        return {"why": "there is no table of faults"}
    try:
        return said_of(question, faults)
    except (ValueError, KeyError, TypeError) as fault:
        return {"refused": str(fault)}


def said_of(question: Message, faults: MomentFaults) -> Message:
    asked = question["ask"]
    if asked == "region":
        return {"region": faults.region(str(question["bit"]))}
    moment = int(question["moment"])
    if asked == "slice":
        return {"slice": {bit: (list(letters), "".join(letters.values())) for bit, letters in faults.slice(moment).items()}}
    return {"flips": faults.flips(moment, int(question["qubit"]))}


if __name__ == "__main__":
    main()
