"""The table of faults of the circuit: a process of its own makes and reads it, so that no edit and no picture waits for that."""

import asyncio
import contextlib
import json
import os
import sys
from asyncio.subprocess import PIPE, Process

from stabsim import program
from stabsim.page.board import Message

# Why there is no table of faults, once an edit was made.
NOT_YET = "the table of faults is being made"
# What is asked of the table.
QUESTIONS = ("faults", "region", "slice")
# The longest answer, in bytes.
MOST_BYTES = 1 << 28


class Known:
    """The table in its process (table_process.py), and why it says nothing of the circuit as it is, or an empty text."""

    def __init__(self) -> None:
        self.why = NOT_YET
        self.process: Process | None = None
        self.asking = asyncio.Lock()

    async def make(self, text: str) -> str:
        """Has the table of a circuit made; answers why there is none, or with an empty text."""
        return str(json.loads(await self.ask({"ask": "table"}, program.bytes_of(text)))["why"])

    async def answer_to(self, question: Message) -> str:
        """What Paulis flip, the region of a bit, or all regions at the end of a moment, as the tab is told it; or why that is not known."""
        with contextlib.suppress(ConnectionError):
            if not self.why:
                return await self.ask(question)
        return self.nothing(question)

    def nothing(self, question: Message) -> str:
        """Why nothing is known, as an answer."""
        return json.dumps({"why": self.why, "id": question["id"]})

    async def ask(self, question: Message, text: bytes = b"") -> str:
        """Asks the process, with a text that follows the question, and answers what it says."""
        async with self.asking:
            # For one that has ended a new one begins with a table; it has none to look up.
            if self.process is None or (question["ask"] == "table" and self.process.returncode is not None):
                self.process = await asyncio.create_subprocess_exec(
                    sys.executable, "-m", "stabsim.page.table_process", stdin=PIPE, stdout=PIPE, limit=MOST_BYTES,
                    env={**os.environ, "PYTHONPATH": os.pathsep.join(sys.path)})
            assert self.process.stdin and self.process.stdout
            self.process.stdin.write(json.dumps({**question, "bytes": len(text)}).encode() + b"\n" + text)
            # If the process has ended there is no more to read.
            with contextlib.suppress(ConnectionError):
                await self.process.stdin.drain()
            answer = await self.process.stdout.readline()
        if not answer.endswith(b"\n"):
            self.why = "the process with the table of faults has ended"
            raise ConnectionError(self.why)
        return answer.decode()

    async def close(self) -> None:
        """Ends the process, whatever it does."""
        if self.process is not None and self.process.returncode is None:
            self.process.kill()
            await self.process.wait()
