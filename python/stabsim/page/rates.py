"""The logical error rate of the circuit, asked for on the page: of a noise model of the literature that is put on it, by matching."""

import asyncio
import json
import os
import sys
from asyncio.subprocess import DEVNULL, PIPE
from collections.abc import Awaitable, Callable
from typing import Any

from stabsim import program
from stabsim.page.board import Board, Message
from stabsim.page.tabs import Start


class RateCount:
    """What all tabs see of the rate: what was said last of it, and the counting that goes on in a process of its own."""

    def __init__(self, tell: Callable[[Message], None], start: Start) -> None:
        self.tell = tell
        self.start = start
        self.told = message_of("none", 0)
        self.task: asyncio.Task[None] | None = None

    async def ask(self, call: Callable[..., Awaitable[Any]], board: Board, model: str, chance: float) -> None:
        """Begins to count, of the board's circuit, by `call` in the board's thread, with the noise of a model; ends the counting before it."""
        age, text = await call(lambda: (board.age, board.text()))
        self.end()
        self.task = self.start(self.count(age, text, {"model": model, "chance": chance}))

    def end(self) -> None:
        """Ends the counting, if one goes on: what was counted stays."""
        if self.task is not None and not self.task.done():
            self.task.cancel()
            self.say({**self.told, "state": "found" if self.told["shots"] else "none"})

    def changed(self, age: int) -> None:
        """The circuit was changed: what is known is of the circuit before."""
        self.end()
        if not self.has_said:
            return
        found = self.told if self.told["state"] == "found" else self.told["before"]
        self.say({**message_of("none", age), "before": {**found, "before": None} if found else None})

    @property
    def has_said(self) -> bool:
        """Whether a rate was asked for."""
        return self.told["state"] != "none" or self.told["before"] is not None

    def say(self, message: Message) -> None:
        """Says it to all tabs."""
        self.told = message
        self.tell(message)

    async def count(self, age: int, text: str, question: Message) -> None:
        """Has a process count, and says to tabs what it says, until it has counted enough."""
        self.say({**message_of("running", age), **question, "before": self.told["before"]})
        given = program.bytes_of(text)
        process = await asyncio.create_subprocess_exec(
            sys.executable, "-m", "stabsim.page.rate_process", stdin=PIPE, stdout=PIPE, stderr=DEVNULL, env={**os.environ, "PYTHONPATH": os.pathsep.join(sys.path)})
        assert process.stdin and process.stdout
        try:
            process.stdin.write(json.dumps({**question, "bytes": len(given)}).encode() + b"\n" + given)
            await process.stdin.drain()
            async for line in process.stdout:
                self.take(json.loads(line))
        finally:
            if process.returncode is None:
                process.kill()
                await process.wait()
        if self.told["state"] == "running":
            self.say({**self.told, **({"state": "found"} if self.told["shots"] else {"state": "refused", "said": "the process that counts has ended"})})

    def take(self, said: Message) -> None:
        """Takes what the process says."""
        if "refused" in said:
            self.say({**self.told, "state": "refused", "said": said["refused"]})
        else:
            self.say({**self.told, **said})


def message_of(state: str, age: int) -> Message:
    """What tabs hear: `state` is none, running, refused or found. rate: the least, the likeliest and the greatest that explain the errors in the
    shots so far; said: why it was refused; before: what was found before the circuit was changed, or None."""
    return {"event": "rate", "state": state, "age": age, "model": "", "chance": 0.0, "shots": 0, "errors": 0, "rate": [], "said": "", "before": None}
