"""The distance of the circuit, asked for on the page: the least number of errors that flip an observable and no detector."""

import asyncio
import os
from collections.abc import Awaitable, Callable
from typing import Any

import stabsim
from stabsim.page.board import Board, Message
from stabsim.page.distance_questions import EVERYWHERE, KINDS, MARKED, errors_marked, question_of
from stabsim.page.noise import OWN, has_noise
from stabsim.page.tabs import Start
from stabsim.questions.distance_search import Search
from stabsim.questions.distances import Distance, distance_of
from stabsim.text.reading import items_of

# Up to how many marked errors the session itself is asked, and up to how many errors in a set: it answers at once then.
MOST_AT_ONCE = 3000
MOST_IN_SET = 4


class DistanceSearch:
    """What all tabs see of the distance: what was said last of it, and the search that goes on in processes of its own."""

    def __init__(self, tell: Callable[[Message], None], start: Start) -> None:
        self.tell = tell
        self.start = start
        self.told = message_of("none", 0)
        self.task: asyncio.Task[None] | None = None

    async def ask(self, call: Callable[..., Awaitable[Any]], board: Board, chosen: str) -> None:
        """Asks for the distance of the board's circuit, by `call` in the board's thread: of errors of the kind that is chosen, or with "" of
        its own noise, else of those that it marks, else of all. ValueError if there is no such kind."""
        if chosen and chosen not in KINDS:
            raise ValueError(f"there are no errors {chosen}")
        age, text, printed = await call(lambda: (board.age, board.text(), board.session.printed()))
        count = errors_marked(items_of(printed))
        kind = chosen or (OWN if has_noise(text) else MARKED if count else EVERYWHERE)
        if kind == MARKED and 0 < count <= MOST_AT_ONCE:
            try:
                found = distance_of("\n".join(await call(board.distance, MOST_IN_SET)))
            except stabsim.Refused as fault:
                self.say("refused", age, said=" ".join(str(fault).split()))
                return
            if found.most is None:
                self.found(age, kind, found)
                return
        # What the program prints has noise in tags, which it does not read.
        self.begin(age, kind, text if kind == OWN else printed)

    def found(self, age: int, kind: str, found: Distance) -> None:
        """Says what was found, of the circuit of an age."""
        errors = [{"steps": it.steps, "path": it.path, "name": str(it), "record": it.record} for it in found.errors]
        self.say("found", age, kind=kind, first=str(found), errors=errors)

    def begin(self, age: int, kind: str, text: str) -> None:
        """Begins to look, and ends the search before it."""
        self.end()
        self.task = self.start(self.search(age, kind, text))

    def end(self) -> None:
        """Ends the search, if one goes on."""
        if self.task is not None and not self.task.done():
            self.task.cancel()
            self.say("none", self.told["age"], said="the search was stopped")

    def changed(self, age: int) -> None:
        """The circuit was changed: what is known is of the circuit before."""
        self.end()
        if self.told["state"] == "none" and not self.told["said"]:
            self.told["age"] = age
        else:
            self.say("none", age)

    def say(self, state: str, age: int, **more: Any) -> None:
        """Says it to all tabs, with what was found before the circuit was changed."""
        before = self.told["first"] if self.told["first"] and self.told["age"] != age else self.told["before"]
        self.told = message_of(state, age, before=before, **more)
        self.tell(self.told)

    async def search(self, age: int, kind: str, text: str) -> None:
        """Has all processors look, and says to tabs how far they are, until the answer is there."""
        self.say("running", age, kind=kind)
        try:
            found = await self.distance_of(age, kind, text)
        except stabsim.StabsimError as fault:
            self.say("refused", age, said=" ".join(str(fault).split()))
            return
        self.found(age, kind, found)

    async def distance_of(self, age: int, kind: str, text: str) -> Distance:
        """The distance by what the program writes."""
        loop, task, workers = asyncio.get_running_loop(), asyncio.current_task(), len(os.sched_getaffinity(0))

        def told(said: str) -> None:
            # What was said before the search was stopped may come after that.
            if task and not task.cancelling():
                self.say("running", age, kind=kind, said=said)

        def hear(excluded: int, done: int) -> None:
            said = f"no set of {excluded}" * (excluded > 0) + f"; of {excluded + 1}, {done} of {workers} parts" * (done > 0)
            loop.call_soon_threadsafe(told, said.removeprefix("; "))

        question = await asyncio.to_thread(question_of, kind, text)
        search = Search(question.text, question.words, workers, hear)
        try:
            return question.read(await asyncio.to_thread(search.answer))
        finally:
            search.end()


def message_of(state: str, age: int, *, kind: str = "", first: str = "", errors: list[Message] | None = None, said: str = "",
               before: str = "") -> Message:
    """What tabs hear: `state` is none, running, refused or found. kind: of which errors; first: the first line of the answer, as `distance 3 of
    all marked errors`; errors: those of the set; said: what is said else; before: the first line of the answer before the last edits."""
    return {"event": "distance", "state": state, "age": age, "kind": kind, "first": first, "errors": errors or [], "said": said, "before": before}
