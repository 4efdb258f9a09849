"""The page's server: on 127.0.0.1 alone, for those who have the address with its token."""

import asyncio
import concurrent.futures
import contextlib
import dataclasses
import json
import re
import secrets
from collections.abc import AsyncIterator, Callable, Coroutine
from typing import Any

from aiohttp import WSMsgType, web
from aiohttp.typedefs import Handler

import stabsim
from stabsim.page.board import Board, Message, deterministic_line, shown_of
from stabsim.page.distances import DistanceSearch
from stabsim.page.edits import Edit
from stabsim.page.files import file_response, guard, page_response
from stabsim.page.known import NOT_YET, QUESTIONS, Known
from stabsim.page.lines import repeated, reversed_, taken_out
from stabsim.page.mark_ways import detector_of, mark_of, ways_of
from stabsim.page.nearby import outline_of
from stabsim.page.noise import model_of
from stabsim.page.opening import Opened, opened, with_noise
from stabsim.page.rates import RateCount
from stabsim.page.tabs import Tab

HOST = "127.0.0.1"
# What is asked of the circuit beside edits.
BESIDE = ("written", "ways", "detector")
# The greatest message that a tab may send: a circuit of up to half as many bytes, an item's text, or a question.
MOST_BYTES = 1 << 26
# The longest name that a tab may give its edits, and how many detectors are named at most that lost a record.
MOST_LETTERS = 80
MOST_NAMES = 8
# How long tabs may take to end when the server does.
LAST_SECONDS = 1.0


class Server:
    """One board for all tabs. What is asked of the board is asked in one thread, in the order in which it comes."""

    def __init__(self, board: Board, token: str, public_port: int | None = None) -> None:
        self.board = board
        self.token = token
        # The port by which tabs come, if that is another than the server's own.
        self.public_port = public_port
        self.tabs: set[Tab] = set()
        # Tasks, each kept until it ends: the loop itself would lose them.
        self.tasks: set[asyncio.Task[None]] = set()
        self.one_thread = concurrent.futures.ThreadPoolExecutor(1)
        self.background = concurrent.futures.ThreadPoolExecutor(1)
        self.known = Known()
        self.distances = DistanceSearch(self.tell, self.start)
        self.rates = RateCount(self.tell, self.start)
        # All tabs hear of what happens in the order in which it happens, and one that opens misses nothing.
        self.telling = asyncio.Lock()
        self.port = 0

    def application(self) -> web.Application:
        app = web.Application(middlewares=[self.refuse_strangers])
        app.on_response_prepare.append(guard)
        app.on_shutdown.append(self.close_tabs)
        app.router.add_get("/", self.page)
        app.router.add_get("/session", self.tab)
        app.router.add_get("/static/{name}", self.static)
        return app

    @web.middleware
    async def refuse_strangers(self, request: web.Request, handler: Handler) -> web.StreamResponse:
        """Only this address, from its own pages, and the session with the token alone: the page itself says nothing of it, and keeps the
        token out of its address once it has it."""
        names = {f"{host}:{port}" for host in (HOST, "localhost") for port in (self.port, self.public_port)}
        origin = request.headers.get("Origin")
        if request.headers.get("Host") not in names or (origin is not None and origin not in {f"http://{name}" for name in names}):
            raise web.HTTPForbidden(text="this server answers to its own address alone\n")
        if request.path == "/favicon.ico":
            raise web.HTTPNotFound(text="there is no picture\n")
        if request.path == "/session" or "token" in request.query:
            token = request.query.get("token", "")
            if not secrets.compare_digest(token.encode(), self.token.encode()):
                raise web.HTTPForbidden(text="the address lacks the token that the server printed\n")
        return await handler(request)

    async def page(self, request: web.Request) -> web.Response:
        return page_response()

    async def static(self, request: web.Request) -> web.Response:
        return file_response(request.match_info["name"])

    async def tab(self, request: web.Request) -> web.WebSocketResponse:
        """One tab: it hears all there is, and then each event."""
        # Nothing leaves the machine, so packing would only take time.
        socket = web.WebSocketResponse(max_msg_size=MOST_BYTES, compress=False)
        await socket.prepare(request)
        tab = Tab(socket, request.transport, self.start)
        try:
            await self.tell_all_to(tab)
            async for message in socket:
                if message.type == WSMsgType.TEXT:
                    await self.answer(tab, message.data)
        finally:
            await tab.end()
            self.tabs.discard(tab)
        return socket

    async def tell_all_to(self, tab: Tab) -> None:
        """Says to one tab all there is, when it opens, or has missed an event; it hears of each later event."""
        async with self.telling:
            tab.tell(await self.call(self.board.opened))
            tab.tell(self.distances.told)
            if self.rates.has_said:
                tab.tell(self.rates.told)
            self.tabs.add(tab)
        self.later()

    async def close_tabs(self, app: web.Application) -> None:
        """If a tab is open the server would wait for it; one that does not read is left."""
        for task in list(self.tasks):
            task.cancel()
        if self.tabs:
            await asyncio.wait([tab.end() for tab in self.tabs], timeout=LAST_SECONDS)
        for tab in self.tabs:
            tab.abandon()
        await self.known.close()

    async def prepare(self) -> None:
        """Finds out what the first tab asks for, while the browser loads the page."""
        # If the session has ended, the first tab hears of it.
        with contextlib.suppress(stabsim.StabsimError):
            await self.call(self.board.whole)

    def start(self, work: Coroutine[Any, Any, None]) -> asyncio.Task[None]:
        """Starts a task, which is kept until it ends."""
        task = asyncio.get_running_loop().create_task(work)
        self.tasks.add(task)
        task.add_done_callback(self.tasks.discard)
        return task

    async def call(self, function: Any, *values: Any) -> Any:
        return await asyncio.get_running_loop().run_in_executor(self.one_thread, function, *values)

    async def answer(self, tab: Tab, data: str) -> None:
        """Answers a question, and says to all tabs what it changed."""
        question: Any = None
        try:
            question = json.loads(data)
            if question["ask"] in QUESTIONS and "id" in question:
                self.start(self.look_up(tab, question))
                return
            if question["ask"] in BESIDE and "id" in question:
                self.start(self.tell_beside(tab, question))
                return
            answer = await self.answer_to(tab, question)
        except stabsim.Refused as refused:
            answer = {"refused": "refused" if refused.explanation else f"refused: {plain(refused.name)}", "explanation": refused.explanation}
        except (ValueError, KeyError, TypeError, RecursionError, stabsim.StabsimError, OSError) as fault:
            answer = {"refused": str(fault)}
        if isinstance(question, dict) and "id" in question:
            tab.tell({**answer, "id": question["id"]})

    async def look_up(self, tab: Tab, question: Message) -> None:
        """Answers a question to the table of faults, for which no edit waits; if the circuit was changed meanwhile, nothing is known."""
        age, answer = self.board.age, await self.known.answer_to(question)
        tab.tell_text(answer if age == self.board.age else self.known.nothing(question))

    async def tell_beside(self, tab: Tab, question: Message) -> None:
        """Answers what no edit waits for: with the circuit as it was written, or with the ways of marks."""
        try:
            age, text, kept = await self.call(lambda: (self.board.age, self.board.text(), self.board.kept_text))
            if question.get("age", age) != age:
                raise ValueError("the circuit was changed meanwhile")
            answer = await self.in_background(self.answer_beside, question, text, kept)
        except (ValueError, KeyError, TypeError, stabsim.StabsimError) as fault:
            answer = {"refused": str(fault)}
        tab.tell({**answer, "id": question["id"]})

    def answer_beside(self, question: Message, text: str, kept: Opened) -> Message:
        if question["ask"] == "written":
            return {"text": kept.given.written(text)}
        if question["ask"] == "detector":
            return {"records": detector_of(text, list(map(mark_of, question["marks"])))}
        found = ways_of(text, [list(map(mark_of, marks)) for marks in question["layers"]])
        return {"ways": list(map(dataclasses.asdict, found))}

    async def answer_to(self, tab: Tab, question: Message) -> Message:
        asked = question["ask"]
        if asked in ("edit", "split", "open", "go", "step", "lines", "text", "noise"):
            return await self.changed_by(question)
        if asked == "mark":
            await self.tell_of(self.board.mark)
        elif asked == "saved":
            await self.tell_of(self.board.saved)
        elif asked == "all":
            await self.tell_all_to(tab)
        elif asked == "sign":
            return {"sign": "0+-"[await self.call(self.board.session.sign, str(question["pauli"]))]}
        elif asked == "why":
            return {"coins": await self.call(self.board.coins_of, str(question["bit"]))}
        elif asked == "distance":
            await self.distances.ask(self.call, self.board, str(question["kind"]))
        elif asked == "end distance":
            self.distances.end()
        elif asked == "rate":
            await self.rates.ask(self.call, self.board, str(question["model"]), float(question["chance"]))
        elif asked == "end rate":
            self.rates.end()
        elif asked == "script":
            return {"text": await self.call(self.board.script)}
        elif asked == "save":
            name = await self.call(self.board.save)
            await self.tell_of(self.board.saved)
            return {"said": f"written to {name}"}
        else:
            raise ValueError(f"nothing is known of {asked}")
        return {}

    async def changed_by(self, question: Message) -> Message:
        """Makes what a tab asks to be changed."""
        asked = question["ask"]
        if asked == "split":
            return await self.change(self.board.split, str(question["place"]), int(question["round"]))
        if asked == "open":
            # Other tabs are answered while it is read.
            source = await asyncio.to_thread(opened, str(question["text"]), str(question["name"]))
            return await self.change(self.board.open, source, not question.get("unsaved"))
        if asked == "go":
            return await self.change(self.board.go, int(question["position"]))
        if asked == "step":
            return await self.change(self.board.step, int(question["by"]))
        if asked == "text":
            source = await asyncio.to_thread(opened, str(question["text"]))
            return {**await self.change(self.board.edit_text, source), "said": source.notice}
        if asked == "lines":
            return await self.change(self.edit_lines, question)
        if asked == "noise":
            return await self.put_noise(str(question["model"]), float(question["chance"]))
        edits, inside = [Edit.of_message(it) for it in question["edits"]], question.get("round")
        if not edits:
            raise ValueError("no edit")
        keep = bool(question.get("keep"))
        if inside:
            return await self.change(self.board.edit_in_round, edits, str(inside["place"]), int(inside["number"]), keep)
        return await self.change(self.board.edit, edits, str(question.get("name", ""))[:MOST_LETTERS], keep)

    async def put_noise(self, name: str, chance: float) -> Message:
        """Puts the noise of a model on the circuit, or without a name takes all out; other tabs are answered while it is made."""
        model = model_of(name, chance) if name else None
        age, text, called = await self.call(lambda: (self.board.age, self.board.written(), self.board.source.name))
        source = await asyncio.to_thread(with_noise, text, model, called)
        return await self.change(self.board.put_noise, source, f"noise {name} {chance:g}" if name else "no noise", age)

    def edit_lines(self, question: Message) -> Message:
        """Does something with whole lines, in the board's thread."""
        circuit, place, act = self.board.text(), str(question["place"]), question["act"]
        if act == "repeat":
            return self.board.edit_lines(repeated(circuit, place, int(question["count"]), int(question["rounds"])))
        if act == "take out":
            return self.board.edit_lines(taken_out(circuit, place))
        if act == "reverse":
            return self.board.edit_lines(reversed_(circuit, place, int(question["count"])))
        raise ValueError(f"nothing is known of {act} with lines")

    async def change(self, function: Any, *values: Any) -> Message:
        """Has the board change the circuit, and says it to all tabs. Answers what lost a record, and which rounds were split off."""
        async with self.telling:
            event = await self.call(function, *values)
            lost, split_off = self.board.lost, self.board.split_off
            self.known.why = NOT_YET
            self.tell(event)
            self.distances.changed(self.board.age)
            self.rates.changed(self.board.age)
        self.later()
        return {"split_off": split_off, **({"said": said_of_lost(lost)} if lost else {})}

    async def tell_of(self, function: Callable[[], Message]) -> None:
        """Has the board do something that changes no circuit, and says it to all tabs."""
        async with self.telling:
            self.tell(await self.call(function))

    def tell(self, event: Message) -> None:
        """Says something to all tabs."""
        text = json.dumps(event)
        for tab in self.tabs:
            tab.tell_text(text)

    def later(self) -> None:
        """What is found out once the edit is answered: deterministic bits, and the table of faults."""
        self.start(self.find_out(self.board.age))

    async def find_out(self, age: int) -> None:
        """Both are of the circuit as text, so that the session's thread is free for edits meanwhile."""
        # A person who edits on is not kept waiting for what would be stale.
        await asyncio.sleep(0.2)
        if age != self.board.age:
            return
        try:
            text, kept = await self.call(lambda: (self.board.text(), self.board.kept_text))
            # The next edit that brings or takes records asks for it.
            await self.in_background(outline_of, text)
            if kept.rewritten:
                await self.found_written(age, await self.in_background(shown_of, kept, text))
            if self.board.deterministic is None:
                await self.found_deterministic(age, await self.in_background(deterministic_line, text))
            if self.known.why == NOT_YET and age == self.board.age:
                await self.found_faults(age, await self.known.make(text))
        except (stabsim.StabsimError, ConnectionError):
            # Nothing is said of it; if the session has ended, the next question says so.
            return

    async def found_written(self, age: int, written: list[tuple[str, int, str]]) -> None:
        async with self.telling:
            if age == self.board.age:
                self.tell({"event": "written", "age": age, "written": written})

    async def found_deterministic(self, age: int, line: str) -> None:
        async with self.telling:
            if age == self.board.age:
                self.board.deterministic = line
                self.tell({"event": "deterministic", "age": age, "deterministic": line})

    async def found_faults(self, age: int, why: str) -> None:
        async with self.telling:
            if age == self.board.age:
                self.known.why = why
                self.tell({"event": "faults", "age": age})

    async def in_background(self, function: Any, *values: Any) -> Any:
        return await asyncio.get_running_loop().run_in_executor(self.background, function, *values)


def said_of_lost(names: tuple[str, ...]) -> str:
    """That detectors or observables have lost a record."""
    more = f" and {len(names) - MOST_NAMES} more" if len(names) > MOST_NAMES else ""
    return f"{' '.join(names[:MOST_NAMES])}{more} lost a record that is gone"


def plain(name: str) -> str:
    """The name of a refusal as words, as `too many steps`."""
    return re.sub("(?<!^)(?=[A-Z])", " ", name).lower()


@contextlib.asynccontextmanager
async def listening(server: Server, port: int) -> AsyncIterator[str]:
    """Has a server listen, and gives the address to open."""
    runner = web.AppRunner(server.application())
    await runner.setup()
    try:
        await web.TCPSite(runner, HOST, port).start()
        server.port = runner.addresses[0][1]
        server.start(server.prepare())
        yield f"http://{HOST}:{server.public_port or server.port}/?token={server.token}"
    finally:
        await runner.cleanup()


async def serve(board: Board, port: int, public_port: int | None = None) -> None:
    """Serves until it is stopped, and prints the address to open."""
    async with listening(Server(board, secrets.token_urlsafe(18), public_port), port) as address:
        print(address, flush=True)
        await asyncio.Event().wait()
