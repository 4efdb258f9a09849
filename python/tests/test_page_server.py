"""The page's server and its tabs: one that does not read, one that opens while something is sent, and what the server keeps."""

import asyncio
import gc
import importlib.util
import json
import threading

import pytest

pytestmark = pytest.mark.skipif(importlib.util.find_spec("aiohttp") is None, reason="aiohttp is missing")

if importlib.util.find_spec("aiohttp"):
    import aiohttp
    from stabsim.page import server as serving
    from stabsim.page import table_process, tabs
    from stabsim.page.board import Board
    from stabsim.page.opening import opened_of
    from stabsim.page.server import Server, listening

CODE = "R 0\nM 0\nDETECTOR rec[-1]\n"
# The longest that anything is waited for.
SECONDS = 120


class Asking:
    """A tab as the server sees it: it asks, and keeps what it is sent."""

    def __init__(self, socket):
        self.socket = socket
        self.told = []

    async def hear(self, test):
        """Reads until a message passes a test, and answers with it."""
        async with asyncio.timeout(SECONDS):
            while True:
                self.told.append(json.loads(await self.socket.receive_str()))
                if test(self.told[-1]):
                    return self.told[-1]

    async def ask(self, **question):
        await self.socket.send_json({**question, "id": 1})
        return await self.hear(lambda message: message.get("id") == 1)


def run_with_server(tmp_path, code, work):
    """Has `work(server, connect)` done, where `connect()` opens a tab. The tabs outlive the server."""

    async def all_of_it():
        file = tmp_path / "circuit.stim"
        file.write_text(code)
        board = Board(opened_of(str(file)))
        server = Server(board, "token")
        opened = []
        async with asyncio.timeout(2 * SECONDS), aiohttp.ClientSession() as session, listening(server, 0):

            async def connect():
                opened.append(await session.ws_connect(f"http://127.0.0.1:{server.port}/session?token=token", max_msg_size=0))
                return Asking(opened[-1])

            await work(server, connect)
        board.close()

    asyncio.run(all_of_it())


async def tell_until_one_is_behind(server, tab):
    """Has a tab set marks, about each of which much is sent, until another, which does not read, has more waiting than may."""
    server.board.mark = lambda: {"event": "marked", "position": 0, "more": "so long" * 100_000}
    while not any(it.is_behind for it in server.tabs):
        assert "refused" not in await tab.ask(ask="mark")


def test_a_tab_that_does_not_read_is_closed_and_keeps_no_other_waiting(tmp_path, monkeypatch):
    monkeypatch.setattr(tabs, "MOST_WAITING", 1 << 20)

    async def work(server, connect):
        slow, quick = await connect(), await connect()
        await tell_until_one_is_behind(server, quick)
        async with asyncio.timeout(SECONDS):
            while (message := await slow.socket.receive()).type == aiohttp.WSMsgType.TEXT:
                pass
        assert (message.type, message.data, message.extra) == (aiohttp.WSMsgType.CLOSE, tabs.BEHIND, tabs.REASON.decode())
        assert "refused" not in await quick.ask(ask="go", position=0)

    run_with_server(tmp_path, CODE, work)


def test_the_server_ends_where_a_tab_does_not_read(tmp_path, monkeypatch):
    monkeypatch.setattr(tabs, "MOST_WAITING", 1 << 20)

    async def work(server, connect):
        await connect()
        await tell_until_one_is_behind(server, await connect())

    # Less than the time for which aiohttp waits for a connection that is open.
    run_with_server(tmp_path, CODE, work)


def test_an_event_comes_before_the_answer_to_what_caused_it(tmp_path):
    async def work(server, connect):
        tab = await connect()
        await tab.ask(ask="edit", edits=[{"kind": "insert", "place": "0", "item": "X 0"}])
        kinds = [message.get("event", "answer") for message in tab.told]
        assert kinds.index("edited") < kinds.index("answer")

    run_with_server(tmp_path, CODE, work)


def test_a_tab_that_opens_while_deterministic_bits_are_told_is_told_them_too(tmp_path, monkeypatch):
    finding, found, opening, go_on = (threading.Event() for _ in range(4))

    def deterministic_line(text):
        finding.set()
        assert found.wait(SECONDS)
        return "1"

    monkeypatch.setattr(serving, "deterministic_line", deterministic_line)

    async def work(server, connect):
        told, tell = asyncio.Event(), server.found_deterministic

        async def found_deterministic(*values):
            told.set()
            await tell(*values)

        server.found_deterministic = found_deterministic
        await connect()
        assert await asyncio.to_thread(finding.wait, SECONDS)
        opened = server.board.opened

        def opened_slowly():
            told = opened()
            opening.set()
            assert go_on.wait(SECONDS)
            return told

        server.board.opened = opened_slowly
        second = await connect()
        assert await asyncio.to_thread(opening.wait, SECONDS)
        # The deterministic bits are there once the second tab has been looked up, and before it hears of events.
        found.set()
        await told.wait()
        go_on.set()
        await second.hear(lambda message: message.get("deterministic") == "1")

    run_with_server(tmp_path, CODE, work)


def test_tasks_are_kept_until_they_end(tmp_path):
    async def work(server, connect):
        tab = await connect()
        await tab.hear(lambda message: message.get("event") == "opened")
        ended = []

        async def waiting():
            await asyncio.get_running_loop().create_future()

        task = server.start(waiting())
        task.add_done_callback(ended.append)
        names = {it.get_coro().__name__ for it in server.tasks}
        assert {"find_out", "send", "waiting"} <= names
        del task
        gc.collect()
        await tab.hear(lambda message: message.get("event") == "faults")
        assert not ended and "waiting" in {it.get_coro().__name__ for it in server.tasks}
        assert "find_out" not in {it.get_coro().__name__ for it in server.tasks}

    run_with_server(tmp_path, CODE, work)


def test_the_table_of_faults_is_made_anew_after_its_process_has_ended(tmp_path):
    async def work(server, connect):
        tab = await connect()
        await tab.hear(lambda message: message.get("event") == "faults")
        region = await tab.ask(ask="region", bit="D0")
        assert region["region"] == {"0": {"0": "Z"}}
        server.known.process.kill()
        for _ in range(2):
            assert "has ended" in (await tab.ask(ask="region", bit="D0"))["why"]
        await tab.ask(ask="edit", edits=[{"kind": "insert", "place": "3", "item": "X 0"}])
        await tab.hear(lambda message: message.get("event") == "faults")
        assert await tab.ask(ask="region", bit="D0") == region

    run_with_server(tmp_path, CODE, work)


def test_the_table_of_faults_is_not_made_anew_if_an_edit_leaves_it(monkeypatch):
    made = []
    monkeypatch.setattr(table_process, "made", lambda text: (made.append(text), "")[::-1])
    table = table_process.Table()
    block = "R 0\nREPEAT {} {{\n    TICK\n    H 0\n{}}}\n"
    for text in (block.format(5, ""), "QUBIT_COORDS(0, 1) 0\n" + block.format(5, ""), block.format(5, "    X 0\n").replace("R 0\n", "R 0\nZ 0\n"),
                 block.format(2, "") + (block.format(1, "    Y 0\n") + block.format(2, "")).replace("R 0\n", "")):
        table.take(text + "M 0\n")
    assert len(made) == 1
    for text in (block.format(6, ""), block.format(6, "    H 0\n"), block.format(6, "    H 0\n") + "TICK\n"):
        table.take(text + "M 0\n")
    assert len(made) == 4


def test_a_question_that_is_none_is_answered_and_the_tab_goes_on(tmp_path):
    async def work(server, connect):
        tab = await connect()
        await tab.socket.send_str("no question")
        await tab.socket.send_json([1, 2])
        await tab.socket.send_str("[" * 200_000)
        assert "nothing is known" in (await tab.ask(ask="weather"))["refused"]

    run_with_server(tmp_path, CODE, work)


def test_a_refusal_is_told_with_what_is_wrong(tmp_path):
    async def work(server, connect):
        tab = await connect()
        answer = await tab.ask(ask="edit", edits=[{"kind": "insert", "place": "1", "item": "MXX 0 1"}])
        assert answer["refused"] == "refused"
        assert answer["explanation"].split("\n")[:2] == ["MXX 0 1", "^^^"] and "MPP X0*X1" in answer["explanation"]

    run_with_server(tmp_path, CODE, work)


def test_a_circuit_that_is_longer_than_what_may_wait_is_sent_whole(tmp_path, monkeypatch):
    monkeypatch.setattr(tabs, "MOST_WAITING", 40)

    async def work(server, connect):
        tab = await connect()
        assert (await tab.hear(lambda message: message.get("event") == "opened"))["circuit"] == CODE
        await tab.ask(ask="edit", edits=[{"kind": "insert", "place": "0", "item": "X 0"}])

    run_with_server(tmp_path, CODE, work)


def test_while_a_circuit_is_read_other_tabs_are_answered(tmp_path, monkeypatch):
    begun, go_on, opened = threading.Event(), threading.Event(), serving.opened

    def slowly(*given):
        begun.set()
        assert go_on.wait(SECONDS)
        return opened(*given)

    monkeypatch.setattr(serving, "opened", slowly)

    async def work(server, connect):
        tab, other = await connect(), await connect()
        await tab.socket.send_json({"ask": "open", "text": "H 0\n", "name": "slow.stim", "id": 1})
        await asyncio.to_thread(begun.wait, SECONDS)
        await other.ask(ask="edit", edits=[{"kind": "insert", "place": "0", "item": "X 0"}])
        assert server.board.text() == "X 0\n" + CODE
        go_on.set()
        await tab.hear(lambda message: message.get("id") == 1)
        assert server.board.text() == "H 0\n"

    run_with_server(tmp_path, CODE, work)


def test_all_tabs_hear_that_the_circuit_was_saved(tmp_path):
    async def work(server, connect):
        tab, other = await connect(), await connect()
        await tab.ask(ask="edit", edits=[{"kind": "insert", "place": "0", "item": "X 0"}])
        await tab.ask(ask="saved")
        assert (await other.hear(lambda message: message.get("event") == "saved"))["position"] == 1

    run_with_server(tmp_path, CODE, work)
