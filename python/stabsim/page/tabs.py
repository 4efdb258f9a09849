"""Tabs: each has a queue of its own, so that one that does not read keeps no other waiting."""

import asyncio
import json
from collections.abc import Callable, Coroutine
from typing import Any

from aiohttp import WSCloseCode, web

from stabsim.page.board import Message

Start = Callable[[Coroutine[Any, Any, None]], "asyncio.Task[None]"]

# How many characters may wait for a tab that does not read, beside the text that is sent next, of any length.
MOST_WAITING = 1 << 24
# The code and the reason by which such a tab is closed; the page shows the reason.
BEHIND = 4000
REASON = b"This tab did not read what it was sent, and was closed: load the page anew."


class Tab:
    """One tab. What it is to hear is sent as fast as it reads; if too much waits, it is closed, and hears no more than that.

    start: starts a task that is kept until it ends.
    """

    def __init__(self, socket: web.WebSocketResponse, transport: asyncio.BaseTransport | None, start: Start) -> None:
        self.socket = socket
        self.transport = transport
        self.start = start
        # Each text with how many characters are counted of it.
        self.texts: asyncio.Queue[tuple[str, int]] = asyncio.Queue()
        # How many characters are counted that wait.
        self.waiting = 0
        self.is_behind = False
        self.sending = start(self.send())
        self.ending: asyncio.Task[None] | None = None

    def tell(self, message: Message) -> None:
        self.tell_text(json.dumps(message))

    def tell_text(self, text: str) -> None:
        """Puts a text after those that wait."""
        if self.is_behind:
            return
        if self.waiting > MOST_WAITING:
            self.is_behind = True
            self.texts = asyncio.Queue()
            self.end()
            return
        counted = 0 if self.texts.empty() else len(text)
        self.waiting += counted
        self.texts.put_nowait((text, counted))

    async def send(self) -> None:
        """Sends what waits, and what comes, until the tab is gone."""
        while True:
            text, counted = await self.texts.get()
            self.waiting -= counted
            try:
                await self.socket.send_str(text)
            except ConnectionError:
                return

    def end(self) -> "asyncio.Task[None]":
        """Begins to end the connection; the task ends once the tab has read what was sent, or is gone."""
        if self.ending is None:
            self.sending.cancel()
            self.ending = self.start(self.close())
        return self.ending

    async def close(self) -> None:
        code, reason = (BEHIND, REASON) if self.is_behind else (WSCloseCode.OK, b"")
        await self.socket.close(code=code, message=reason)

    def abandon(self) -> None:
        """Ends the connection, whether or not the tab has read what was sent."""
        if isinstance(self.transport, asyncio.WriteTransport):
            self.transport.abort()
