"""What `/health` answers to whoever watches the office: which of gateway and server is there."""
from __future__ import annotations

import asyncio
import time

from .calls import Reply, json_reply
from .refusals import Refusal
from .server import Server

PATH = "/health"
# Seconds that the server has to answer, and for which an answer is told again.
ANSWER_SECONDS = 2.0
KEPT_SECONDS = 1.0


class Health:
    """Asks the server, at most once a second, whoever asks."""

    def __init__(self, server: Server, service: str):
        self._server = server
        self._service = service or "health"
        self._lock = asyncio.Lock()
        self._is_there = False
        self._until = 0.0

    async def reply(self) -> Reply:
        """200 where both are there, 503 where the server is not. It says which."""
        async with self._lock:
            if time.monotonic() >= self._until:
                self._is_there = await self._asked()
                self._until = time.monotonic() + KEPT_SECONDS
        server = "ok" if self._is_there else "unavailable"
        reply = json_reply({"gateway": "ok", "server": server}, 200 if self._is_there else 503)
        reply.fields["Cache-Control"] = "no-store"
        return reply

    async def _asked(self) -> bool:
        """Whether the server answers. A refusal is an answer, also of a person it does not know."""
        try:
            asked = self._server.ask(self._service, "OPTIONS", "/")
            answer = await asyncio.wait_for(asked, ANSWER_SECONDS)
        except (Refusal, asyncio.TimeoutError):
            return False
        return answer.status < 500
