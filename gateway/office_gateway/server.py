"""The client of the server: it names the caller, asks, and gives back what was answered."""
from __future__ import annotations

import asyncio
import json
import time
from dataclasses import dataclass
from typing import Any

import aiohttp
from multidict import CIMultiDict
from yarl import URL

from .config import Backend
from .flight import Flight, Spool
from .paths import is_name
from .refusals import Refusal, refusal_of

READS = {"GET", "HEAD", "OPTIONS", "PROPFIND", "REPORT"}
UNSENT = ("User-Agent", "Accept", "Accept-Encoding", "Content-Type")


@dataclass(frozen=True)
class Answer:
    """A reply of the server."""

    status: int
    fields: dict[str, str]
    body: bytes

    def is_refusal(self) -> bool:
        """Whether the server refused."""
        return self.status >= 400

    def json(self) -> Any:
        """The body as JSON."""
        return json.loads(self.body)


class Server:
    """The server, asked over one connection a request, or, by `keep_connections`, over kept ones.

    An edit has a new connection in both cases: on a kept one that the server closes just then,
    nobody knows whether it was done.
    """

    def __init__(self, settings: Backend):
        self._settings = settings
        self._waiting = 0
        self.flight = Flight(settings.flight_bytes)
        self._new: aiohttp.ClientSession | None = None
        self._kept: aiohttp.ClientSession | None = None

    async def open(self) -> None:
        """Makes ready to ask. Nothing is connected yet."""
        self._new = self._session(keep=False)
        self._kept = self._session(keep=True) if self._settings.keep_connections else None

    def _session(self, keep: bool) -> aiohttp.ClientSession:
        """Connections to the server, as many at a time as are set."""
        return aiohttp.ClientSession(
            connector=self._connector(keep),
            cookie_jar=aiohttp.DummyCookieJar(),
            auto_decompress=False,
            skip_auto_headers=UNSENT,
            timeout=aiohttp.ClientTimeout(
                total=None, sock_connect=5, sock_read=self._settings.reply_seconds
            ),
        )

    def _connector(self, keep: bool) -> aiohttp.BaseConnector:
        """What connects to the server: at its socket, where one is set, and else at its port."""
        limit, path = self._settings.connections, self._settings.socket
        if path:
            return aiohttp.UnixConnector(path=path, limit=limit, force_close=not keep)
        return aiohttp.TCPConnector(limit=limit, force_close=not keep)

    async def close(self) -> None:
        """Lets all connections go."""
        for session in (self._new, self._kept):
            if session is not None:
                await session.close()

    async def ask(
        self,
        caller: str,
        method: str,
        path: str,
        body: bytes | dict[str, Any] = b"",
        **fields: str,
    ) -> Answer:
        """Sends one request as this person. `path` is a path of the server, and `fields` has Depth,
        Destination, Overwrite.

        Refusal 503 where the server cannot be reached, does not answer in time, or too many wait.
        """
        data = json.dumps(body, ensure_ascii=False).encode() if isinstance(body, dict) else body
        spool = Spool(self.flight)
        try:
            answer = await self.pass_on(caller, method, path, data, spool, **fields)
            return Answer(answer.status, answer.fields, spool.read())
        finally:
            spool.close()

    async def pass_on(
        self, caller: str, method: str, path: str, body: bytes, spool: Spool, **fields: str
    ) -> Answer:
        """The same, with the body of the reply in `spool` and not in the answer."""
        if not is_name(caller):
            raise Refusal(403, "unknown-caller")
        if self._waiting >= self._settings.waiting:
            raise Refusal(503, "busy", {"Retry-After": "5"})
        self._waiting += 1
        try:
            return await self._ask(caller, method, path, body, fields, spool)
        finally:
            self._waiting -= 1

    async def _ask(
        self,
        caller: str,
        method: str,
        path: str,
        data: bytes,
        fields: dict[str, str],
        spool: Spool,
    ) -> Answer:
        """Asks, again where nothing was sent yet, or where asking twice changes nothing."""
        until = time.monotonic() + self._settings.start_seconds
        while True:
            try:
                spool.clear()
                return await self._once(caller, method, path, data, fields, spool)
            except (aiohttp.ClientError, asyncio.TimeoutError, OSError) as fault:
                unsent = isinstance(fault, aiohttp.ClientConnectorError)
                if not (unsent or method in READS) or time.monotonic() >= until:
                    raise Refusal(503, "unavailable", {"Retry-After": "5"}) from None
                await asyncio.sleep(0.2)

    async def _once(
        self,
        caller: str,
        method: str,
        path: str,
        data: bytes,
        fields: dict[str, str],
        spool: Spool,
    ) -> Answer:
        session = self._kept if self._kept is not None and method in READS else self._new
        assert session is not None
        url = URL.build(
            scheme="http", host=self._settings.host, port=self._settings.port, path=path,
            encoded=True,
        )
        headers = CIMultiDict({"x-office-caller": caller, **fields})
        if session is self._new:
            headers["Connection"] = "close"
        async with session.request(
            method, url, data=data or None, headers=headers, allow_redirects=False
        ) as reply:
            async for part in reply.content.iter_any():
                if spool.size + len(part) > self._settings.reply_bytes:
                    raise Refusal(507, "full")
                spool.write(part)
            told = ("Allow", "Content-Type", "Content-Length")
            kept = {name: reply.headers[name] for name in told if name in reply.headers}
            return Answer(reply.status, kept, b"")

    async def read(
        self,
        caller: str,
        method: str,
        path: str,
        body: bytes | dict[str, Any] = b"",
        **fields: str,
    ) -> Any:
        """What an accepted request answers, as JSON; Refusal where the server refuses."""
        answer = await self.ask(caller, method, path, body, **fields)
        if answer.is_refusal():
            raise refusal_of(answer.status, answer.body)
        try:
            return answer.json()
        except ValueError:
            raise Refusal(502, "unavailable") from None
