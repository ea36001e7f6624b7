"""Connections of clients: how many there may be, and how long one may be silent."""
from __future__ import annotations

import asyncio
import logging
import time
from collections import Counter
from typing import Any

from aiohttp import web

from .config import HEAD_BYTES, Listen
from .refusals import Refusal

LOG = logging.getLogger("office_gateway")


class Connections:
    """All connections, those that have sent no whole head yet, and those on which nobody has
    signed in."""

    def __init__(self, listen: Listen, server: web.Server):
        self._listen = listen
        self._server = server
        # Behind a proxy all connections have one address, and the proxy bounds them.
        self._strangers = listen.strangers if listen.certificate else listen.connections
        self._silent: dict[Any, float] = {}
        self._unknown: dict[Any, str] = {}
        self._addresses: Counter[str] = Counter()

    def made(self) -> asyncio.Protocol:
        """A new connection, or one that is told that there are too many."""
        if len(set(self._server.connections) | set(self._silent)) >= self._listen.connections:
            return Full()
        made = Connection(self, self._server, self._listen.idle_seconds)
        self._silent[made] = time.monotonic()
        return made

    def admits(self, connection: Any, address: str) -> bool:
        """Whether an address may have one more connection on which nobody has signed in."""
        if self._addresses[address] >= self._strangers:
            return False
        self._unknown[connection] = address
        self._addresses[address] += 1
        return True

    def spoke(self, connection: Any) -> None:
        """A whole head came."""
        self._silent.pop(connection, None)

    def known(self, connection: Any) -> None:
        """Somebody has signed in."""
        address = self._unknown.pop(connection, None)
        if address is not None:
            self._addresses[address] -= 1
            if not self._addresses[address]:
                del self._addresses[address]

    def gone(self, connection: Any) -> None:
        """A connection has ended."""
        self.spoke(connection)
        self.known(connection)

    def close_silent(self) -> None:
        """Closes connections that have sent no whole head in time."""
        late = time.monotonic() - self._listen.arrive_seconds
        for connection in [one for one, begun in self._silent.items() if begun < late]:
            if connection.transport is not None:
                connection.transport.abort()
            else:
                self.spoke(connection)


class Connection(web.RequestHandler):
    """A connection. A head that cannot be read is answered as other refusals are, without a word of
    how it was read."""

    def __init__(self, connections: Connections, server: web.Server, idle_seconds: float):
        super().__init__(
            server,
            loop=asyncio.get_running_loop(),
            auto_decompress=False,
            keepalive_timeout=idle_seconds,
            lingering_time=2.0,
            access_log=None,  # type: ignore[arg-type]
            max_line_size=8_190,
            max_headers=HEAD_BYTES,
            max_field_size=8_190,
            debug=False,
        )
        self._connections = connections
        self._admitted = False

    def connection_made(self, transport: Any) -> None:
        """The connection stands."""
        address = (transport.get_extra_info("peername") or ("",))[0]
        self._admitted = self._connections.admits(self, address)
        if self._admitted:
            super().connection_made(transport)
        else:
            refuse(transport)

    def data_received(self, data: bytes) -> None:
        """Bytes came."""
        if self._admitted:
            super().data_received(data)

    def eof_received(self) -> None:
        """No more bytes come."""
        if self._admitted:
            super().eof_received()

    def connection_lost(self, exc: BaseException | None) -> None:
        """The connection has ended."""
        self._connections.gone(self)
        if self._admitted:
            super().connection_lost(exc)

    def handle_error(  # type: ignore[no-untyped-def, override]
        self, request, status=500, exc=None, message=None
    ):
        """The reply to a head that cannot be read."""
        if request.writer.output_size > 0:
            raise ConnectionError("a reply was cut")
        refusal = Refusal(status, "bad-head" if status < 500 else "unavailable")
        if status >= 500:
            LOG.error("a request was not answered", exc_info=exc)
        fields = {"Content-Type": "application/json", "Server": "office"}
        response = web.Response(status=status, body=refusal.json(), headers=fields)
        response.force_close()
        return response


class Full(asyncio.Protocol):
    """A connection beyond the bound: it is told so and closed."""

    def connection_made(self, transport: asyncio.BaseTransport) -> None:
        """The connection stands."""
        refuse(transport)


def refuse(transport: Any) -> None:
    """Tells a client that there are too many connections, and closes this one."""
    body = Refusal(503, "busy").json()
    head = (
        "HTTP/1.1 503 Service Unavailable\r\nContent-Type: application/json\r\n"
        f"Content-Length: {len(body)}\r\nRetry-After: 5\r\nConnection: close\r\n\r\n"
    )
    transport.write(head.encode() + body)
    transport.close()
