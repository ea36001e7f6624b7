"""The client of the server, against a listener that tells how it was asked."""
from __future__ import annotations

import asyncio
import tempfile
import unittest

from office_gateway.config import Backend
from office_gateway.refusals import Refusal
from office_gateway.server import Server


class Listener:
    """Answers requests on loopback, and counts connections.

    `answers` says what it does with the requests to come.
    """

    def __init__(self) -> None:
        self.connections = 0
        self.heads: list[bytes] = []
        self.answers: list[str] = []
        self.server: asyncio.Server | None = None

    async def start(self) -> int:
        """Listens on a free port."""
        self.server = await asyncio.start_server(self.serve, "127.0.0.1", 0)
        return self.server.sockets[0].getsockname()[1]

    async def start_at(self, path: str) -> None:
        """Listens at a Unix socket."""
        self.server = await asyncio.start_unix_server(self.serve, path)

    async def serve(self, reader: asyncio.StreamReader, writer: asyncio.StreamWriter) -> None:
        """One connection."""
        self.connections += 1
        try:
            while True:
                head = await reader.readuntil(b"\r\n\r\n")
                self.heads.append(head)
                lines = head.lower().split(b"\r\n")
                sizes = [int(line[15:]) for line in lines if line.startswith(b"content-length:")]
                length = sizes[0] if sizes else 0
                await reader.readexactly(length)
                answer = self.answers.pop(0) if self.answers else "ok"
                if answer == "cut":
                    break
                body = b"x" * 5_000 if answer == "large" else b"{}"
                start = b"HTTP/1.1 200 OK\r\nContent-Type: application/json\r\n"
                writer.write(start + b"Content-Length: %d\r\n\r\n" % len(body) + body)
                await writer.drain()
                if b"connection: close" in head.lower():
                    break
        except (asyncio.IncompleteReadError, ConnectionError):
            pass
        writer.close()


class Asking(unittest.IsolatedAsyncioTestCase):
    """What the server is sent."""

    async def asking(self, **settings: object) -> tuple[Server, Listener]:
        """A client and the listener that it asks."""
        listener = Listener()
        port = await listener.start()
        settings = {"start_seconds": 60.0, "reply_seconds": 60.0, **settings}
        server = Server(Backend(port=port, **settings))  # type: ignore[arg-type]
        await server.open()
        self.addAsyncCleanup(server.close)
        assert listener.server is not None
        self.addCleanup(listener.server.close)
        return server, listener

    async def test_one_connection_a_request(self) -> None:
        server, listener = await self.asking()
        for _ in range(3):
            await server.read("ann", "PROPFIND", "/books", {"prop": ["displayname"]}, Depth="1")
        self.assertEqual(listener.connections, 3)
        head = listener.heads[0].decode()
        self.assertTrue(head.startswith("PROPFIND /books HTTP/1.1\r\n"), head)
        names = sorted(line.partition(":")[0].lower() for line in head.split("\r\n")[1:] if line)
        wanted = ["connection", "content-length", "depth", "host", "x-office-caller"]
        self.assertEqual(names, wanted)

    async def test_kept_connections_for_reads_and_new_ones_for_edits(self) -> None:
        server, listener = await self.asking(keep_connections=True, connections=2)
        for _ in range(3):
            await server.ask("ann", "GET", "/books/a/b")
        self.assertEqual(listener.connections, 1)
        await server.ask("ann", "PUT", "/books/a/b", b"x")
        await server.ask("ann", "DELETE", "/books/a/b")
        self.assertEqual(listener.connections, 3)

    async def test_the_socket_is_asked_in_the_place_of_the_port(self) -> None:
        with tempfile.TemporaryDirectory() as folder:
            listener, path = Listener(), f"{folder}/socket"
            settings = Backend(port=1, socket=path, keep_connections=True, start_seconds=60.0)
            server = Server(settings)
            await server.open()
            self.addAsyncCleanup(server.close)
            asked = asyncio.create_task(server.ask("ann", "PUT", "/books/a/b", b"x"))
            await asyncio.sleep(0.1)
            await listener.start_at(path)
            assert listener.server is not None
            self.addCleanup(listener.server.close)
            self.assertEqual((await asked).status, 200)
            for _ in range(2):
                await server.ask("ann", "GET", "/books/a/b")
            self.assertEqual((listener.connections, len(listener.heads)), (2, 3))

    async def test_a_read_is_asked_again_and_an_edit_is_not(self) -> None:
        server, listener = await self.asking()
        listener.answers = ["cut", "ok"]
        self.assertEqual((await server.ask("ann", "GET", "/books/a/b")).status, 200)
        self.assertEqual(len(listener.heads), 2)
        listener.answers = ["cut", "ok"]
        with self.assertRaises(Refusal) as caught:
            await server.ask("ann", "PUT", "/books/a/b", b"x")
        self.assertEqual((caught.exception.status, len(listener.heads)), (503, 3))

    async def test_bounds(self) -> None:
        server, listener = await self.asking(reply_bytes=1_000, waiting=1)
        listener.answers = ["large"]
        with self.assertRaises(Refusal) as caught:
            await server.ask("ann", "GET", "/books/a/b")
        self.assertEqual(caught.exception.status, 507)
        asked = [server.ask("ann", "GET", "/") for _ in range(2)]
        both = await asyncio.gather(*asked, return_exceptions=True)
        self.assertEqual(sorted(type(one).__name__ for one in both), ["Answer", "Refusal"])
        for caller in ("", "a\r\nx-office-caller: b", "../b", "a b"):
            with self.assertRaises(Refusal):
                await server.ask(caller, "GET", "/")


if __name__ == "__main__":
    unittest.main()
