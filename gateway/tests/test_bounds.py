"""Bounds on what is told: names in a request, replies on their way, long queries, connections."""
from __future__ import annotations

import asyncio
import contextlib
import http.client
import shutil
import socket
import ssl
import subprocess
import tempfile
import threading
import time
import unittest
from pathlib import Path
from xml.etree.ElementTree import fromstring

import bcrypt

from office_gateway.answers import Answers
from office_gateway.calls import Call
from office_gateway.copies import Copies
from office_gateway.offers import Offers
from office_gateway.reports import Reports
from office_gateway.resources import Resources
from office_gateway.syncing import Syncing
from office_gateway.told import Told
from office_gateway.turns import Turns
from tests.test_copies import Book
from tests.test_dav import SALES, propfind, vcard
from tests.world import GATEWAY, PASSWORDS, World, await_port, basic, free_port, program

# A reply of the far server in the tests of replies on their way.
LARGE = 60_000_000


class Far:
    """In place of the server: each REPORT is answered by as many bytes of JSON."""

    def __init__(self, size: int):
        self._body = b'{"responses":[' + b" " * size + b'],"sync-token":""}'
        self.listener = socket.create_server(("127.0.0.1", 0), backlog=64)
        threading.Thread(target=self.run, daemon=True).start()

    @property
    def port(self) -> int:
        """Where it listens."""
        return self.listener.getsockname()[1]

    def run(self) -> None:
        """Takes connections, each in a thread."""
        while True:
            try:
                near, _ = self.listener.accept()
            except OSError:
                return
            threading.Thread(target=self.answer, args=(near,), daemon=True).start()

    def answer(self, near: socket.socket) -> None:
        """One reply."""
        with near, contextlib.suppress(OSError):
            near.settimeout(60)
            data = b""
            while b"\r\n\r\n" not in data:
                data += near.recv(65_536)
            head = f"HTTP/1.1 207 Multi-Status\r\nContent-Length: {len(self._body)}\r\n\r\n"
            near.sendall(head.encode() + self._body)


class Alone:
    """A gateway without a server, or before another port."""

    def __init__(self, listen: str = "", server: str = "", scheme: str = "http"):
        self.folder = tempfile.TemporaryDirectory(prefix="office-gateway-")
        self.path = Path(self.folder.name)
        self.port = free_port()
        hashed = bcrypt.hashpw(b"kopf-1", bcrypt.gensalt(10)).decode()
        (self.path / "passwords").write_text(f"head:{hashed}\n")
        origin = f"{scheme}://127.0.0.1:{self.port}"
        (self.path / "gateway.toml").write_text(
            f'[listen]\nport = {self.port}\norigins = ["{origin}"]\narrive_seconds = 30\n{listen}'
            f"[server]\n{server}"
        )
        self.log = open(self.path / "gateway.log", "wb")  # pylint: disable=consider-using-with
        self.process: subprocess.Popen[bytes] | None = None

    def start(self) -> None:
        """Starts the gateway."""
        words = [str(GATEWAY / "serve"), str(self.path / "gateway.toml")]
        self.process = subprocess.Popen(words, stdout=subprocess.DEVNULL, stderr=self.log)
        await_port(self.port)

    def close(self) -> None:
        """Ends the gateway, and removes its folder."""
        if self.process is not None:
            self.process.terminate()
            self.process.wait(20)
        self.log.close()
        self.folder.cleanup()

    def peak(self) -> int:
        """Kilobytes that the gateway had at most."""
        assert self.process is not None
        status = Path(f"/proc/{self.process.pid}/status").read_text()
        return int(status.partition("VmHWM:")[2].split()[0])


@unittest.skipUnless(program(), "the server's program is named in BOOK_DESK, or made by make build")
class Bounds(unittest.TestCase):
    """One server and one gateway for all."""

    world: World

    @classmethod
    def setUpClass(cls) -> None:
        cls.world = World()

    @classmethod
    def tearDownClass(cls) -> None:
        logged = cls.world.logged()
        cls.world.close()
        if "Traceback" in logged:
            raise AssertionError(logged[logged.index("Traceback") :][:3000])

    def test_names_in_a_request(self) -> None:
        self.world.say("head", "PUT", SALES + "a.vcf", vcard("A"))
        rows = {64: 207, 65: 400, 1_000: 400}
        for count, status in rows.items():
            body = propfind(*(f"n{number}" for number in range(count)))
            told = self.world.say("head", "PROPFIND", SALES, body, Depth="1")
            with self.subTest(count):
                self.assertEqual(told.status, status)
        for name in ("allprop", "propname"):
            body = f'<propfind xmlns="DAV:"><{name}/></propfind>'
            told = self.world.say("head", "PROPFIND", SALES, body, Depth="1")
            self.assertEqual(told.status, 207)

    def test_a_long_answer_comes_in_pieces(self) -> None:
        for number in range(3):
            card = vcard("L", f"NOTE:{'x' * 40_000}")
            self.world.say("head", "PUT", f"{SALES}{number}.vcf", card)
        body = propfind("getetag", "c:address-data")
        told = self.world.say("head", "PROPFIND", SALES, body, Depth="1")
        self.assertEqual((told.status, told.fields["Transfer-Encoding"]), (207, "chunked"))
        self.assertEqual(len(fromstring(told.body).findall("{DAV:}response")), 4)
        told = self.world.say("head", "PROPFIND", SALES, propfind("getetag"), Depth="1")
        self.assertEqual(told.fields["Content-Length"], str(len(told.body)))
        # A client that goes away in the midst of an answer leaves nothing behind.
        head = f"PROPFIND {SALES} HTTP/1.1\r\nHost: 127.0.0.1:{self.world.port}\r\n"
        head += f"Authorization: {basic('head', PASSWORDS['head'])}\r\nDepth: 1\r\n"
        head += f"Content-Length: {len(body)}\r\n\r\n{body}"
        address = ("127.0.0.1", self.world.port)
        with contextlib.closing(socket.create_connection(address, 20)) as one:
            one.sendall(head.encode())
            self.assertTrue(one.recv(1_000).startswith(b"HTTP/1.1 207"))
        self.assertEqual(self.world.say("head", "GET", SALES + "0.vcf").status, 200)


class Flights(unittest.TestCase):
    """Large replies of the server, read by slow clients."""

    def setUp(self) -> None:
        self.far = Far(LARGE)
        self.addCleanup(self.far.listener.close)
        bounds = f"connections = 8\nflight_bytes = {5 * LARGE}\n"
        self.gateway = Alone(server=f"port = {self.far.port}\n{bounds}")
        self.addCleanup(self.gateway.close)
        self.gateway.start()

    def asked(self) -> http.client.HTTPConnection:
        """A report that is asked for, of which nothing is read yet."""
        connection = http.client.HTTPConnection("127.0.0.1", self.gateway.port, timeout=60)
        fields = {"Authorization": basic("head", "kopf-1")}
        body = b'{"report":"sync-collection","sync-token":""}'
        connection.request("REPORT", "/books/sales", body, fields)
        return connection

    def test_their_sum_is_bounded(self) -> None:
        slow = [self.asked() for _ in range(8)]
        replies = [connection.getresponse() for connection in slow]
        statuses = sorted(reply.status for reply in replies)
        self.assertIn(statuses.count(207), (3, 4))
        self.assertEqual(statuses.count(207) + statuses.count(503), 8)
        for reply in replies:
            size = len(reply.read())
            self.assertTrue(reply.status == 503 or size > LARGE, size)
        for connection in slow:
            connection.close()
        with contextlib.closing(self.asked()) as again:
            self.assertEqual(again.getresponse().status, 207)
        self.assertLess(self.gateway.peak(), 200_000)


class Queries(unittest.IsolatedAsyncioTestCase):
    """Long queries, and what is served meanwhile."""

    async def test_others_are_served_between_slices(self) -> None:
        asyncio.get_running_loop().set_debug(False)
        book = Book()
        for number in range(300):
            book.put(f"c{number}", vcard(f"Nr {number}", "EMAIL:a@b.example", "ORG:Linden;Sales"))
        # Each step ends a slice, so that the number of turns rests on no time.
        told, turns = Told(None, 100_000), Turns(0.0)
        self.addCleanup(told.close)
        copies = Copies(book, 100_000_000, turns)  # type: ignore[arg-type]
        syncing = Syncing(copies, told)
        offers = Offers(book, {}, False)  # type: ignore[arg-type]
        resources = Resources(book, copies, syncing, offers, "")  # type: ignore[arg-type]
        reports = Reports(copies, syncing, resources, Answers(turns, "4.0"), turns)
        condition = '<c:prop-filter name="EMAIL"><c:text-match>zz{}</c:text-match></c:prop-filter>'
        body = (
            '<c:addressbook-query xmlns:d="DAV:" xmlns:c="urn:ietf:params:xml:ns:carddav"><d:prop>'
            f'<d:getetag/></d:prop><c:filter>{"".join(map(condition.format, range(95)))}</c:filter>'
            "</c:addressbook-query>"
        ).encode()
        await copies.read("ann", "b")
        waits: list[float] = []

        async def others() -> None:
            while True:
                begun = time.monotonic()
                await asyncio.sleep(0)
                waits.append(time.monotonic() - begun)

        served = asyncio.create_task(others())
        call = Call("REPORT", "/dav/books/b/", {}, body, "ann")
        replies = await asyncio.gather(*(reports.report(call, "/books/b") for _ in range(4)))
        served.cancel()
        self.assertEqual([reply.status for reply in replies], [207] * 4)
        longest = max(waits) * 1000
        print(f"\n{len(waits)} turns of others beside four queries, the longest {longest:.0f} ms")
        self.assertGreater(len(waits), 20)


@unittest.skipUnless(shutil.which("openssl"), "the package openssl is not there")
class Strangers(unittest.TestCase):
    """Connections of one address on which nobody has signed in."""

    def setUp(self) -> None:
        lines = 'certificate = "office.pem"\nkey = "office.key"\nstrangers = 10\n'
        self.gateway = Alone(listen=lines, scheme="https")
        self.addCleanup(self.gateway.close)
        self.certificate = self.gateway.path / "office.pem"
        words = ["openssl", "req", "-x509", "-newkey", "ec", "-nodes", "-days", "2"]
        words += ["-pkeyopt", "ec_paramgen_curve:prime256v1"]
        words += ["-subj", "/CN=localhost", "-addext", "subjectAltName=IP:127.0.0.1"]
        words += ["-keyout", str(self.gateway.path / "office.key"), "-out", str(self.certificate)]
        subprocess.run(words, check=True, timeout=60, capture_output=True)
        settings = self.gateway.path / "gateway.toml"
        text = settings.read_text().replace('"office.', f'"{self.gateway.path}/office.')
        settings.write_text(text)
        self.gateway.start()

    def opened(self, stack: contextlib.ExitStack) -> ssl.SSLSocket:
        """A connection that says nothing yet."""
        context = ssl.create_default_context(cafile=str(self.certificate))
        plain = socket.create_connection(("127.0.0.1", self.gateway.port), 20)
        return stack.enter_context(context.wrap_socket(plain, server_hostname="127.0.0.1"))

    def signed_in(self, one: ssl.SSLSocket) -> bytes:
        """The first line of the answer to a person on a connection."""
        one.sendall(
            f"OPTIONS /dav/ HTTP/1.1\r\nHost: 127.0.0.1:{self.gateway.port}\r\n"
            f"Authorization: {basic('head', 'kopf-1')}\r\n\r\n".encode()
        )
        return one.recv(1_000).partition(b"\r\n")[0]

    def test_they_are_bounded(self) -> None:
        with contextlib.ExitStack() as stack:
            persons = [self.opened(stack) for _ in range(9)]
            for one in persons:
                self.assertEqual(self.signed_in(one), b"HTTP/1.1 200 OK")
            strangers = [self.opened(stack) for _ in range(10)]
            beyond = self.opened(stack).recv(1_000).partition(b"\r\n")[0]
            self.assertEqual(beyond, b"HTTP/1.1 503 Service Unavailable")
            self.assertEqual(self.signed_in(persons[0]), b"HTTP/1.1 200 OK")
            self.assertEqual(self.signed_in(strangers[0]), b"HTTP/1.1 200 OK")
            self.assertEqual(self.signed_in(self.opened(stack)), b"HTTP/1.1 200 OK")


if __name__ == "__main__":
    unittest.main()
