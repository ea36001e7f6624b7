"""What strangers send: nothing reaches the server that it refuses, and no traceback reaches a
client."""
from __future__ import annotations

import concurrent.futures
import contextlib
import gzip
import socket
import threading
import time
import unittest
from pathlib import Path

from tests.test_parts import BOMB
from tests.world import PASSWORDS, World, basic, program

CARD = "BEGIN:VCARD\r\nVERSION:4.0\r\nFN:A\r\nEND:VCARD\r\n"
SALES = "/dav/books/sales/"


class Between:
    """Stands between a gateway and its server, and keeps what is sent to the server."""

    def __init__(self, port: int):
        self.port = port
        self.heads: list[bytes] = []
        self.listener = socket.create_server(("127.0.0.1", 0), backlog=512)
        threading.Thread(target=self.run, daemon=True).start()

    def run(self) -> None:
        """Passes one connection after the other."""
        while True:
            try:
                near, _ = self.listener.accept()
            except OSError:
                return
            with near, contextlib.suppress(OSError), socket.create_connection(
                ("127.0.0.1", self.port), timeout=20
            ) as far:
                far.sendall(self.request(near))
                while part := far.recv(65_536):
                    near.sendall(part)

    def request(self, near: socket.socket) -> bytes:
        """One request, whole."""
        data = b""
        near.settimeout(20)
        while b"\r\n\r\n" not in data:
            part = near.recv(65_536)
            if not part:
                return data
            data += part
        head, _, body = data.partition(b"\r\n\r\n")
        self.heads.append(head)
        length = next(
            (
                int(line[15:])
                for line in head.lower().split(b"\r\n")
                if line.startswith(b"content-length:")
            ),
            0,
        )
        while len(body) < length:
            body += near.recv(65_536)
        return head + b"\r\n\r\n" + body


@unittest.skipUnless(program(), "the server's program is named in BOOK_DESK, or made by make build")
class Hostile(unittest.TestCase):
    """One server and one gateway for all."""

    @classmethod
    def setUpClass(cls) -> None:
        cls.world = World("[cards]\ncopies_bytes = 1000000\n")
        cls.between = Between(cls.world.server_port)
        settings = cls.world.path / "gateway.toml"
        text = settings.read_text().replace(
            f"port = {cls.world.server_port}\n", f"port = {cls.between.listener.getsockname()[1]}\n"
        )
        settings.write_text(text)
        cls.world.gateway.terminate()
        cls.world.gateway.wait(15)
        cls.world.processes.remove(cls.world.gateway)
        cls.world.start_gateway()

    @classmethod
    def tearDownClass(cls) -> None:
        logged = cls.world.logged()
        cls.between.listener.close()
        cls.world.close()
        if "Traceback" in logged:
            raise AssertionError(logged[logged.index("Traceback") - 200 :][:3000])

    def setUp(self) -> None:
        self.asked = len(self.between.heads)

    def nothing_was_asked(self) -> None:
        """Asserts that the server was not asked since the test began."""
        self.assertEqual(self.between.heads[self.asked :], [])

    def no_trace(self, text: bytes) -> None:
        """Asserts that a reply tells nothing of the gateway's inside."""
        for word in (b"Traceback", b"office_gateway", b".py", b"aiohttp/", b"Python/"):
            self.assertNotIn(word, text)

    def test_a_forged_caller_is_replaced(self) -> None:
        for name in ("x-office-caller", "X-Office-Caller", "X-OFFICE-CALLER"):
            reply = self.world.say("guest", "PROPFIND", "/books/sales", b"", **{name: "head"})
            self.assertEqual(reply.status, 207)
        head = (
            f"PROPFIND /people/head HTTP/1.1\r\nHost: 127.0.0.1:{self.world.port}\r\n"
            f"Authorization: {basic('guest@office.example', PASSWORDS['guest@office.example'])}\r\n"
        )
        got = self.world.raw(
            (
                head
                + "x-office-caller: head\r\nx-office-caller: lister\r\nConnection: close\r\n\r\n"
            ).encode()
        )
        self.assertTrue(got.startswith(b"HTTP/1.1 403 "), got[:80])
        for sent in self.between.heads[self.asked :]:
            callers = [
                line for line in sent.lower().split(b"\r\n") if line.startswith(b"x-office-caller")
            ]
            self.assertEqual(callers, [b"x-office-caller: guest"])

    def test_wrong_names_and_passwords(self) -> None:
        rows = [
            "head:wrong", "lister:", "lister:lister", "none:x", ":", "head", "head:kopf-1\0",
            "head\r\nx:kopf-1", "../head:kopf-1", "head:" + "x" * 5_000,
        ]
        for word in rows:
            login, _, password = word.partition(":")
            reply = self.world.say("", "GET", SALES + "a.vcf", Authorization=basic(login, password))
            with self.subTest(word[:20]):
                self.assertEqual(reply.status, 401)
                self.assertTrue(reply.fields["WWW-Authenticate"].startswith("Basic "))
        for field in ("Basic !!!", "Basic", "Bearer x", "Basic " + "A" * 8_000):
            self.assertEqual(self.world.say("", "GET", SALES, Authorization=field).status, 401)
        self.nothing_was_asked()

    def test_path_tricks(self) -> None:
        rows = [
            "/books/sales/%2e%2e/law", "/books/sales/../law/a.vcf", "//books/sales",
            "/books//sales", "/books/sales/a%2f..", "/books/sales?x=1", "/%62ooks/sales",
            "/books/sales/a.vcf/", "/books/sales/..", "/books/./sales", "/books/sales/a.vcf%00",
            "/books/sales;x", "/books\\sales", "/dav/books/sales/../law/", "/dav//books/sales/",
            "/dav/%62ooks/sales/", "/dav/books/sales/a.vcf?x", "/dav/../books/sales",
            "/page/../books/sales", "/page/%2e%2e/office_gateway/app.py", "/page/../serve",
            "/page//etc/passwd", "/books/sales/" + "a" * 65, "*",
        ]
        signed = basic("head", PASSWORDS["head"])
        for target in rows:
            for method in ("GET", "PROPFIND", "DELETE"):
                head = f"Host: 127.0.0.1:{self.world.port}\r\nAuthorization: {signed}\r\n"
                reply = self.world.raw(
                    f"{method} {target} HTTP/1.1\r\n{head}Connection: close\r\n\r\n".encode()
                )
                with self.subTest(f"{method} {target}"):
                    self.assertIn(reply[9:12], (b"404", b"400", b"405"), reply[:100])
                    self.no_trace(reply)
        for name in (
            "%2e%2e", "a%zz.vcf", "a%2", "a%0d%0ab.vcf", "%ff.vcf", "%00", "a" * 513, "a%c2%85b",
        ):
            with self.subTest(name):
                self.assertEqual(self.world.say("head", "PUT", SALES + name, CARD).status, 403)
        self.nothing_was_asked()

    def test_bombs_of_xml(self) -> None:
        bodies = {
            BOMB: 400, b'<!DOCTYPE x SYSTEM "file:///etc/passwd"><propfind xmlns="DAV:"/>': 400,
            b"<a>" * 5_000: 400, b"<a" + b" b=''" * 9_000 + b"/>": 400, b"\x00\x01": 415,
            b"{}": 415,
        }
        for body, wanted in bodies.items():
            for method in ("PROPFIND", "REPORT", "PROPPATCH", "MKCOL"):
                reply = self.world.say("head", method, SALES, body)
                with self.subTest(f"{method} {body[:20]!r}"):
                    self.assertEqual(reply.status, wanted)
                    self.no_trace(reply.body)
        self.nothing_was_asked()

    def test_large_bodies_and_heads(self) -> None:
        host = (
            f"Host: 127.0.0.1:{self.world.port}\r\nAuthorization: "
            f"{basic('head', PASSWORDS['head'])}\r\n"
        )
        ten = 10_485_760
        got = self.world.raw(
            f"PUT {SALES}a.vcf HTTP/1.1\r\n{host}Content-Length: {ten}\r\n\r\n".encode()
            + b"x" * 300_000
        )
        self.assertTrue(got.startswith(b"HTTP/1.1 413"), got[:100])
        chunk = b"10000\r\n" + b"x" * 65_536 + b"\r\n"
        got = self.world.raw(
            f"PUT {SALES}a.vcf HTTP/1.1\r\n{host}Transfer-Encoding: chunked\r\n\r\n".encode()
            + chunk * 80
        )
        self.assertTrue(got.startswith(b"HTTP/1.1 413"), got[:100])
        many = "".join(f"a{number}: b\r\n" for number in range(80))
        got = self.world.raw(f"GET {SALES} HTTP/1.1\r\n{host}{many}\r\n".encode())
        self.assertTrue(got.startswith(b"HTTP/1.1 431"), got[:100])
        wide = "".join(f"a{number}: {'b' * 4_000}\r\n" for number in range(5))
        got = self.world.raw(f"GET {SALES} HTTP/1.1\r\n{host}{wide}\r\n".encode())
        self.assertIn(got[9:12], (b"431", b"400"), got[:100])
        got = self.world.raw(f"GET /{'a' * 20_000} HTTP/1.1\r\n{host}\r\n".encode())
        self.assertIn(got[9:12], (b"431", b"400", b"414"), got[:100])
        packed = gzip.compress(b"\0" * 200_000_000)
        fields = f"{host}Content-Encoding: gzip\r\nContent-Length: {len(packed)}\r\n"
        got = self.world.raw(f"PUT {SALES}a.vcf HTTP/1.1\r\n{fields}\r\n".encode() + packed)
        self.assertTrue(got.startswith(b"HTTP/1.1 415"), got[:100])
        self.nothing_was_asked()
        status = Path(f"/proc/{self.world.gateway.pid}/status").read_text()
        peak = int(status.partition("VmHWM:")[2].split()[0])
        self.assertLess(peak, 300_000, "kilobytes that the gateway had at most")

    def test_heads_that_are_wrong(self) -> None:
        host = f"Host: 127.0.0.1:{self.world.port}\r\n"
        auth = f"Authorization: {basic('head', PASSWORDS['head'])}\r\n"
        rows = [
            (
                f"PUT {SALES}a.vcf HTTP/1.1\r\n{host}{auth}Content-Length: 3\r\nContent-Length: "
                f"3\r\n\r\nabc",
                (b"400",),
            ),
            (
                f"PUT {SALES}a.vcf HTTP/1.1\r\n{host}{auth}Content-Length: 3\r\nTransfer-Encoding: "
                f"chunked\r\n\r\n0\r\n\r\n",
                (b"400",),
            ),
            (f"PUT {SALES}a.vcf HTTP/1.1\r\n{host}{auth}Content-Length: -1\r\n\r\n", (b"400",)),
            (f"PUT {SALES}a.vcf HTTP/1.1\r\n{host}{auth}Content-Length: +3\r\n\r\nabc", (b"400",)),
            (
                f"PUT {SALES}a.vcf HTTP/1.1\r\n{host}{auth}"
                "Transfer-Encoding: gzip, chunked\r\n\r\n",
                (b"400",),
            ),
            (f"GET {SALES} HTTP/1.1\r\n{host}{host}{auth}\r\n", (b"400",)),
            (f"GET {SALES} HTTP/1.1\r\n{auth}\r\n", (b"421", b"400")),
            (f"GET {SALES} HTTP/1.1\r\nHost: other.example\r\n{auth}\r\n", (b"421",)),
            (f"FOO {SALES} HTTP/1.1\r\n{host}{auth}\r\n", (b"400", b"405", b"501")),
            (f"CONNECT 127.0.0.1:1 HTTP/1.1\r\n{host}{auth}\r\n", (b"400", b"404", b"405", b"501")),
            ("no http at all\r\n\r\n", (b"400",)),
            (f"GET {SALES} HTTP/1.1\r\n{host}bad header\r\n\r\n", (b"400",)),
            (f"PROPFIND {SALES} HTTP/1.1\r\n{host}{auth}Depth: 0\r\nDepth: 1\r\n\r\n", (b"400",)),
        ]
        for data, wanted in rows:
            got = self.world.raw(data.encode("latin-1"))
            with self.subTest(data[:60]):
                self.assertIn(got[9:12], wanted, got[:200])
                self.no_trace(got)
        self.nothing_was_asked()

    def test_pages_of_other_places(self) -> None:
        own = f"http://127.0.0.1:{self.world.port}"
        fields = {"Content_Type": "application/json", "x_office_page": "1"}
        body = {"name": "head", "password": PASSWORDS["head"]}
        self.assertEqual(
            self.world.say(
                "", "POST", "/page/session", body, Origin="https://evil.example", **fields
            ).status,
            403,
        )
        self.assertEqual(
            self.world.say("", "POST", "/page/session", body, Content_Type="text/plain").status, 403
        )
        self.assertEqual(
            self.world.say(
                "", "POST", "/page/session", body, Sec_Fetch_Site="cross-site", **fields
            ).status,
            403,
        )
        made = self.world.say("", "POST", "/page/session", body, Origin=own, **fields)
        self.assertEqual(made.status, 200)
        cookie = made.fields["Set-Cookie"]
        self.assertIn("HttpOnly; SameSite=Strict", cookie)
        word = cookie.partition(";")[0]
        self.assertEqual(
            self.world.say("", "GET", "/page/session", Cookie=word, x_office_page="1").json()[
                "person"
            ],
            "head",
        )
        self.assertEqual(self.world.say("", "MKCOL", "/books/evil", Cookie=word).status, 403)
        self.assertEqual(
            self.world.say(
                "", "MKCOL", "/books/evil", Cookie=word, Origin="https://evil.example",
                x_office_page="1",
            ).status,
            403,
        )
        self.assertEqual(self.world.say("head", "MKCOL", "/books/evil", Origin="null").status, 403)
        self.assertEqual(
            self.world.say(
                "", "OPTIONS", "/books/sales", Origin="https://evil.example",
                Access_Control_Request_Method="PUT",
            ).status,
            403,
        )
        self.assertEqual(
            self.world.say("", "DELETE", "/page/session", Cookie=word, x_office_page="1").status,
            204,
        )
        again = self.world.say("", "GET", "/page/session", Cookie=word, x_office_page="1")
        self.assertEqual((again.status, again.fields["WWW-Authenticate"]), (401, "OfficePage"))
        self.nothing_was_asked()
        file = self.world.say("", "GET", "/page/")
        self.assertIn(
            "default-src 'none'; script-src 'self'; style-src 'self'",
            file.fields["Content-Security-Policy"],
        )
        self.assertNotIn("unsafe", file.fields["Content-Security-Policy"])

    def test_a_thousand_connections(self) -> None:
        self.assertIn(self.world.say("head", "PUT", SALES + "many.vcf", CARD).status, (201, 204))
        silent = []
        with contextlib.ExitStack() as stack:
            for _ in range(1_000):
                one = socket.create_connection(("127.0.0.1", self.world.port), timeout=10)
                stack.enter_context(contextlib.closing(one))
                one.sendall(b"GET /dav/ HT")
                silent.append(one)
            begun = time.monotonic()
            self.assertEqual(self.world.say("head", "GET", SALES + "many.vcf").status, 200)
            print(
                f"\na GET beside 1,000 silent connections: {(time.monotonic() - begun) * 1000:.0f} "
                f"ms",
                flush=True,
            )
            time.sleep(6)
            ended = 0
            for one in silent:
                one.settimeout(2)
                with contextlib.suppress(ConnectionError, TimeoutError):
                    ended += one.recv(10) == b""
                    continue
                ended += 1
            self.assertEqual(ended, 1_000)

    def test_a_thousand_requests_at_once(self) -> None:
        self.assertIn(self.world.say("head", "PUT", SALES + "load.vcf", CARD).status, (201, 204))
        asked = len(self.between.heads)

        def one(number: int) -> int:
            who = ("head", "assistant", "guest", "")[number % 4]
            return self.world.say(
                who, "OPTIONS" if number % 2 else "GET", SALES + "load.vcf"
            ).status

        with concurrent.futures.ThreadPoolExecutor(50) as pool:
            told = list(pool.map(one, range(1_000)))
        self.assertEqual(told.count(401), 250)
        self.assertEqual(told.count(200) + told.count(503), 750)
        self.assertGreater(told.count(200), 700)
        self.assertLessEqual(len(self.between.heads) - asked, 1_000)


if __name__ == "__main__":
    unittest.main()
