"""litmus, the test program of WebDAV servers, through a translator of bodies.

litmus writes files of any bytes. The translator makes a card of each body that is written, and the
body again of each card that is read; all else passes as it is. What litmus finds then is compared
with what is written here; README.md has the reasons.
"""
from __future__ import annotations

import base64
import contextlib
import http.client
import http.server
import re
import shutil
import subprocess
import threading
import unittest
from pathlib import Path

from tests.world import GATEWAY, World, program

NO_COLLECTION = "a book has cards and no collections (RFC 6352, section 5.2)"
NO_PROPERTY = "the server keeps no properties that clients make"
FAILS = {
    "basic": {"delete_fragment": NO_COLLECTION, "mkcol": NO_COLLECTION},
    "copymove": dict.fromkeys(
        ("copy_init", "copy_coll", "copy_shallow", "move", "move_coll"), NO_COLLECTION
    ),
    "props": dict.fromkeys(("propset", "propmanyns", "propget"), NO_PROPERTY),
    "http": {},
}
# How many of each suite pass at least, with or without a warning.
PASS = {"basic": 10, "copymove": 4, "props": 10, "http": 4}
LINE = re.compile(r"^ ?\d+\. (\w+)\.+ (pass|FAIL|SKIPPED|WARNING)", re.MULTILINE)
HELD = re.compile(rb"^X-LITMUS:(.*)\r\n", re.MULTILINE)


def as_card(body: bytes) -> bytes:
    """A card that has a body in it."""
    start = b"BEGIN:VCARD\r\nVERSION:4.0\r\nUID:litmus\r\nFN:litmus\r\nX-LITMUS:"
    return start + base64.b64encode(body) + b"\r\nEND:VCARD\r\n"


def as_body(card: bytes) -> bytes:
    """The body that is in a card."""
    found = HELD.search(re.sub(rb"\r\n[ \t]", b"", card))
    return base64.b64decode(found[1]) if found else card


class Translator(http.server.BaseHTTPRequestHandler):
    """Passes a request on to the gateway, with a card in place of a body that is written."""

    protocol_version = "HTTP/1.1"
    port = 0

    def log_message(self, format: str, *args: object) -> None:  # noqa: A002
        """Nothing is told."""

    def pass_on(self) -> None:
        """One request and its reply. A client that is gone is told nothing."""
        with contextlib.suppress(ConnectionError):
            self.answer()

    def answer(self) -> None:
        """The same, to a client that is there."""
        if self.headers.get("Expect", "").lower() == "100-continue":
            self.send_response_only(100)
            self.end_headers()
        body = self.rfile.read(int(self.headers.get("Content-Length", "0")))
        left = ("expect", "content-length", "connection", "te")
        fields = {name: value for name, value in self.headers.items() if name.lower() not in left}
        if self.command == "PUT":
            body = as_card(body)
            fields["Content-Type"] = "text/vcard"
        address = http.client.HTTPConnection("127.0.0.1", self.port, timeout=60)
        with contextlib.closing(address) as connection:
            connection.request(self.command, self.path, body, fields)
            reply = connection.getresponse()
            told = reply.read()
        if "vcard" in reply.headers.get("Content-Type", ""):
            told = as_body(told)
        self.send_response_only(reply.status, reply.reason)
        for name, value in reply.headers.items():
            if name.lower() not in ("content-length", "transfer-encoding", "connection"):
                self.send_header(name, value)
        self.send_header("Content-Length", str(len(told)))
        self.end_headers()
        if self.command != "HEAD":
            self.wfile.write(told)

    def __getattr__(self, name: str) -> object:
        if name.startswith("do_"):
            return self.pass_on
        raise AttributeError(name)


@unittest.skipUnless(program(), "the server's program is named in BOOK_DESK, or made by make build")
@unittest.skipUnless(shutil.which("litmus"), "the package litmus is not there")
class Litmus(unittest.TestCase):
    """One server and one gateway for all."""

    def test_litmus(self) -> None:
        front = http.server.ThreadingHTTPServer(("127.0.0.1", 0), Translator)
        front.daemon_threads = True
        self.addCleanup(front.server_close)
        self.addCleanup(front.shutdown)
        threading.Thread(target=front.serve_forever, daemon=True).start()
        address = f"127.0.0.1:{front.server_port}"
        words = {"ann": "litmus-1", "gus": "litmus-2"}
        world = World(policy=GATEWAY / "demo.toml", passwords=words, origins=f'"http://{address}"')
        self.addCleanup(world.close)
        Translator.port = world.port
        for suite, fails in FAILS.items():
            done = subprocess.run(
                ["litmus", "-k", f"http://{address}/dav/books/", "ann", words["ann"]],
                capture_output=True, text=True, timeout=300, check=False, cwd=world.path,
                env={"TESTS": suite, "PATH": "/usr/bin:/bin"},
            )
            lines = LINE.findall(done.stdout)
            with self.subTest(suite):
                self.assertEqual({name for name, how in lines if how == "FAIL"}, set(fails))
                passed = sum(1 for _, how in lines if how == "pass")
                self.assertGreaterEqual(passed, PASS[suite], done.stdout)


if __name__ == "__main__":
    unittest.main()
