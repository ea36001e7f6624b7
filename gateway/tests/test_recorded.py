"""Requests of Thunderbird 153 and SyncEvolution 2.0, replayed from the bytes that they sent."""
from __future__ import annotations

import contextlib
import http.client
import re
import socket
import unittest
from pathlib import Path
from xml.etree.ElementTree import fromstring

from tests.test_dav import SALES, C, D, prop, responses, status, text_of, vcard
from tests.world import World, basic, program

FOLDER = Path(__file__).resolve().parent / "recorded"
# Where the requests were recorded.
HOST = b"127.0.0.1:8790"


def replayed(world: World, who: str, name: str, **changes: str) -> http.client.HTTPResponse:
    """The reply to a recorded request, sent as a person. `changes` has, by patterns of the body or
    the path, what stands in their place."""
    head, _, body = (FOLDER / f"{name}.http").read_bytes().partition(b"\r\n\r\n")
    for pattern, text in changes.items():
        head, body = (re.sub(pattern.encode(), text.encode(), part) for part in (head, body))
    host = f"127.0.0.1:{world.port}".encode()
    lines = head.replace(HOST, host).split(b"\r\n")
    left = (b"content-length", b"connection")
    kept = [line for line in lines if not line.lower().startswith(left)]
    login = "guest@office.example" if who == "guest" else who
    kept.append(f"Authorization: {basic(login, world.passwords[login])}".encode())
    kept += [f"Content-Length: {len(body)}".encode(), b"Connection: close"]
    with contextlib.closing(socket.create_connection(("127.0.0.1", world.port), 120)) as connection:
        connection.sendall(b"\r\n".join(kept) + b"\r\n\r\n" + body)
        reply = http.client.HTTPResponse(connection, method=lines[0].split()[0].decode())
        reply.begin()
        reply.text = reply.read()  # type: ignore[attr-defined]
        return reply


@unittest.skipUnless(program(), "the server's program is named in BOOK_DESK, or made by make build")
class Recorded(unittest.TestCase):
    """One server and one gateway for all; before each test the books are empty."""

    world: World

    @classmethod
    def setUpClass(cls) -> None:
        cls.world = World()

    @classmethod
    def tearDownClass(cls) -> None:
        logged = cls.world.logged()
        cls.world.close()
        if "Traceback" in logged:
            raise AssertionError(logged[logged.index("Traceback") :][:3000])

    def setUp(self) -> None:
        self.say = self.world.say
        body = {"report": "sync-collection", "sync-token": ""}
        told = self.say("head", "REPORT", "/books/sales", body).json()
        for response in told["responses"]:
            self.say("head", "DELETE", response["href"])

    def ask(self, who: str, name: str, wanted: int = 207, **changes: str) -> bytes:
        """The body of the reply to a recorded request, whose status is to be as `wanted`."""
        reply = replayed(self.world, who, name, **changes)
        self.assertEqual(reply.status, wanted, reply.text[:500])  # type: ignore[attr-defined]
        return reply.text  # type: ignore[attr-defined]

    def test_thunderbird_finds_books(self) -> None:
        moved = replayed(self.world, "guest", "thunderbird-find-well-known")
        self.assertEqual((moved.status, moved.getheader("Location")), (301, "/dav/"))
        [root] = responses(self.ask("guest", "thunderbird-find-root")).values()
        principal = root.findtext(f".//{D}current-user-principal/{D}href")
        self.assertEqual(principal, "/dav/people/guest/")
        told = self.ask("guest", "thunderbird-find-person", **{"/people/head/": "/people/guest/"})
        [person] = responses(told).values()
        home = person.findtext(f".//{C}addressbook-home-set/{D}href")
        self.assertEqual(home, "/dav/books/")
        # Thunderbird takes a response whose first status is 200, which is a book, and has read or
        # all.
        book = responses(self.ask("guest", "thunderbird-find-home"))[SALES]
        self.assertEqual(book.findtext(f".//{D}status"), "HTTP/1.1 200 OK")
        self.assertIsNotNone(book.find(f".//{D}resourcetype/{C}addressbook"))
        privileges = prop(book, f"{D}current-user-privilege-set")
        assert privileges is not None
        self.assertIsNotNone(privileges.find(f"{D}privilege/{D}read"))

    def test_thunderbird_syncs(self) -> None:
        for number in range(3):
            self.say("head", "PUT", f"{SALES}c{number}.vcf", vcard(f"Card {number}"))
        self.say("head", "PUT", "/dav/books/law/one.vcf", vcard("One"))
        listed = responses(self.ask("guest", "thunderbird-list"))
        tags = {href: text_of(listed[href], f"{D}getetag") for href in listed if href != SALES}
        got = responses(self.ask("guest", "thunderbird-multiget"))
        self.assertEqual({href: text_of(got[href], f"{D}getetag") for href in got}, tags)
        for response in got.values():
            self.assertTrue(text_of(response, f"{C}address-data").startswith("BEGIN:VCARD"))
        token = text_of(responses(self.ask("guest", "thunderbird-token"))[SALES], f"{D}sync-token")

        def synced(token: str) -> tuple[dict[str, str], str]:
            body = self.ask("guest", "thunderbird-sync", **{"data:,sales/[0-9/]+": token})
            found = responses(body)
            new = fromstring(body).findtext(f"{D}sync-token") or ""
            return {href: status(found[href]) for href in found}, new

        # One card of another book is shared: nothing new is told, and the client goes on.
        share = {"acl": [{"grant": ["read"], "principal": "/people/guest"}]}
        self.assertEqual(self.say("head", "ACL", "/books/law/one.vcf", share).status, 200)
        told, later = synced(token)
        self.assertEqual(told, {})
        self.assertNotEqual(later, token)
        self.say("head", "PUT", SALES + "new.vcf", vcard("New"))
        self.say("head", "DELETE", SALES + "c0.vcf")
        deny = {"acl": [{"deny": ["read"], "principal": "/people/guest"}]}
        self.say("head", "ACL", "/books/sales/c1.vcf", deny)
        told, later = synced(later)
        gone = {SALES + "c0.vcf": "404", SALES + "c1.vcf": "404"}
        self.assertEqual(told, {SALES + "new.vcf": "200", **gone})
        self.assertEqual(synced(later)[0], {})
        # A token that is not remembered: 400, after which Thunderbird lists the book again.
        unknown = {"data:,sales/[0-9/]+": "data:,sales/0/0"}
        refused = self.ask("guest", "thunderbird-sync", 400, **unknown)
        self.assertIsNotNone(fromstring(refused).find(f"{D}valid-sync-token"))

    def test_thunderbird_edits(self) -> None:
        self.ask("head", "thunderbird-edit-put", 201)
        got = responses(self.ask("head", "thunderbird-edit-multiget-one"))
        [(href, response)] = got.items()
        self.assertIn("FN:Made\r\n", text_of(response, f"{C}address-data"))
        self.ask("head", "thunderbird-edit-put-again", 204)
        got = responses(self.ask("head", "thunderbird-edit-multiget-again"))
        self.assertIn("FN:Made again\r\n", text_of(got[href], f"{C}address-data"))
        self.ask("guest", "thunderbird-edit-delete", 403)
        self.ask("head", "thunderbird-edit-delete", 204)
        gone = responses(self.ask("head", "thunderbird-edit-multiget-one"))
        self.assertEqual(status(gone[href]), "404")

    def test_syncevolution_finds_books(self) -> None:
        moved = replayed(self.world, "head", "syncevolution-find-well-known")
        self.assertEqual((moved.status, moved.getheader("Location")), (301, "/dav/"))
        [root] = responses(self.ask("head", "syncevolution-find-root")).values()
        principal = root.findtext(f".//{D}current-user-principal/{D}href")
        self.assertEqual(principal, "/dav/people/head/")
        [person] = responses(self.ask("head", "syncevolution-find-person")).values()
        self.assertEqual(person.findtext(f".//{C}addressbook-home-set/{D}href"), "/dav/books/")
        books = responses(self.ask("head", "syncevolution-find-home"))
        self.assertIsNotNone(books[SALES].find(f".//{D}resourcetype/{C}addressbook"))
        self.ask("head", "syncevolution-find-book")

    def test_syncevolution_edits(self) -> None:
        self.ask("head", "syncevolution-put", 201)
        self.ask("head", "syncevolution-put", 412)
        href = SALES + "se-one.vcf"
        tags = [
            text_of(responses(self.ask("head", f"syncevolution-{name}"))[href], f"{D}getetag")
            for name in ("put-tag", "list")
        ]
        self.assertEqual(tags[0], tags[1])
        got = responses(self.ask("head", "syncevolution-multiget"))
        self.assertEqual({href: status(got[href]) for href in got}[href], "200")
        self.assertIn("FN:Sync Evolution", text_of(got[href], f"{C}address-data"))
        self.assertEqual(sorted(map(status, got.values())), ["200", "404", "404", "404", "404"])
        self.ask("head", "syncevolution-token")


if __name__ == "__main__":
    unittest.main()
