"""Copies of books, what was told by tokens, turns, and answers in pieces."""
from __future__ import annotations

import asyncio
import sqlite3
import tempfile
import time
import unittest
from collections.abc import Iterator
from pathlib import Path
from typing import Any
from xml.etree.ElementTree import fromstring

from office_gateway import copies, davxml
from office_gateway.answers import Answers
from office_gateway.copies import Copies
from office_gateway.davxml import Node, d
from office_gateway.flight import Flight, Spool
from office_gateway.properties import Asked, Resource
from office_gateway.refusals import Refusal
from office_gateway.syncing import Syncing
from office_gateway.texts import Texts, tag_of
from office_gateway.told import NAME, Told
from office_gateway.turns import Turns


class Book:
    """A server that tells of one book, as its sync reports do. `hidden` has, by person, the names
    of cards that may not be read.
    """

    def __init__(self) -> None:
        self.epoch, self.number = 1, 0
        self.cards: dict[str, tuple[int, str]] = {}
        self.gone: dict[str, int] = {}
        self.hidden: dict[str, set[str]] = {}
        self.asked: list[str] = []
        self.refused = False

    def put(self, name: str, text: str) -> None:
        """A card is written."""
        self.number += 1
        self.cards[name] = (self.number, text)
        self.gone.pop(name, None)

    def remove(self, name: str) -> None:
        """A card is removed."""
        self.number += 1
        del self.cards[name]
        self.gone[name] = self.number

    def hide(self, person: str, *names: str) -> None:
        """Access changes: these are the cards that the person may not read."""
        self.epoch += 1
        self.hidden[person] = set(names)

    async def read(self, caller: str, method: str, path: str, body: dict[str, Any]) -> Any:
        """A sync report."""
        token, limit = body["sync-token"], body["limit"]
        self.asked.append(token)
        await asyncio.sleep(0.002)
        if self.refused:
            raise Refusal(403, "need-privileges")
        start = f"data:,b/{self.epoch}/"
        since = int(token.rpartition("/")[2]) if token else 0
        if token and (token.rpartition("/")[0] + "/" != start or since > self.number):
            raise Refusal(403, "valid-sync-token")
        rows = []
        for name, (number, text) in self.cards.items():
            href = f"{path}/{name}"
            row = {"displayname": "", "href": href, "number": number, "status": 200, "text": text}
            if name not in self.hidden.get(caller, set()):
                rows.append((number, row))
            elif token:
                rows.append((number, {"href": href, "status": 404}))
        for name, number in self.gone.items() if token else []:
            rows.append((number, {"href": f"{path}/{name}", "status": 404}))
        rows = sorted((row for row in rows if row[0] > since), key=lambda row: row[0])
        told = [row for _, row in rows[:limit]]
        if len(rows) <= limit:
            return {"responses": told, "sync-token": f"{start}{self.number}"}
        told.append({"href": path, "status": 507})
        return {"responses": told, "sync-token": f"{start}{rows[limit - 1][0]}"}


def texts_of(cards: dict[str, Any]) -> dict[str, str]:
    """The texts of cards by name."""
    return {name: held.text for name, held in cards.items()}


class SyncedCopies(unittest.IsolatedAsyncioTestCase):
    """Copies follow tokens."""

    def setUp(self) -> None:
        self.book = Book()
        self.copies = Copies(self.book, 100_000)  # type: ignore[arg-type]

    async def test_a_copy_follows_what_changes(self) -> None:
        self.book.put("a", "A")
        self.book.put("b", "B")
        copy = await self.copies.read("ann", "b")
        self.assertEqual(texts_of(copy.cards), {"a": "A", "b": "B"})
        self.book.put("a", "A2")
        self.book.remove("b")
        copy = await self.copies.read("ann", "b")
        self.assertEqual(texts_of(copy.cards), {"a": "A2"})
        self.assertEqual(self.book.asked, ["", "data:,b/1/2"])
        self.book.epoch = 2
        self.book.cards = {"c": (1, "C")}
        self.assertEqual(list((await self.copies.read("ann", "b")).cards), ["c"])
        self.assertEqual(self.book.asked[2:], ["data:,b/1/4", ""])

    async def test_who_asks_meanwhile_shares_the_next_report(self) -> None:
        first = asyncio.create_task(self.copies.read("ann", "b"))
        await asyncio.sleep(0.001)
        self.book.put("a", "A")
        others = await asyncio.gather(*(self.copies.read("ann", "b") for _ in range(20)))
        self.assertEqual([list(copy.cards) for copy in others], [["a"]] * 20)
        await first
        self.assertEqual(len(self.book.asked), 2)
        self.book.epoch = 9
        self.book.refused = True
        asked = [self.copies.read("ann", "b") for _ in range(3)]
        refused = await asyncio.gather(*asked, return_exceptions=True)
        self.assertEqual([type(one).__name__ for one in refused], ["Refusal"] * 3)

    async def test_a_text_is_kept_once_for_all_who_may_read_it(self) -> None:
        for number in range(10):
            self.book.put(f"c{number}", "x" * 5_000)
        first = await self.copies.read("ann", "b")
        others = [await self.copies.read(f"p{number}", "b") for number in range(10)]
        for other in others:
            for name, held in other.cards.items():
                self.assertIs(held, first.cards[name])
        self.book.asked.clear()
        for caller in ("ann", "p0", "p9"):
            await self.copies.read(caller, "b")
        self.assertEqual(self.book.asked, ["data:,b/1/10"] * 3)

    async def test_copies_are_kept_within_their_bound(self) -> None:
        self.book.put("a", "x" * 1_000)
        kept = Copies(self.book, 3_700)  # type: ignore[arg-type]
        for caller in ("a", "b", "c"):
            await kept.read(caller, "b")
        self.assertEqual([kept.has(caller, "b") for caller in ("a", "b", "c")], [False, True, True])
        small = Copies(self.book, 100)  # type: ignore[arg-type]
        self.book.asked.clear()
        await small.read("a", "b")
        await small.read("a", "b")
        self.assertEqual(self.book.asked, ["", ""])

    async def test_a_large_book_is_read_page_after_page(self) -> None:
        for number in range(copies.FIRST + 5):
            self.book.put(f"c{number}", f"T{number}")
        copy = await self.copies.read("ann", "b")
        self.assertEqual(len(copy.cards), copies.FIRST + 5)
        self.assertEqual(self.book.asked, ["", f"data:,b/1/{copies.FIRST}"])
        told = await self.copies.changes("ann", "b", "", 7)
        self.assertEqual((len(told.cards), told.token, told.more), (7, "data:,b/1/7", True))


class KeptTexts(unittest.TestCase):
    """Where texts are kept."""

    def test_what_nothing_holds_is_let_go(self) -> None:
        texts = Texts()
        one = texts.held("b", "a", 1, "Ä\r\n", "")
        again = texts.held("b", "a", 1, "Ä\r\n", "")
        other = texts.held("b", "a", 1, "B", "")
        self.assertIs(one, again)
        self.assertEqual((one.text, other.text, one.tag == other.tag), ("Ä\r\n", "B", False))
        self.assertEqual((one.tag, one.length), (tag_of("Ä\r\n"), 4))
        del one, again, other
        self.assertEqual(texts.size, 0)
        held = texts.held("b", "c", 2, "C", "")
        self.assertEqual(held.text, "C")


class Client:
    """A client that keeps the names and tags that it is told, and its token."""

    def __init__(self, syncing: Syncing, person: str):
        self._syncing = syncing
        self._person = person
        self.token = ""
        self.tags: dict[str, str] = {}
        self.heard: list[str] = []

    async def sync(self, limit: int | None = None) -> None:
        """One sync, to its end."""
        self.heard = []
        while True:
            told = await self._syncing.after(self._person, "b", self.token, limit)
            assert limit is None or len(told.cards) <= limit
            for name, held in told.cards.items():
                self.heard.append(name)
                self.tags.pop(name, None)
                if held is not None:
                    self.tags[name] = held.tag
            self.token = told.token
            if not told.more:
                return


class Tokens(unittest.IsolatedAsyncioTestCase):
    """Tokens that the server refuses are answered by what differs."""

    def setUp(self) -> None:
        self.book = Book()
        self.folder = tempfile.TemporaryDirectory()
        self.addCleanup(self.folder.cleanup)
        self.told = Told(Path(self.folder.name), 10_000)
        self.syncing = self.begun()

    def begun(self) -> Syncing:
        """The gateway's part, without any copy."""
        return Syncing(Copies(self.book, 10_000_000), self.told)  # type: ignore[arg-type]

    async def asyncTearDown(self) -> None:
        self.told.close()

    def readable(self, person: str) -> dict[str, str]:
        """What a person may read, by name."""
        hidden = self.book.hidden.get(person, set())
        cards = self.book.cards.items()
        return {name: tag_of(text) for name, (_, text) in cards if name not in hidden}

    async def test_a_change_of_access_elsewhere_tells_nothing(self) -> None:
        for name in "abc":
            self.book.put(name, name)
        client = Client(self.syncing, "ann")
        await client.sync()
        self.book.epoch += 1
        await client.sync()
        self.assertEqual((client.heard, client.token), ([], "data:,b/2/3"))
        self.book.put("d", "D")
        await client.sync()
        self.assertEqual(client.heard, ["d"])

    async def test_what_may_no_longer_be_read_is_told_as_removed(self) -> None:
        for name in "abc":
            self.book.put(name, name)
        client = Client(self.syncing, "ann")
        await client.sync()
        self.book.hide("ann", "b")
        self.book.put("c", "C2")
        await client.sync()
        self.assertEqual((sorted(client.heard), client.tags), (["b", "c"], self.readable("ann")))
        self.book.hide("ann")
        await client.sync()
        self.assertEqual((client.heard, client.tags), (["b"], self.readable("ann")))

    async def test_what_was_told_outlasts_the_process(self) -> None:
        self.book.put("a", "A")
        client = Client(self.syncing, "ann")
        await client.sync()
        self.told.close()
        self.told = Told(Path(self.folder.name), 10_000)
        client._syncing = self.begun()
        self.book.hide("ann", "a")
        await client.sync()
        self.assertEqual((client.heard, client.tags), (["a"], {}))

    async def test_a_token_that_is_not_remembered_is_refused(self) -> None:
        self.book.put("a", "A")
        client = Client(self.syncing, "ann")
        await client.sync()
        self.book.epoch += 1
        self.told.close()
        (Path(self.folder.name) / NAME).write_bytes(b"no file of this kind" * 100)
        with self.assertLogs("office_gateway", "WARNING"):
            self.told = Told(Path(self.folder.name), 10_000)
        for person in ("ann", "bob"):
            other = Client(self.begun(), person)
            other.token = client.token
            with self.subTest(person), self.assertRaises(Refusal) as refused:
                await other.sync()
            refusal = refused.exception
            self.assertEqual((refusal.status, refusal.name), (400, "valid-sync-token"))
            other.token = ""
            await other.sync()
            self.book.epoch += 1
            await other.sync()
            self.assertEqual(other.tags, self.readable(person))

    async def test_two_persons_are_told_apart(self) -> None:
        self.book.put("a", "A")
        self.book.put("b", "B")
        self.book.hide("bob", "b")
        ann, bob = Client(self.syncing, "ann"), Client(self.syncing, "bob")
        for client in (ann, bob):
            await client.sync()
        self.book.hide("ann", "a")
        for client, person in ((ann, "ann"), (bob, "bob")):
            await client.sync()
            self.assertEqual(client.tags, self.readable(person))
        self.assertEqual(bob.heard, [])

    async def test_what_is_remembered_is_bounded(self) -> None:
        self.told.close()
        self.told = Told(Path(self.folder.name), 10)
        self.syncing = self.begun()
        for number in range(6):
            self.book.put(f"c{number}", "x")
        ann, bob = Client(self.syncing, "ann"), Client(self.syncing, "bob")
        await ann.sync()
        await bob.sync()
        self.book.epoch += 1
        with self.assertRaises(Refusal):
            await ann.sync()
        await bob.sync()
        self.assertEqual(bob.heard, [])

    async def test_a_fault_of_the_file_refuses_tokens_and_no_more(self) -> None:
        self.book.put("a", "A")
        client = Client(self.syncing, "ann")
        await client.sync()
        self.told._memory._base.execute("drop table card")
        self.book.put("b", "B")
        with self.assertLogs("office_gateway", "WARNING"):
            await client.sync()
        self.assertEqual(client.tags, self.readable("ann"))
        self.assertTrue(issubclass(sqlite3.DatabaseError, sqlite3.Error))


class Pieces(unittest.IsolatedAsyncioTestCase):
    """Answers that are made piece after piece."""

    async def test_turns_are_short_and_in_order(self) -> None:
        turns, order = Turns(0.01), []

        async def long(name: str) -> None:
            async with turns.work() as work:
                for _ in range(5):
                    time.sleep(0.01)
                    order.append(name)
                    await work.breathe()

        waits = []

        async def short() -> None:
            for _ in range(10):
                begun = time.monotonic()
                await asyncio.sleep(0)
                waits.append(time.monotonic() - begun)

        await asyncio.gather(long("a"), long("b"), short())
        self.assertEqual(order, ["a", "b"] * 5)
        self.assertEqual(len(waits), 10)

    async def test_an_answer_is_whole(self) -> None:
        asyncio.get_running_loop().set_debug(False)
        answers = Answers(Turns(), "4.0")
        labels = [f"Nr {number}" for number in range(2_000)]
        found = [Resource("/books/b/c", "card", "ann", label) for label in labels]
        reply = await answers.multistatus(found, Asked([d("displayname"), "{x:y}z", "bare"]))
        assert reply.pieces is not None
        parts = [reply.body] + [piece async for piece in reply.pieces]
        self.assertGreater(len(parts), 3)
        self.assertLess(max(map(len, parts)), 3 * davxml.PIECE)
        root = fromstring(b"".join(parts))
        self.assertEqual([one.text for one in root.iter(d("displayname"))], labels)
        self.assertEqual(len(list(root.iter("{x:y}z"))), 2_000)
        with self.assertRaises(Refusal) as refused:
            await answers.multistatus(found, Asked([d(f"n{number}") for number in range(300)]))
        self.assertEqual(refused.exception.status, 507)

    def test_what_xml_may_not_have(self) -> None:
        node = Node(d("a"), "x\x00\x1f\ud800y\r\n<&>", Node(d("b"), q_r='"<\x01'))
        root = fromstring(davxml.written(node))
        self.assertEqual((root.text, root[0].attrib), ("x���y\r\n<&>", {"q-r": '"<�'}))
        for name in ("", "{x}", "a b", "{x}a:b", "{x}\x01"):
            with self.subTest(name):
                self.assertFalse(davxml.is_writable(name))

    async def test_what_is_in_flight_is_bounded(self) -> None:
        flight = Flight(1_000_000)
        first, second = Spool(flight), Spool(flight)
        first.write(b"a" * 700_000)
        with self.assertRaises(Refusal) as refused:
            second.write(b"b" * 400_000)
        self.assertEqual((refused.exception.status, refused.exception.name), (503, "busy"))
        self.assertEqual(b"".join([part async for part in first.parts()]), b"a" * 700_000)
        second.write(b"b" * 900_000)
        second.clear()
        second.write(b"c")
        self.assertEqual((second.read(), flight.size), (b"c", 1))
        second.close()
        self.assertEqual(flight.size, 0)

    def test_pieces_may_end_early(self) -> None:
        def content() -> Iterator[Node]:
            while True:
                yield Node(d("a"), "x" * 1_000)

        pieces = davxml.pieces(d("b"), content())
        self.assertTrue(next(pieces).startswith(b"<?xml"))
        pieces.close()  # type: ignore[attr-defined]


if __name__ == "__main__":
    unittest.main()
