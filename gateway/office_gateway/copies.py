"""What a caller may read of a book: names and cards, kept up to date by the server's sync reports.

A copy is what the reports told a caller. Before each use it is brought up to date by the report
after its token, asked as the caller. So the server decides anew each time, and a change of access
makes the token invalid. The texts are kept once for all callers.
"""
from __future__ import annotations

import asyncio
import time
from collections import OrderedDict
from collections.abc import Mapping
from dataclasses import dataclass
from typing import Any

from . import uids
from .locks import Locks
from .offers import Offers
from .refusals import Refusal
from .server import Server
from .texts import Held, Texts
from .turns import Turns

# Changes that are asked for at a time: at first, and at least and at most; and about how many bytes
# of cards an answer is to have.
FIRST, LEAST, MOST = 200, 20, 1_000
PAGE = 1_048_576
# How often reading begins again, where access changes meanwhile.
TRIES = 5
# About how many bytes a name takes in a copy.
NAME = 100


@dataclass(frozen=True)
class Copy:
    """The cards of a book that a caller may read, in order of their change numbers, and the token
    after them."""

    cards: dict[str, Held]
    token: str

    def size(self) -> int:
        """About how many bytes it takes beside its cards."""
        return NAME * (10 + len(self.cards))


@dataclass(frozen=True)
class Changes:
    """Names that changed, each with its card where the caller may read it, and the token after
    them. `more` tells whether there are more changes after that token."""

    cards: dict[str, Held | None]
    token: str
    more: bool = False


class Copies:
    """Copies by caller and book. As many are kept as have room in a number of bytes with their
    cards; those last used stay."""

    def __init__(
        self,
        server: Server,
        limit: int,
        turns: Turns | None = None,
        offers: Offers | None = None,
    ):
        self._server = server
        self._offers = offers
        self._limit = limit
        self._work = turns or Turns()
        self._texts = Texts()
        self._kept: OrderedDict[tuple[str, str], Copy] = OrderedDict()
        self._turns: dict[tuple[str, str], asyncio.Task[Copy]] = {}
        self._locks = Locks()
        self._size = 0

    def has(self, caller: str, book: str) -> bool:
        """Whether a copy is kept."""
        return (caller, book) in self._kept

    async def read(self, caller: str, book: str) -> Copy:
        """What the caller may read of the book now; Refusal where the server refuses the report.

        Who asks while a report is being read shares the next one, which begins after that.
        """
        key = (caller, book)
        turn = self._turns.get(key)
        if turn is None:
            turn = self._turns[key] = asyncio.create_task(self._turn(key))
        return await asyncio.shield(turn)

    async def changes(
        self, caller: str, book: str, token: str, limit: int | None = None
    ) -> Changes:
        """What changed after a token, at most `limit` names; Refusal where the server refuses."""
        for _ in range(TRIES):
            try:
                return await self._changes(caller, book, token, limit)
            except Refusal as refusal:
                if token or refusal.name != "valid-sync-token":
                    raise
        raise Refusal(503, "busy", {"Retry-After": "5"})

    async def _changes(self, caller: str, book: str, token: str, limit: int | None) -> Changes:
        """The same, answer after answer; a card that changes meanwhile is told as it is last."""
        found: dict[str, Held | None] = {}
        ask = FIRST
        while True:
            count = ask if limit is None else min(ask, limit - len(found))
            told = await self._page(caller, book, token, count)
            for name in told.cards:
                found.pop(name, None)
            found |= told.cards
            full = limit is not None and len(found) >= limit
            if not told.more or full:
                return Changes(found, told.token, told.more)
            token = told.token
            size = sum(held.size for held in told.cards.values() if held is not None)
            ask = max(LEAST, min(MOST, 2 * ask, ask * PAGE // (size + 1)))

    async def _page(self, caller: str, book: str, token: str, count: int) -> Changes:
        """One sync report of the server, with its limit."""
        path = f"/books/{book}"
        body = {"report": "sync-collection", "sync-token": token, "limit": count}
        told = await self._server.read(caller, "REPORT", path, body)
        cards: dict[str, Held | None] = {}
        more = False
        async with self._work.work() as work:
            for response in told["responses"]:
                await work.breathe()
                if response["status"] == 507:
                    more = True
                    continue
                name = response["href"].rsplit("/", 1)[1]
                cards[name] = self._held(book, name, response)
        return Changes(cards, told["sync-token"], more)

    def _held(self, book: str, name: str, response: Mapping[str, Any]) -> Held | None:
        """The card in a response of a sync report; None where it is gone."""
        if response["status"] != 200:
            return None
        text = uids.told(response["href"], response["text"])
        return self._texts.held(book, name, response["number"], text, response["displayname"])

    async def _turn(self, key: tuple[str, str]) -> Copy:
        async with self._locks.hold(key):
            del self._turns[key]
            copy = self._kept.get(key)
            try:
                copy = await self._read(*key, copy)
            except Refusal:
                self._drop(key)
                raise
            self._keep(key, copy)
            return copy

    async def _read(self, caller: str, book: str, copy: Copy | None) -> Copy:
        """A copy as it is now; of a book that the server refuses, what is offered of it."""
        try:
            return await (self._after(caller, book, copy) if copy else self._first(caller, book))
        except Refusal as refusal:
            if refusal.name != "need-privileges" or not self.is_offered(caller, book):
                raise
            return await self._offered(caller, book, copy)

    def is_offered(self, caller: str, book: str) -> bool:
        """Whether the settings offer the book to the caller, where the server does not list it."""
        return self._offers is not None and self._offers.has(caller, book)

    async def _offered(self, caller: str, book: str, known: Copy | None) -> Copy:
        """What is offered of a book, with a token that is new where something is."""
        assert self._offers is not None
        texts = await self._offers.texts(caller, book)
        cards = {name: self._texts.held(book, name, 0, text, "") for name, text in texts.items()}
        is_known = known is not None and known.token.startswith(f"data:,{book}/offered/")
        if known is not None and is_known and known.cards == cards:
            return known
        return Copy(cards, f"data:,{book}/offered/{time.time_ns()}-")

    async def _first(self, caller: str, book: str) -> Copy:
        told = await self.changes(caller, book, "")
        cards = {name: held for name, held in told.cards.items() if held is not None}
        return Copy(cards, told.token)

    async def _after(self, caller: str, book: str, copy: Copy) -> Copy:
        try:
            told = await self.changes(caller, book, copy.token)
        except Refusal as refusal:
            if refusal.name != "valid-sync-token":
                raise
            return await self._first(caller, book)
        if not told.cards:
            return Copy(copy.cards, told.token)
        cards = dict(copy.cards)
        for name, held in told.cards.items():
            cards.pop(name, None)
            if held is not None:
                cards[name] = held
        return Copy(cards, told.token)

    def _drop(self, key: tuple[str, str]) -> None:
        copy = self._kept.pop(key, None)
        self._size -= copy.size() if copy else 0

    def _keep(self, key: tuple[str, str], copy: Copy) -> None:
        """Keeps a copy that has room, and lets those go that were not used for the longest time."""
        known = self._kept.get(key)
        self._drop(key)
        if known is None or known.cards is not copy.cards:
            own = copy.size() + sum(held.size for held in copy.cards.values())
            if own > self._limit:
                return
        self._kept[key] = copy
        self._size += copy.size()
        del known
        while len(self._kept) > 1 and self._size + self._texts.size > self._limit:
            old = self._kept.popitem(last=False)[1].size()
            self._size -= old
