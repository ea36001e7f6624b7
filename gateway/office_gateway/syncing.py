"""Sync tokens: what a client lacks that has one, also where the server refuses it (RFC 6578)."""
from __future__ import annotations

from .copies import Changes, Copies, Copy
from .locks import Locks
from .refusals import Refusal
from .told import Told


class Syncing:
    """What changed since tokens, and what is remembered of what was told."""

    def __init__(self, copies: Copies, told: Told):
        self._copies = copies
        self._told = told
        self._locks = Locks()

    async def after(self, caller: str, book: str, token: str, limit: int | None) -> Changes:
        """What changed since a token, at most `limit` names; Refusal 400 where the token is neither
        the server's nor remembered.

        Thunderbird reads the book again after 400 alone; other clients look at the condition.
        """
        async with self._locks.hold((caller, book)):
            if not token and limit is None:
                copy = await self._whole(caller, book)
                return Changes(dict(copy.cards), copy.token)
            try:
                changes = await self._copies.changes(caller, book, token, limit)
            except Refusal as refusal:
                is_offered = self._copies.is_offered(caller, book)
                refused = refusal.name == "need-privileges" and is_offered
                if refusal.name != "valid-sync-token" and not refused:
                    raise
                if not token:
                    copy = await self._whole(caller, book)
                    return Changes(dict(copy.cards), copy.token)
                return await self._differing(caller, book, token, limit)
            await self._told.add(caller, book, token, changes)
            return changes

    async def whole(self, caller: str, book: str) -> Copy:
        """All that the caller may read of a book, remembered as told."""
        async with self._locks.hold((caller, book)):
            return await self._whole(caller, book)

    async def _whole(self, caller: str, book: str) -> Copy:
        copy = await self._copies.read(caller, book)
        await self._told.learn(caller, book, copy)
        return copy

    async def _differing(self, caller: str, book: str, token: str, limit: int | None) -> Changes:
        """What differs from what was told with a token that the server refuses."""
        if not await self._told.knows(caller, book, token):
            raise Refusal(400, "valid-sync-token")
        copy = await self._copies.read(caller, book)
        found = await self._told.after(caller, book, token, copy, limit)
        if found is None:
            raise Refusal(400, "valid-sync-token")
        cards = {name: copy.cards.get(name) for name in found.names}
        return Changes(cards, found.token, found.more)
