"""Books that persons may use although the server does not let them PROPFIND.

A guest may read one card of a book, a reception desk its names alone, another office may only add
cards. Nothing tells a CardDAV client of such a book, so the settings list who may use which, and
clients find the book with what the server lets the person read of it: the cards that are listed,
asked one by one, and, where a setting says so, the names of the `names` report as cards that have a
name and a UID alone. The server decides each of these requests as the person, and refuses to write
a card of which the person may read the name alone.
"""
from __future__ import annotations

from collections.abc import Mapping

from . import paths, uids
from .config import Offer
from .refusals import Refusal, refusal_of
from .server import Server
from .vcard import folded


class Offers:
    """Who may use which books beside those that the server lists."""

    def __init__(self, server: Server, offered: Mapping[str, Offer], names_as_cards: bool):
        self._server = server
        self._offered = offered
        self._names_as_cards = names_as_cards

    def has(self, caller: str, book: str) -> bool:
        """Whether a CardDAV client of this person is to find the book."""
        offer = self._offered.get(book, Offer())
        by_name = self._names_as_cards and caller in offer.names
        return by_name or caller in offer.add or caller in offer.cards

    def books(self, caller: str) -> list[str]:
        """The paths of the books that this person is to find."""
        return [f"/books/{book}" for book in self._offered if self.has(caller, book)]

    def privileges(self, caller: str, book: str) -> list[str]:
        """What is told that this person may do in the book. The server decides what that is."""
        offer = self._offered.get(book, Offer())
        return ["read", *(["bind"] if caller in offer.add else [])]

    async def texts(self, caller: str, book: str) -> dict[str, str]:
        """The texts that the server lets this person read of the book, by name."""
        offer = self._offered.get(book, Offer())
        found = {}
        for name in offer.cards.get(caller, ()):
            text = await self._card(caller, f"/books/{book}/{name}")
            if text is not None:
                found[name] = text
        if self._names_as_cards and caller in offer.names:
            found = {**await self._names(caller, book), **found}
        return found

    async def _card(self, caller: str, path: str) -> str | None:
        """The text of a card; None where the server refuses it."""
        answer = await self._server.ask(caller, "GET", path)
        if answer.status >= 500:
            raise refusal_of(answer.status, answer.body)
        if answer.is_refusal():
            return None
        return uids.told(path, answer.body.decode("utf-8", "replace"))

    async def _names(self, caller: str, book: str) -> dict[str, str]:
        """The names of the cards of a book, each as a card; none where the server refuses them."""
        path = f"/books/{book}"
        try:
            told = await self._server.read(caller, "REPORT", path, {"report": "names"})
        except Refusal as refusal:
            if refusal.status >= 500:
                raise
            return {}
        names = {}
        for one in told["names"]:
            names[paths.parts_of(one["href"])[-1]] = named(one["href"], one["fn"])
        return names


def named(path: str, name: str | None) -> str:
    """The card of a name as the server has it in FN; its own name where there is none."""
    formatted = name if name is not None else paths.parts_of(path)[-1]
    lines = ("BEGIN:VCARD", "VERSION:4.0", f"FN:{formatted}", f"UID:{uids.made_of(path)}")
    return "".join(folded(line) for line in (*lines, "END:VCARD"))
