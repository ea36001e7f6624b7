"""What stands at paths, as the server tells it to a caller: homes, principals, books and cards."""
from __future__ import annotations

from collections.abc import Iterable, Mapping
from dataclasses import replace
from typing import Any

from . import paths, uids
from .copies import Copies
from .davxml import c, d
from .offers import Offers
from .properties import CTAG, Asked, Resource
from .refusals import Refusal, refusal_of
from .server import Server
from .syncing import Syncing
from .texts import Held

PRIVILEGES = d("current-user-privilege-set")
# What is told of a card from its text.
TEXTUAL = {d("getetag"), d("getcontentlength"), c("address-data")}


class Resources:
    """What a caller may see, asked of the server as that caller each time."""

    def __init__(
        self, server: Server, copies: Copies, syncing: Syncing, offers: Offers, service: str
    ):
        self._server = server
        self._offers = offers
        self._copies = copies
        self._syncing = syncing
        self._service = service

    async def at(self, caller: str, path: str, asked: Asked) -> Resource:
        """What stands at a path.

        The root, the books and the caller's own principal are there for every caller.
        """
        try:
            found = await self.looked(caller, path, asked)
        except Refusal as refusal:
            if refusal.name != "need-privileges":
                raise
            if self.is_offered(caller, path):
                return await self.offered(caller, path, asked, refusal)
            if path not in ("/", "/books", f"/people/{caller}"):
                raise
            kind = {"/": "root", "/books": "home"}.get(path, "person")
            hidden = dict.fromkeys((d("owner"), PRIVILEGES), refusal)
            return Resource(path, kind, caller, refused=hidden)
        if found.kind == "card" and TEXTUAL & set(asked.names):
            return replace(found, told=await self.text(caller, path))
        if found.kind == "book" and found.token is not None:
            return await self.with_token(caller, found)
        return found

    def is_offered(self, caller: str, path: str) -> bool:
        """Whether it is a book that the settings offer to the caller, or a card in one."""
        book = paths.book_of(path)
        return book is not None and self._offers.has(caller, book)

    async def offered(self, caller: str, path: str, asked: Asked, refusal: Refusal) -> Resource:
        """A book or a card that the settings offer to the caller, as far as the server tells it.

        The same refusal where the server tells nothing of the card.
        """
        _, book, *name = paths.parts_of(path)
        if name:
            held = (await self._copies.read(caller, book)).cards.get(name[0])
            if held is None:
                raise refusal
            return offered_card(Resource(path, "card", caller, held=held), refusal)
        tokens = {d("sync-token"), CTAG} & set(asked.names)
        token = (await self._syncing.whole(caller, book)).token if tokens else None
        shown = self._offers.privileges(caller, book)
        hidden = {d("owner"): refusal}
        return Resource(path, "book", caller, token=token, privileges=shown, refused=hidden)

    async def with_token(self, caller: str, book: Resource) -> Resource:
        """A book with a token of which it is remembered what the caller may read with it.

        Only of a book that the caller has read. For another the server's token is told.
        """
        name = paths.parts_of(book.path)[1]
        if not self._copies.has(caller, name):
            return book
        return replace(book, token=(await self._syncing.whole(caller, name)).token)

    async def looked(self, caller: str, path: str, asked: Asked) -> Resource:
        """What the server tells of a path.

        Who may not ask for the privileges is told the one that this very request shows, `read`:
        clients take a resource whose privileges they are not told for one that may not be read.
        """
        wanted = ["displayname", "resourcetype", "owner"]
        wanted += ["sync-token"] if d("sync-token") in asked.names or CTAG in asked.names else []
        shown = None
        if PRIVILEGES in asked.names:
            try:
                body = {"prop": [*wanted, "current-user-privilege-set"]}
                answer = await self._server.read(caller, "PROPFIND", path, body)
                return resource_of(answer["responses"][0], caller)
            except Refusal as refusal:
                if refusal.detail.get("privilege") != "read-current-user-privilege-set":
                    raise
                shown = ["read"]
        answer = await self._server.read(caller, "PROPFIND", path, {"prop": wanted})
        return replace(resource_of(answer["responses"][0], caller), privileges=shown)

    async def text(self, caller: str, path: str) -> str:
        """The text of a card that the caller may read: this card alone is asked for."""
        answer = await self._server.ask(caller, "GET", path)
        if answer.status == 403 and self.is_offered(caller, path):
            book, name = paths.parts_of(path)[1:]
            held = (await self._copies.read(caller, book)).cards.get(name)
            if held is not None:
                return held.text
        if answer.is_refusal():
            raise refusal_of(answer.status, answer.body)
        return uids.told(path, answer.body.decode("utf-8", "replace"))

    async def card(self, caller: str, path: str) -> tuple[Held | None, str]:
        """A card that the caller may read, and what is held of it where its book is read too."""
        book, name = paths.parts_of(path)[1:]
        try:
            held = (await self._copies.read(caller, book)).cards.get(name)
        except Refusal as refusal:
            if refusal.status >= 500:
                raise
            held = None
        return held, held.text if held else await self.text(caller, path)

    async def listed(self, caller: str, parent: Resource, asked: Asked) -> list[Resource]:
        """A resource, and after it what stands in it and the caller may see."""
        if parent.kind != "book":
            return [parent, *await self.children(caller, parent, asked)]
        name = paths.parts_of(parent.path)[1]
        if parent.token is None:
            copy = await self._copies.read(caller, name)
        else:
            copy = await self._syncing.whole(caller, name)
            parent = replace(parent, token=copy.token)
        return [parent, *await self.cards(caller, parent.path, copy.cards, asked)]

    async def children(self, caller: str, parent: Resource, asked: Asked) -> list[Resource]:
        """What stands in a home, or in the root, and the caller may see."""
        if parent.kind == "root":
            own = ("/books", f"/people/{caller}")
            return [await self.at(caller, path, asked) for path in own]
        if parent.path == "/books":
            return await self.books(caller, asked)
        if parent.kind == "home":
            seen = await self.seen(caller, parent.path)
            return [await self.at(caller, path, asked) for path in seen]
        return []

    async def seen(self, caller: str, home: str) -> list[str]:
        """The paths in a home of which the caller may PROPFIND."""
        body = {"prop": ["displayname"]}
        answer = await self._server.read(caller, "PROPFIND", home, body, Depth="1")
        return [child["href"] for child in answer["responses"][1:] if child["status"] == 200]

    async def book_names(self, caller: str) -> list[str]:
        """The paths of all books, as the service person lists them, or else as the caller does."""
        lister = self._service or caller
        body = {"prop": ["resourcetype"]}
        answer = await self._server.read(lister, "PROPFIND", "/books", body, Depth="1")
        return [response["href"] for response in answer["responses"][1:]]

    async def books(self, caller: str, asked: Asked) -> list[Resource]:
        """The books that the server lets the caller PROPFIND, and those that are offered."""
        found = []
        try:
            names = await self.book_names(caller)
        except Refusal as refusal:
            if refusal.name != "need-privileges" or self._service:
                raise
            names = []
        for path in dict.fromkeys([*names, *self._offers.books(caller)]):
            try:
                found.append(await self.looked(caller, path, asked))
            except Refusal as refusal:
                if refusal.name not in ("need-privileges", "not-found"):
                    raise
                if refusal.name == "need-privileges" and self.is_offered(caller, path):
                    found.append(await self.offered(caller, path, asked, refusal))
        return found

    async def cards(
        self, caller: str, book: str, cards: Mapping[str, Held], asked: Asked
    ) -> list[Resource]:
        """Cards of a copy as resources, with owner and privileges where these are asked for."""
        found = [
            Resource(f"{book}/{name}", "card", caller, held.label, held=held)
            for name, held in cards.items()
        ]
        try:
            if d("owner") in asked.names and found:
                told = await self.details(caller, book, "owner")
                found = [with_owner(card, told.get(card.path)) for card in found]
            if PRIVILEGES in asked.names and found:
                told = await self.details(caller, book, "current-user-privilege-set")
                found = [with_privileges(card, told.get(card.path)) for card in found]
        except Refusal as refusal:
            if refusal.name != "need-privileges" or not self.is_offered(caller, book):
                raise
            return [offered_card(card, refusal) for card in found]
        return found

    async def details(self, caller: str, book: str, key: str) -> dict[str, dict[str, Any]]:
        """What the server tells of a property of each card of a book, by path."""
        answer = await self._server.read(caller, "PROPFIND", book, {"prop": [key]}, Depth="1")
        return {response["href"]: response for response in answer["responses"]}

    async def singly(
        self, caller: str, book: str, names: Iterable[str], asked: Asked
    ) -> list[Resource]:
        """Cards that are asked for one by one."""
        found = []
        for name in names:
            try:
                found.append(await self.at(caller, f"{book}/{name}", asked))
            except Refusal as refusal:
                if refusal.status >= 500:
                    raise
        return found


def offered_card(card: Resource, refusal: Refusal) -> Resource:
    """A card of a book that is offered: it may be read, and its owner is not told."""
    return replace(card, privileges=["read"], refused={d("owner"): refusal})


def with_owner(card: Resource, response: Mapping[str, Any] | None) -> Resource:
    """A card with its owner as the server told it, or with the denial."""
    if response is not None and response["status"] == 200:
        return replace(card, owner=response["prop"]["owner"])
    return replace(card, refused=card.refused | {d("owner"): denial(response)})


def with_privileges(card: Resource, response: Mapping[str, Any] | None) -> Resource:
    """A card with what the caller may do as the server told it.

    Who may not ask for that is told `read`, since the card stands in what the caller may read.
    """
    if response is not None and response["status"] == 200:
        return replace(card, privileges=response["prop"]["current-user-privilege-set"])
    refusal = denial(response)
    if refusal.detail.get("privilege") == "read-current-user-privilege-set":
        return replace(card, privileges=["read"])
    return replace(card, refused=card.refused | {PRIVILEGES: refusal})


def denial(response: Mapping[str, Any] | None) -> Refusal:
    """The refusal in a response of a PROPFIND; None is a card that has gone meanwhile."""
    return Refusal(403, "need-privileges", **(response or {}).get("need-privileges", {}))


def resource_of(response: dict[str, Any], caller: str) -> Resource:
    """A resource as a PROPFIND of the server tells it."""
    prop = response["prop"]
    return Resource(
        response["href"], prop["resourcetype"], caller, prop["displayname"], prop["owner"],
        prop.get("sync-token"), prop.get("current-user-privilege-set"),
    )
