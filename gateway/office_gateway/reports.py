"""The reports of RFC 6352 and RFC 6578 on a book: multiget, query and sync-collection."""
from __future__ import annotations

import re
from xml.etree.ElementTree import Element

from . import davxml, paths
from .answers import Answers
from .calls import Call, Reply
from .copies import Copies
from .davxml import Node, c, d
from .properties import Asked, Resource, props_of
from .queries import filter_of
from .refusals import Refusal
from .resources import Resources
from .syncing import Syncing
from .texts import Held
from .turns import Turns

# Cards asked for one by one: where the caller may read cards and not their book, and where no copy
# of the book is kept.
SINGLY, FEW = 500, 20


class Reports:
    """Answers REPORT."""

    def __init__(
        self,
        copies: Copies,
        syncing: Syncing,
        resources: Resources,
        answers: Answers,
        turns: Turns,
    ):
        self._copies = copies
        self._syncing = syncing
        self._resources = resources
        self._answers = answers
        self._turns = turns

    async def report(self, call: Call, path: str) -> Reply:
        """The reports that are known here."""
        body = davxml.parsed(call.body)
        if body is None:
            raise Refusal(400, "bad-xml")
        reports = {
            c("addressbook-multiget"): self.multiget,
            c("addressbook-query"): self.query,
            d("sync-collection"): self.sync,
        }
        if body.tag not in reports or not paths.is_book(path):
            raise Refusal(403, "supported-report")
        asked = props_of(body) or Asked([d("getetag")])
        return await reports[body.tag](call, path, body, asked)

    async def multiget(self, call: Call, path: str, body: Element, asked: Asked) -> Reply:
        """addressbook-multiget: the cards that are named."""
        hrefs = [(element.text or "").strip() for element in body.findall(d("href"))]
        names = {text: name_in(call, path, text) for text in hrefs}
        known = list(dict.fromkeys(name for name in names.values() if name))
        found = await self.named(call.caller, path, known, asked)
        seen = {resource.path for resource in found}
        missing = [text for text, name in names.items() if f"{path}/{name}" not in seen]
        more = [davxml.status_response(text, 404) for text in missing]
        return await self._answers.multistatus(found, asked, more)

    async def named(
        self, caller: str, path: str, names: list[str], asked: Asked
    ) -> list[Resource]:
        """The cards of these names that the caller may read."""
        book = paths.parts_of(path)[1]
        if len(names) <= FEW and not self._copies.has(caller, book):
            return await self._resources.singly(caller, path, names, asked)
        try:
            cards = (await self._copies.read(caller, book)).cards
        except Refusal as refusal:
            if refusal.name != "need-privileges" or len(names) > SINGLY:
                raise
            return await self._resources.singly(caller, path, names, asked)
        wanted = {name: cards[name] for name in names if name in cards}
        return await self._resources.cards(caller, path, wanted, asked)

    async def query(self, call: Call, path: str, body: Element, asked: Asked) -> Reply:
        """addressbook-query: the cards that a filter holds of, as many as are asked for."""
        holds = filter_of(body.find(c("filter")))
        limit = limit_of(body.find(c("limit")), c("nresults"))
        cards = (await self._copies.read(call.caller, paths.parts_of(path)[1])).cards
        kept: dict[str, Held] = {}
        more = []
        async with self._turns.work() as work:
            for name, held in cards.items():
                await work.breathe()
                if not holds(held.text):
                    continue
                if limit is not None and len(kept) == limit:
                    more = [too_many(path)]
                    break
                kept[name] = held
        found = await self._resources.cards(call.caller, path, kept, asked)
        return await self._answers.multistatus(found, asked, more)

    async def sync(self, call: Call, path: str, body: Element, asked: Asked) -> Reply:
        """sync-collection: what changed since a token, as many as asked for, and the next token."""
        book = paths.parts_of(path)[1]
        token = (body.findtext(d("sync-token")) or "").strip()
        if (body.findtext(d("sync-level")) or "1").strip() != "1":
            raise Refusal(403, "sync-traversal-supported")
        limit = limit_of(body.find(d("limit")), d("nresults"))
        changes = await self._syncing.after(call.caller, book, token, limit)
        held = {name: card for name, card in changes.cards.items() if card is not None}
        found = await self._resources.cards(call.caller, path, held, asked)
        more = [
            davxml.status_response(paths.href(f"{path}/{name}"), 404)
            for name, card in changes.cards.items()
            if card is None
        ]
        more += [too_many(path)] if changes.more else []
        more.append(Node(d("sync-token"), changes.token))
        return await self._answers.multistatus(found, asked, more)


def name_in(call: Call, path: str, text: str) -> str | None:
    """The name of the card in this book that an href names."""
    try:
        target = paths.target_of(text, set(call.authorities))
    except ValueError:
        return None
    card = paths.dav_path(target) if target else None
    return card.rsplit("/", 1)[1] if card and card.startswith(path + "/") else None


def too_many(path: str) -> Node:
    """The response that says that there is more (RFC 6578, section 3.6)."""
    refusal = Refusal(507, "number-of-matches-within-limits")
    return davxml.status_response(paths.href(path), 507, refusal)


def limit_of(element: Element | None, name: str) -> int | None:
    """The number of a limit; Refusal 400 where it is not 1 or more."""
    if element is None:
        return None
    text = (element.findtext(name) or "").strip()
    if re.fullmatch(r"[0-9]{1,9}", text) is None or int(text) < 1:
        raise Refusal(400, "bad-xml")
    return int(text)
