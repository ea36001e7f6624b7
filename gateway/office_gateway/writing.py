"""The methods of CardDAV that edit: PUT, DELETE, COPY, MOVE, MKCOL and PROPPATCH."""
from __future__ import annotations

import asyncio
import logging
from contextlib import AsyncExitStack
from xml.etree.ElementTree import Element

from . import davxml, paths, uids
from .calls import Call, Reply, xml_reply
from .conditions import check_type, has_tag
from .config import CARD_BYTES
from .davxml import Node, c, d
from .locks import Locks
from .refusals import Refusal, refusal_of
from .resources import Resources
from .server import Answer, Server
from .taking import Taken, taken
from .texts import tag_of

LOG = logging.getLogger("office_gateway")
METHODS = "COPY, DELETE, GET, HEAD, MKCOL, MOVE, OPTIONS, PROPFIND, PROPPATCH, PUT, REPORT"


class Writing:
    """Answers the methods that edit, each under the locks of the books that it touches."""

    def __init__(self, server: Server, resources: Resources, locks: Locks, shrink_photos: bool):
        self._server = server
        self._shrink_photos = shrink_photos
        self._resources = resources
        self._locks = locks

    async def tag_now(self, caller: str, path: str) -> tuple[bool, str | None]:
        """Whether a card is there, and its tag where the caller may read it."""
        try:
            return True, tag_of(await self._resources.text(caller, path))
        except Refusal as refusal:
            if refusal.status >= 500:
                raise
            return refusal.status == 403, None

    async def hold_to(self, call: Call, path: str) -> None:
        """Refusal 412 where If-Match or If-None-Match does not hold (RFC 9110, section 13).

        Called under the book's lock.
        """
        match, none = call.fields.get("If-Match"), call.fields.get("If-None-Match")
        if match is None and none is None:
            return
        there, tag = await self.tag_now(call.caller, path)
        if match is not None and not (there and (match.strip() == "*" or has_tag(match, tag))):
            raise Refusal(412, "precondition")
        if none is not None and there and (none.strip() == "*" or has_tag(none, tag, weak=True)):
            raise Refusal(412, "precondition")

    async def put(self, call: Call, path: str) -> Reply:
        """PUT of a card.

        Where other bytes are kept than were sent, the reply has no tag (RFC 6352, section 6.3.2.3).
        """
        if not paths.is_card(path):
            return await self.passed(call, path)
        check_type(call.fields.get("Content-Type", "text/vcard"))
        card = await asyncio.to_thread(taken, call.body, self._shrink_photos)
        if len(card.data) > CARD_BYTES:
            raise Refusal(403, "max-resource-size")
        async with self._locks.hold(paths.book_of(path)):
            await self.hold_to(call, path)
            if card.lacks_uid():
                card = card.with_uid(await self.uid_at(call.caller, path))
            answer = await self._server.ask(call.caller, "PUT", path, card.data)
        if answer.is_refusal():
            raise moved_fault(refusal_of(answer.status, answer.body), card)
        if card.notes:
            LOG.info("%s PUT %s: %s", call.caller, path, "; ".join(card.notes))
        fields = {} if card.is_changed() else {"ETag": tag_of(call.body.decode())}
        return Reply(answer.status, b"", fields)

    async def uid_at(self, caller: str, path: str) -> str:
        """The UID of the card that is there, or else a new one."""
        try:
            text = await self._resources.text(caller, path)
            return uids.uid_in(text) or uids.new()
        except Refusal as refusal:
            if refusal.status >= 500:
                raise
            return uids.new()

    async def passed(self, call: Call, path: str, **fields: str) -> Reply:
        """Asks the server for an edit, and answers as it does."""
        answer = await self._server.ask(call.caller, call.method, path, b"", **fields)
        return edited(answer)

    async def delete(self, call: Call, path: str) -> Reply:
        """DELETE of a card or a book."""
        async with self._locks.hold(paths.book_of(path)):
            if paths.is_card(path):
                await self.hold_to(call, path)
            return await self.passed(call, path)

    async def transfer(self, call: Call, path: str) -> Reply:
        """COPY and MOVE of a card (RFC 4918, sections 9.8 and 9.9)."""
        field = call.fields.get("Destination", "")
        try:
            target = paths.target_of(field, set(call.authorities))
        except ValueError:
            raise Refusal(400, "bad-request") from None
        if target is None:
            raise Refusal(502, "foreign-destination") if field else Refusal(400, "bad-request")
        destination = paths.dav_path(target)
        overwrite = call.fields.get("Overwrite", "T")
        if destination is None:
            raise Refusal(403, "bad-name")
        if overwrite not in ("T", "F"):
            raise Refusal(400, "bad-request")
        async with self._locks.hold(paths.book_of(path), paths.book_of(destination)):
            if paths.is_card(path):
                await self.hold_to(call, path)
            return await self.passed(call, path, Destination=destination, Overwrite=overwrite)

    async def mkcol(self, call: Call, path: str) -> Reply:
        """MKCOL of a book. A body of RFC 5689 may give a label.

        Where the server refuses the label, the book is there without one.
        """
        label, others = label_of(davxml.parsed(call.body))
        if others:
            return unmade(path, others)
        async with AsyncExitStack() as stack:
            if paths.book_of(path):
                await stack.enter_async_context(self._locks.hold(paths.book_of(path)))
            reply = await self.passed(call, path)
            if not label:
                return reply
            body = {"set": {"displayname": label}}
            answer = await self._server.ask(call.caller, "PROPPATCH", path, body)
        if not answer.is_refusal():
            return reply
        refusal = refusal_of(answer.status, answer.body)
        groups = [
            (200, [Node(d("resourcetype"))], None),
            (answer.status, [Node(d("displayname"))], refusal),
        ]
        node = davxml.response(paths.href(path), groups)
        return xml_reply(Node(d("mkcol-response"), *node.content[1:]), 201)

    async def proppatch(self, call: Call, path: str) -> Reply:
        """PROPPATCH of a label.

        Where another property is asked for, nothing is written (RFC 4918, section 9.2).
        """
        label, names = label_and_names(davxml.parsed(call.body))
        others = [Node(name) for name in names if name != d("displayname")]
        mine = [Node(d("displayname"))] if label is not None else []
        if others or label is None:
            refusal = Refusal(403, "cannot-modify-protected-property")
            return patched(path, [(403, others, refusal), (424, mine, None)])
        async with self._locks.hold(paths.book_of(path)):
            body = {"set": {"displayname": label}}
            answer = await self._server.ask(call.caller, "PROPPATCH", path, body)
        refused = refusal_of(answer.status, answer.body) if answer.is_refusal() else None
        if refused is not None and refused.status != 403:
            raise refused
        return patched(path, [(answer.status, mine, refused)])


def patched(path: str, groups: list[tuple[int, list[Node], Refusal | None]]) -> Reply:
    """The answer to a PROPPATCH."""
    return xml_reply(Node(d("multistatus"), davxml.response(paths.href(path), groups)))


def edited(answer: Answer) -> Reply:
    """The reply to an edit; Refusal where the server refuses it."""
    if answer.is_refusal():
        refusal = refusal_of(answer.status, answer.body)
        if "Allow" in answer.fields:
            refusal.fields["Allow"] = METHODS
        raise refusal
    return Reply(answer.status)


def moved_fault(refusal: Refusal, card: Taken) -> Refusal:
    """A card's fault with the line of the card that the client sent."""
    line = refusal.detail.get("line")
    if refusal.name == "bad-card" and isinstance(line, int):
        refusal.detail["line"] = card.origin(line)
    return refusal


def unmade(path: str, others: list[str]) -> Reply:
    """The answer to a MKCOL that asks for properties that cannot be set: no book is made."""
    refusal = Refusal(403, "cannot-modify-protected-property")
    mine = [Node(d("resourcetype")), Node(d("displayname"))]
    groups = [(403, [Node(name) for name in others], refusal), (424, mine, None)]
    node = davxml.response(paths.href(path), groups)
    return xml_reply(Node(d("mkcol-response"), *node.content[1:]), 403)


def label_of(body: Element | None) -> tuple[str, list[str]]:
    """The label that a body of RFC 5689 gives a book, and the other properties that it sets;
    Refusal where it asks for another thing than a book."""
    if body is None:
        return "", []
    if body.tag != d("mkcol"):
        raise Refusal(415, "bad-xml")
    label, others = "", []
    for element in properties_in(body, d("set")):
        if element.tag == d("displayname"):
            label = element.text or ""
        elif element.tag != d("resourcetype"):
            others.append(element.tag)
        elif element.find(c("addressbook")) is None:
            raise Refusal(403, "valid-resourcetype")
    if not all(davxml.is_writable(name) for name in others):
        raise Refusal(400, "bad-xml")
    return label, others


def properties_in(body: Element, change: str) -> list[Element]:
    """The properties of a body's changes of this kind, in order."""
    holders = [holder for found in body.findall(change) for holder in found.findall(d("prop"))]
    return [element for holder in holders for element in holder]


def label_and_names(body: Element | None) -> tuple[str | None, list[str]]:
    """The label that a propertyupdate sets, or None, and the properties that it names."""
    if body is None or body.tag != d("propertyupdate"):
        raise Refusal(400, "bad-xml")
    label, names = None, []
    for change in body:
        for element in [prop for holder in change.findall(d("prop")) for prop in holder]:
            if not davxml.is_writable(element.tag):
                raise Refusal(400, "bad-xml")
            names.append(element.tag)
            if element.tag == d("displayname"):
                label = (element.text or "") if change.tag == d("set") else ""
    return label, list(dict.fromkeys(names))
