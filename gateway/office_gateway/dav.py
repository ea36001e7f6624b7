"""The methods of CardDAV (RFC 6352) over the server's requests.

What a caller may read or do is asked of the server as that caller, each time. What is kept here
alone: XML, entity tags and their conditions, filters, versions of vCard, and the collections
through which clients find their books.
"""
from __future__ import annotations

import asyncio
import logging

from . import client_names, paths
from .calls import Call, Reply
from .answers import Answers
from .config import Cards
from .copies import Copies
from .locks import Locks
from .offers import Offers
from .properties import Asked, Resource
from .reading import Reading
from .refusals import Refusal
from .reports import Reports
from .resources import Resources
from .server import Server
from .syncing import Syncing
from .texts import Held
from .told import Told
from .turns import Turns
from .writing import METHODS, Writing

LOG = logging.getLogger("office_gateway")
# Slashes in the target of a card: nothing stands deeper.
DEEPEST = 4
# RFC 3744's class access-control is not told: its properties acl and supported-privilege-set, and
# its method ACL, are not there.
CLASSES = "1, 3, addressbook, extended-mkcol"


class Dav:
    """Answers requests below /dav."""

    def __init__(
        self,
        server: Server,
        copies: Copies,
        offers: Offers,
        told: Told,
        locks: Locks,
        turns: Turns,
        service: str,
        cards: Cards,
    ):
        syncing = Syncing(copies, told)
        self._resources = Resources(server, copies, syncing, offers, service)
        answers = Answers(turns, cards.unversioned)
        reading = Reading(server, self._resources, answers)
        reports = Reports(copies, syncing, self._resources, answers, turns)
        writing = Writing(server, self._resources, locks, cards.shrink_photos)
        self._methods = {
            "OPTIONS": self.options, "PROPFIND": reading.propfind, "REPORT": reports.report,
            "GET": reading.get, "HEAD": reading.get, "PUT": writing.put, "DELETE": writing.delete,
            "MKCOL": writing.mkcol, "COPY": writing.transfer, "MOVE": writing.transfer,
            "PROPPATCH": writing.proppatch,
        }

    async def answer(self, call: Call) -> Reply:
        """The reply to a request; Refusal where it is refused."""
        path = paths.dav_path(call.target)
        if path is None:
            makes = call.method in ("PUT", "MKCOL")
            if makes and call.target.rstrip("/").count("/") > DEEPEST:
                raise Refusal(409, "no-parent")
            raise Refusal(403, "bad-name") if makes else Refusal(404, "not-found")
        if call.method not in self._methods:
            raise Refusal(405, "not-allowed", {"Allow": METHODS})
        reply = await self._methods[call.method](call, path)
        if reply.status < 300:
            await asyncio.to_thread(remember, call)
        return reply

    async def options(self, call: Call, path: str) -> Reply:
        """What is answered here (RFC 4918, section 10.1)."""
        return Reply(200, b"", {"DAV": CLASSES, "Allow": METHODS})

    async def books(self, caller: str, asked: Asked) -> list[Resource]:
        """The books that the server lets the caller PROPFIND."""
        return await self._resources.books(caller, asked)

    async def book_names(self, caller: str) -> list[str]:
        """The paths of all books that may be listed."""
        return await self._resources.book_names(caller)

    async def card(self, caller: str, path: str) -> tuple[Held | None, str]:
        """A card that the caller may read, and what is held of it where its book is read too."""
        return await self._resources.card(caller, path)


def remember(call: Call) -> None:
    """Keeps the names that a request gave to cards, where the server has them by their digests."""
    try:
        destination = paths.target_of(call.fields.get("Destination", ""), set(call.authorities))
    except ValueError:
        destination = None
    for target in (call.target, destination or ""):
        name = paths.chosen_name(target)
        try:
            if name is not None:
                client_names.LONG.remember(name)
        except OSError as fault:
            LOG.error("the name of a card cannot be kept: %s", fault.strerror)
