"""Answers in XML that tell of many resources: bounded, and written piece after piece."""
from __future__ import annotations

from collections.abc import AsyncIterator, Iterable, Iterator, Sequence

from . import davxml
from .calls import XML_TYPE, Reply
from .davxml import Node, d
from .properties import Asked, Resource, told
from .refusals import Refusal
from .turns import Turns

# Properties of all resources together in one answer.
PROPERTIES = 400_000


class Answers:
    """Makes multistatus answers. A piece is made when the one before was sent."""

    def __init__(self, turns: Turns, unversioned: str):
        self._turns = turns
        self._unversioned = unversioned

    async def multistatus(
        self, found: Sequence[Resource], asked: Asked, more: Iterable[Node] = ()
    ) -> Reply:
        """The answer that tells of these resources, and has more after them; Refusal 507 where it
        would have too many properties."""
        if len(found) * len(asked.names) > PROPERTIES:
            raise Refusal(507, "number-of-matches-within-limits")

        def content() -> Iterator[Node]:
            for resource in found:
                yield told(resource, asked, self._unversioned)
            yield from more

        pieces = davxml.pieces(d("multistatus"), content())
        return Reply(207, next(pieces), {"Content-Type": XML_TYPE}, self.rest(pieces))

    async def rest(self, pieces: Iterator[bytes]) -> AsyncIterator[bytes]:
        """The pieces, each made in a turn."""
        while True:
            async with self._turns.work():
                piece = next(pieces, None)
            if piece is None:
                return
            yield piece
