"""Replies of the server that are on their way to clients. The sum of their bytes is bounded.

A reply is read as fast as the server sends it, so that the connection to the server is free again
also where a client reads slowly. What is not small waits in a file without a name.
"""
from __future__ import annotations

import tempfile
from collections.abc import AsyncIterator

from .refusals import Refusal

# Bytes of a reply that are kept in memory, and bytes that are sent at a time.
SMALL, PART = 262_144, 65_536


class Flight:
    """All replies that are on their way."""

    def __init__(self, limit: int):
        self._limit = limit
        self.size = 0

    def take(self, count: int) -> None:
        """Counts bytes; Refusal 503 where there are too many."""
        if self.size + count > self._limit:
            raise Refusal(503, "busy", {"Retry-After": "5"})
        self.size += count

    def give(self, count: int) -> None:
        """Counts bytes no more."""
        self.size -= count


class Spool:
    """A reply that is read, and then sent."""

    def __init__(self, flight: Flight):
        self._flight = flight
        self._file = tempfile.SpooledTemporaryFile(SMALL)
        self.size = 0

    def write(self, part: bytes) -> None:
        """Adds bytes; Refusal 503 where too many are on their way."""
        self._flight.take(len(part))
        self.size += len(part)
        self._file.write(part)

    def clear(self) -> None:
        """Begins anew."""
        self._flight.give(self.size)
        self.size = 0
        self._file.seek(0)
        self._file.truncate()

    def read(self) -> bytes:
        """All bytes, of a small reply."""
        self._file.seek(0)
        return self._file.read()

    async def parts(self) -> AsyncIterator[bytes]:
        """The bytes part after part. At the end the reply is let go."""
        try:
            self._file.seek(0)
            while part := self._file.read(PART):
                yield part
        finally:
            self.close()

    def close(self) -> None:
        """Lets the reply go."""
        self._flight.give(self.size)
        self.size = 0
        self._file.close()
