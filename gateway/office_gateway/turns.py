"""Long work in slices. One slice is done at a time, and requests are served between two slices."""
from __future__ import annotations

import asyncio
import time
from collections.abc import AsyncIterator
from contextlib import asynccontextmanager

# Seconds of a slice.
SLICE = 0.005


class Turns:
    """Whose turn it is. Those who wait have their turns in the order in which they came."""

    def __init__(self, seconds: float = SLICE):
        self._seconds = seconds
        self._lock = asyncio.Lock()

    @asynccontextmanager
    async def work(self) -> AsyncIterator[Slice]:
        """Work that breathes between its steps."""
        async with self._lock:
            yield Slice(self._lock, self._seconds)


class Slice:
    """The turn of one piece of work."""

    def __init__(self, lock: asyncio.Lock, seconds: float):
        self._lock = lock
        self._seconds = seconds
        self._until = time.monotonic() + seconds

    async def breathe(self) -> None:
        """Lets others have their turns where the slice is over."""
        if time.monotonic() < self._until:
            return
        self._lock.release()
        try:
            await asyncio.sleep(0)
        finally:
            await self._lock.acquire()
        self._until = time.monotonic() + self._seconds
