"""Sign-ins that fail: who fails often waits, by address and by name.

A wrong name or password is counted for the address that it came from and for the name. After a few,
each further sign-in of that address or name waits, longer with each, and one after another. Where a
name has signed in from an address before, it waits for failures of the address alone: so nobody can
keep others out by wrong guesses. The same wrong password again counts once: it is a phone whose
password was changed, and no guess. What was counted is forgotten after a while without a failure.
"""
from __future__ import annotations

import asyncio
import hashlib
import ipaddress
import logging
import secrets
import time
from collections import OrderedDict
from dataclasses import dataclass
from typing import TypeVar

from .refusals import Refusal

LOG = logging.getLogger("office_gateway")
# Failures that cost nothing, seconds that the next one waits, and the most that one waits.
FREE = 5
FIRST_SECONDS = 0.25
MOST_SECONDS = 8.0
# Seconds that one may be behind others of the same address or name; beyond them it is refused.
BEHIND_SECONDS = 20.0
# Sign-ins that wait at a time.
WAITING = 1_024
FORGOTTEN_SECONDS = 900.0
KEPT = 16_384


@dataclass
class Count:
    """Failures of an address or a name, when the last was, and when the next sign-in may be."""

    failures: int = 0
    last: float = 0.0
    free_at: float = 0.0

    def delay(self) -> float:
        """Seconds between two sign-ins."""
        over = self.failures - FREE
        return min(MOST_SECONDS, FIRST_SECONDS * 2 ** min(over, 10)) if over >= 0 else 0.0


class Guesses:
    """Failures by address and by name."""

    def __init__(self) -> None:
        self._counts: OrderedDict[str, Count] = OrderedDict()
        # Digests of wrong guesses, and names with the addresses from which they have signed in.
        self._known: OrderedDict[bytes, None] = OrderedDict()
        self._familiar: OrderedDict[tuple[str, str], None] = OrderedDict()
        self._key = secrets.token_bytes(32)
        self._waiting = 0

    async def turn(self, login: str, address: str) -> None:
        """Waits until this name may sign in from this address; Refusal 429 where that is long."""
        now = time.monotonic()
        keys = [key_of(address)] if address else []
        if (login, key_of(address)) not in self._familiar:
            keys.append(f"name {login[:200]}")
        slow = [count for count in (self._count(key, now) for key in keys) if count.delay()]
        begin = max([now, *(count.free_at for count in slow)])
        if begin - now > BEHIND_SECONDS or begin > now and self._waiting >= WAITING:
            raise Refusal(429, "too-many-failures", {"Retry-After": str(int(begin - now) + 1)})
        for count in slow:
            count.free_at = begin + count.delay()
        self._waiting += 1
        try:
            await asyncio.sleep(begin - now)
        finally:
            self._waiting -= 1

    def failed(self, login: str, address: str, password: bytes) -> None:
        """Counts a failure, and tells it in the log."""
        # The address stands before the name, which anybody may choose.
        LOG.warning("sign-in failed from %s as %s", address or "-", ascii(login[:200]))
        said = login.encode("utf-8", "surrogatepass") + b"\0" + password
        guess = hashlib.blake2b(said, key=self._key).digest()
        if guess in self._known:
            return
        remember(self._known, guess)
        now = time.monotonic()
        for key in [f"name {login[:200]}", *([key_of(address)] if address else [])]:
            count = self._count(key, now)
            count.failures, count.last = count.failures + 1, now
            count.free_at = max(count.free_at, now + count.delay())

    def succeeded(self, login: str, address: str) -> None:
        """Forgets the failures of a name. Those of its address stay, as others may sit there."""
        self._counts.pop(f"name {login[:200]}", None)
        remember(self._familiar, (login, key_of(address)))

    def _count(self, key: str, now: float) -> Count:
        """What is counted of an address or a name."""
        count = self._counts.get(key)
        if count is None or count.last and now - count.last > FORGOTTEN_SECONDS:
            count = Count(last=now)
            self._counts[key] = count
        self._counts.move_to_end(key)
        while len(self._counts) > KEPT:
            self._counts.popitem(last=False)
        return count


Key = TypeVar("Key")


def remember(known: OrderedDict[Key, None], key: Key) -> None:
    """Keeps a key, and as many of the others as there is room for."""
    known[key] = None
    known.move_to_end(key)
    while len(known) > KEPT:
        known.popitem(last=False)


def key_of(address: str) -> str:
    """What failures of an address are counted by: of IPv6 its network of 64 bits."""
    try:
        number = ipaddress.ip_address(address.partition("%")[0])
    except ValueError:
        return f"address {address[:200]}"
    if number.version == 6:
        return f"address {ipaddress.ip_network((number, 64), strict=False)}"
    return f"address {number}"
