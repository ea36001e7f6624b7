"""Names and passwords from an htpasswd file with bcrypt.

A password is checked off the event loop. One that was right is remembered for a while under a keyed
digest, so that a client that sends it with each request does not cost a check each time, and waits
for nobody's failures. A name that is not in the file is checked against a made-up password of the
same cost, so that the time tells nothing of which names there are.
"""
from __future__ import annotations

import asyncio
import hashlib
import hmac
import logging
import re
import secrets
import time
from collections import OrderedDict
from concurrent.futures import ThreadPoolExecutor
from pathlib import Path

import bcrypt

from .accounts import Changed
from .config import ConfigFault, People
from .guesses import Guesses
from .paths import is_name
from .refusals import Refusal

LOG = logging.getLogger("office_gateway")
# The costs of bcrypt that are taken. One more doubles the time of a check, and of a guess.
LEAST_COST, MOST_COST = 10, 14
HASH = re.compile(rb"\$2[aby]\$(\d\d)\$[./A-Za-z0-9]{53}")
REMEMBERED = 1_024
REMEMBER_SECONDS = 300.0
WORKERS = 2
WAITING = 64


class Passwords:
    """Who has which password."""

    def __init__(self, people: People, changed: Changed | None = None):
        self._people = people
        self._changed = changed or Changed(None)
        self._filed: dict[str, bytes] = {}
        self._hashes: dict[str, bytes] = {}
        self._stamp: tuple[int, int] | None = None
        self._looked = 0.0
        self._key = secrets.token_bytes(32)
        self._right: OrderedDict[bytes, tuple[float, bytes]] = OrderedDict()
        self._workers = ThreadPoolExecutor(WORKERS, "password")
        self._waiting = 0
        self._guesses = Guesses()
        self._other = other_of(LEAST_COST)
        self._read(begin=True)

    def close(self) -> None:
        """Lets the workers go."""
        self._workers.shutdown(wait=False, cancel_futures=True)

    def person(self, login: str) -> str | None:
        """The person that a login name is, without regard to passwords."""
        person = self._people.names.get(login, login)
        return person if is_name(person) and person != self._people.service else None

    def mark(self, login: str) -> bytes | None:
        """What changes when a password does; None where the name has none any more.

        A session ends with it.
        """
        self._read()
        wanted = self._hashes.get(login)
        return hashlib.sha256(wanted).digest() if wanted is not None else None

    def has(self, login: str) -> bool:
        """Whether the name is in the file of passwords."""
        self._read()
        return login in self._filed

    async def change(self, login: str, new: str) -> None:
        """Sets the password of a name that is in the file."""
        self._read()
        if login not in self._filed:
            raise Refusal(403, "no-own-password")
        loop = asyncio.get_running_loop()
        await loop.run_in_executor(
            self._workers, self._changed.change, login, self._filed[login], new
        )
        self._hashes = self._changed.over(self._filed)

    async def check(self, login: str, password: str, address: str = "") -> str | None:
        """The person who signs in with this name and password; None where they do not fit.

        Refusal 503 under load, and 429 where this name or address fails too often.
        """
        self._read()
        person, wanted = self.person(login), self._hashes.get(login)
        given = password.encode("utf-8", "surrogatepass")
        if wanted is not None and self._remembers(login, given, wanted):
            return person
        await self._guesses.turn(login, address)
        if self._waiting >= WAITING:
            raise Refusal(503, "busy", {"Retry-After": "5"})
        self._waiting += 1
        try:
            fits = await self._fits(given, wanted or self._other)
        finally:
            self._waiting -= 1
        if not fits or wanted is None or person is None:
            self._guesses.failed(login, address, given)
            return None
        self._guesses.succeeded(login, address)
        self._remember(login, given, wanted)
        return person

    async def _fits(self, given: bytes, wanted: bytes) -> bool:
        """Whether a password fits a hash, found off the event loop."""
        loop = asyncio.get_running_loop()
        return await loop.run_in_executor(self._workers, fitting, given, wanted)

    def _digest(self, login: str, given: bytes) -> bytes:
        said = login.encode("utf-8", "surrogatepass") + b"\0" + given
        return hmac.digest(self._key, said, "sha256")

    def _remembers(self, login: str, given: bytes, wanted: bytes) -> bool:
        found = self._right.get(self._digest(login, given))
        if found is None or found[0] <= time.monotonic():
            return False
        return hmac.compare_digest(found[1], hashlib.sha256(wanted).digest())

    def _remember(self, login: str, given: bytes, wanted: bytes) -> None:
        until = time.monotonic() + REMEMBER_SECONDS
        self._right[self._digest(login, given)] = (until, hashlib.sha256(wanted).digest())
        while len(self._right) > REMEMBERED:
            self._right.popitem(last=False)

    def _read(self, begin: bool = False) -> None:
        """Reads the file where it has changed; at most once a second. At the begin, ConfigFault
        where a password is too cheap to guess."""
        if time.monotonic() - self._looked < 1.0 and not begin:
            return
        self._looked = time.monotonic()
        path = self._people.passwords
        try:
            state = path.stat()
            stamp = (state.st_mtime_ns, state.st_size)
            if stamp == self._stamp:
                return
            text = path.read_text(encoding="utf-8")
        except (OSError, UnicodeDecodeError) as fault:
            LOG.error("nobody can sign in: %s cannot be read: %s", path, fault)
            LOG.error("the first password is set with: htpasswd -B -C 12 -c %s NAME", path)
            self._hashes, self._filed, self._stamp = {}, {}, None
            return
        if begin:
            check_costs(text, path)
        self._filed, self._stamp = hashes_of(text), stamp
        self._hashes = self._changed.over(self._filed)
        costs = [cost_of(value) for value in self._hashes.values()]
        if costs and max(costs) != cost_of(self._other):
            self._other = other_of(max(costs))


def cost_of(value: bytes) -> int:
    """The cost of a hash of bcrypt."""
    return int(value[4:6])


def other_of(cost: int) -> bytes:
    """The hash of a password that nobody has."""
    return bcrypt.hashpw(secrets.token_hex(16).encode(), bcrypt.gensalt(cost))


def check_costs(text: str, path: Path) -> None:
    """ConfigFault where a hash of bcrypt is too cheap, with the command that mends it."""
    for number, line in enumerate(text.splitlines(), 1):
        login, _, value = line.strip().partition(":")
        if HASH.fullmatch(value.encode()) and cost_of(value.encode()) < LEAST_COST:
            raise ConfigFault(
                f"{path}: line {number}: the password of {login} is of bcrypt with cost "
                f"{cost_of(value.encode())}, and is to have {LEAST_COST} or more; it is set anew "
                f"with: htpasswd -B -C 12 {path} {login}"
            )


def hashes_of(text: str) -> dict[str, bytes]:
    """The names of an htpasswd file with their hashes.

    A line that is not of bcrypt, or of another cost, is left out, and told in the log.
    """
    hashes = {}
    for number, line in enumerate(text.splitlines(), 1):
        if not line.strip() or line.startswith("#"):
            continue
        login, _, text_value = line.strip().partition(":")
        value = text_value.encode()
        taken = HASH.fullmatch(value) and LEAST_COST <= cost_of(value) <= MOST_COST
        if not login or not taken:
            LOG.error(
                "line %d of the passwords has no hash of bcrypt of a cost from %d to %d, and is "
                "left out", number, LEAST_COST, MOST_COST,
            )
            continue
        hashes[login] = value
    return hashes


def fitting(given: bytes, wanted: bytes) -> bool:
    """Whether a password fits a hash.

    bcrypt reads 72 bytes, so a longer one fits none; it costs as much all the same.
    """
    fits = bcrypt.checkpw(given[:72].replace(b"\0", b"?"), wanted)
    return fits and len(given) <= 72 and b"\0" not in given
