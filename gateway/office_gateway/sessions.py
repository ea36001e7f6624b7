"""Who signed in at the page. A session is a random word in a cookie that scripts cannot read and
other sites do not send.

Its digest is kept in a file, so that sessions outlast a restart of the gateway.
"""
from __future__ import annotations

import hashlib
import secrets
import time
from collections import OrderedDict
from dataclasses import dataclass
from http.cookies import CookieError, SimpleCookie
from pathlib import Path

from . import kept

KEPT = 4_096


@dataclass(frozen=True)
class Session:
    """A person who signed in under a login name; the mark of the password then; and when it
    ends."""

    login: str
    person: str
    mark: bytes | None
    until: float


class Sessions:
    """Sessions by the digest of their word."""

    def __init__(self, seconds: float, cookie: str, file: Path | None = None):
        self.seconds = seconds
        self.cookie = cookie
        self._file = file
        self._kept: OrderedDict[bytes, Session] = OrderedDict()
        for word, told in kept.read(file).items():
            session = session_of(told)
            if session is not None and session.until > time.time():
                self._kept[bytes.fromhex(word)] = session

    def begin(self, login: str, person: str, mark: bytes | None) -> str:
        """A new session; its word."""
        word = secrets.token_urlsafe(32)
        self._kept[digest(word)] = Session(login, person, mark, time.time() + self.seconds)
        while len(self._kept) > KEPT:
            self._kept.popitem(last=False)
        self._write()
        return word

    def person(self, word: str) -> Session | None:
        """A session that has not ended."""
        found = self._kept.get(digest(word))
        if found is None or found.until <= time.time():
            self._kept.pop(digest(word), None)
            return None
        return found

    def end(self, word: str) -> None:
        """Ends a session."""
        self._kept.pop(digest(word), None)
        self._write()

    def mark_anew(self, word: str, mark: bytes | None) -> None:
        """Lets a session go on after its person set another password."""
        found = self._kept.get(digest(word))
        if found is not None:
            self._kept[digest(word)] = Session(found.login, found.person, mark, found.until)
            self._write()

    def _write(self) -> None:
        if self._file is not None:
            told = {word.hex(): told_of(session) for word, session in self._kept.items()}
            kept.write(self._file, told)


def told_of(session: Session) -> list[object]:
    """A session as the file has it."""
    mark = session.mark.hex() if session.mark is not None else None
    return [session.login, session.person, mark, session.until]


def session_of(told: object) -> Session | None:
    """The session that the file has; None where it has another form."""
    try:
        login, person, mark, until = told  # type: ignore[misc]
        own = None if mark is None else bytes.fromhex(mark)
        return Session(str(login), str(person), own, float(until))
    except (TypeError, ValueError):
        return None


def word_of(cookies: str, name: str) -> str:
    """The word of a session in a Cookie field, or an empty text."""
    try:
        found: SimpleCookie[str] = SimpleCookie(cookies)
    except CookieError:
        return ""
    return found[name].value if name in found else ""


def cookie_name(port: int, secure: bool) -> str:
    """The name of a gateway's cookie. Browsers send cookies to all ports of a host, so that each
    gateway has its own."""
    return f"{'__Host-' if secure else ''}office_session_{port}"


def digest(word: str) -> bytes:
    """What is kept of a session's word."""
    return hashlib.sha256(word.encode("utf-8", "surrogatepass")).digest()
