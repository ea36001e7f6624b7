"""What persons keep of their accounts themselves: their own password, and one password for each
device.

A device's password is made by the gateway: 120 random bits, told once. Its digest is kept. It
serves for CardDAV and JSON, and signs nobody in at the page, so that a lost phone changes no
password and makes no other. A password that a person set stands in place of the one in the file of
passwords for as long as that one stays as it was: who sets it anew there wins.
"""
from __future__ import annotations

import base64
import datetime
import hashlib
import hmac
import secrets
from pathlib import Path

import bcrypt

from . import kept
from .refusals import Refusal

# Devices of a person, characters of a device's name, characters of a new password, and what bcrypt
# reads of it.
DEVICES = 32
NAME = 64
SHORTEST, LONGEST = 10, 72
COST = 12


class Devices:
    """The passwords of devices, by login name."""

    def __init__(self, file: Path | None):
        self._file = file
        self._kept: dict[str, list[dict[str, str]]] = kept.read(file)

    def listed(self, login: str) -> list[dict[str, str]]:
        """The devices of a login name: their names, when their passwords were made, and the day of
        their last use."""
        own = self._kept.get(login, [])
        return [{key: one[key] for key in ("id", "made", "name", "used")} for one in own]

    def make(self, login: str, name: str) -> str:
        """A new password for a device of this name. It is told this once."""
        own = self._kept.get(login, [])
        if not name.strip() or len(name) > NAME:
            raise Refusal(400, "bad-request")
        if len(own) >= DEVICES:
            raise Refusal(507, "full")
        word = base64.b32encode(secrets.token_bytes(15)).decode().lower()
        word = "-".join(word[at : at + 6] for at in range(0, 24, 6))
        one = {"digest": digest(word), "id": secrets.token_hex(8), "name": name.strip()}
        one |= {"made": today(), "used": ""}
        self._replace(login, [*own, one])
        return word

    def take_away(self, login: str, number: str) -> None:
        """Takes away one device's password; Refusal 404 where there is none."""
        own = self._kept.get(login, [])
        rest = [one for one in own if one["id"] != number]
        if len(rest) == len(own):
            raise Refusal(404, "not-found")
        self._replace(login, rest)

    def has(self, login: str, word: str) -> bool:
        """Whether this is the password of one of the devices."""
        if not self._kept.get(login):
            return False
        given = digest(word)
        for one in self._kept[login]:
            if hmac.compare_digest(one["digest"], given):
                self._use(one)
                return True
        return False

    def _use(self, one: dict[str, str]) -> None:
        """Keeps the day of the last use."""
        if one["used"] != today():
            one["used"] = today()
            kept.write(self._file, self._kept)

    def _replace(self, login: str, devices: list[dict[str, str]]) -> None:
        """Keeps the devices of a login name; Refusal 503 where they cannot be written."""
        after = {**self._kept, login: devices}
        if not devices:
            del after[login]
        if not kept.write(self._file, after):
            raise Refusal(503, "unavailable")
        self._kept = after


class Changed:
    """Passwords that persons set themselves: each stands in place of one hash of the file of
    passwords."""

    def __init__(self, file: Path | None):
        self._file = file
        self._kept: dict[str, dict[str, str]] = kept.read(file)

    def over(self, hashes: dict[str, bytes]) -> dict[str, bytes]:
        """The hashes, with those that persons set in place of the ones that they replaced."""
        return {login: self._one(login, wanted) for login, wanted in hashes.items()}

    def _one(self, login: str, wanted: bytes) -> bytes:
        own = self._kept.get(login)
        return own["hash"].encode() if own and own["instead"] == mark(wanted) else wanted

    def change(self, login: str, filed: bytes, new: str) -> None:
        """Keeps a new password in place of the one that is filed; Refusal where it is too short or
        cannot be kept."""
        given = new.encode("utf-8", "surrogatepass")
        if len(new) < SHORTEST or len(given) > LONGEST or "\0" in new:
            raise Refusal(400, "weak-password")
        made = bcrypt.hashpw(given, bcrypt.gensalt(COST)).decode()
        after = {**self._kept, login: {"hash": made, "instead": mark(filed)}}
        if not kept.write(self._file, after):
            raise Refusal(503, "unavailable")
        self._kept = after


def digest(word: str) -> str:
    """What is kept of a device's password. It has 120 random bits, so that it needs no slow
    hash."""
    bare = "".join(word.lower().split()).replace("-", "")
    return hashlib.sha256(bare.encode("utf-8", "surrogatepass")).hexdigest()


def mark(wanted: bytes) -> str:
    """What is kept of a hash that was replaced."""
    return hashlib.sha256(wanted).hexdigest()


def today() -> str:
    """The day, as ISO 8601 has it."""
    return datetime.date.today().isoformat()
