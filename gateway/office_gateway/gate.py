"""The gateway as the commands `import` and `export` ask it: over one connection, as a person.

They talk to the gateway as clients do, so every right is the server's, and the locks of books hold.
"""
from __future__ import annotations

import argparse
import base64
import getpass
import http.client
import json
import os
import ssl
from typing import Any
from urllib.parse import urlsplit

from .paths import is_name
from .refusals import words_of

LOCAL = ("127.0.0.1", "localhost", "::1")


class Fault(Exception):
    """What ends a command, in words."""


class Gate:
    """The gateway, asked over one connection as a person."""

    def __init__(self, address: str, login: str, password: str, authority: str = ""):
        split = urlsplit(address)
        if split.scheme not in ("http", "https") or not split.hostname:
            raise Fault(f"{address} is no address of a gateway, as https://office.example")
        if split.scheme == "http" and split.hostname not in LOCAL:
            raise Fault("a password is sent over https alone, or to this machine")
        self._connection: http.client.HTTPConnection
        if split.scheme == "https":
            context = ssl.create_default_context(cafile=authority or None)
            self._connection = http.client.HTTPSConnection(
                split.hostname, split.port, timeout=120, context=context
            )
        else:
            self._connection = http.client.HTTPConnection(split.hostname, split.port, timeout=120)
        word = base64.b64encode(f"{login}:{password}".encode()).decode()
        self._fields = {"Authorization": f"Basic {word}", "x-office-page": "1"}

    def ask(self, method: str, path: str, body: bytes, **fields: str) -> tuple[int, bytes]:
        """Status and body of the reply to a request."""
        named = {name.replace("_", "-"): value for name, value in fields.items()}
        try:
            self._connection.request(method, path, body, {**self._fields, **named})
            reply = self._connection.getresponse()
            return reply.status, reply.read()
        except (OSError, http.client.HTTPException) as fault:
            self._connection.close()
            raise Fault(f"the gateway did not answer: {fault}") from None

    def report(self, book: str) -> tuple[int, Any]:
        """Status and JSON of the server's report of all cards of a book."""
        body = json.dumps({"report": "sync-collection", "sync-token": ""}).encode()
        status, answer = self.ask("REPORT", f"/books/{book}", body, Content_Type="application/json")
        try:
            return status, json.loads(answer)
        except ValueError:
            return status, {}


def cause_in(detail: Any) -> str:
    """The cause in a refusal's JSON."""
    return words_of(detail) if isinstance(detail, dict) else "it was refused"


def cause_of(body: bytes) -> str:
    """The cause in a refusal's body."""
    try:
        return cause_in(json.loads(body))
    except ValueError:
        return "it was refused"


def add_words(parser: argparse.ArgumentParser) -> None:
    """The words that both commands take."""
    parser.add_argument("gateway", help="the gateway's address, as https://office.example")
    parser.add_argument("book", help="the name of the book")
    parser.add_argument(
        "--user", required=True,
        help="the name to sign in with; OFFICE_PASSWORD has the password, or it is asked for",
    )
    parser.add_argument(
        "--authority", default="",
        help="a file of certificates that are trusted, in place of the system's",
    )


def gate_of(given: argparse.Namespace) -> Gate:
    """The gateway that the words name."""
    if not is_name(given.book):
        raise Fault(f"{given.book} is no name of a book")
    password = os.environ.get("OFFICE_PASSWORD")
    if password is None:
        password = getpass.getpass("Password: ")
    return Gate(given.gateway, given.user, password, given.authority)
