"""Names that clients choose for cards, as names of the server, and back.

The server's names are 1 to 64 letters, digits, `.`, `_` and `-`. Clients name cards by UIDs, which
may be longer and have other characters. A name that the server has is kept as it is. Another one is
written as `_x_`, and then letters, digits, `.` and `-` as they are and each other byte of its UTF-8
as `_` and two hexadecimal digits, where that has at most 64 characters; else as `_d_` and the
digest of its UTF-8. What a digest stands for is in a table, which is a file of the gateway's own.

Both ways fit each other: each name of a client has one of the server, which leads back to it, and
each name of the server is told as one name, which leads back to it. So a client's name that looks
like such a writing is written so itself. A digest that is not in the table is told as it is.
"""
from __future__ import annotations

import base64
import hashlib
import logging
import os
import re
from pathlib import Path
from urllib.parse import quote, unquote_to_bytes

LOG = logging.getLogger("office_gateway")
# The server's names, and how long they may be.
LONGEST = 64
NAME = re.compile(r"[A-Za-z0-9_-][A-Za-z0-9._-]{0,63}", re.ASCII)
# Bytes of a name that a client may choose.
CHOSEN_BYTES = 512
WRITTEN, DIGEST = "_x_", "_d_"
KEPT = frozenset(b"ABCDEFGHIJKLMNOPQRSTUVWXYZabcdefghijklmnopqrstuvwxyz0123456789.-")
WRITTEN_NAME = re.compile(r"_x_((?:[A-Za-z0-9.-]|_[0-9a-f]{2})+)", re.ASCII)
# What stands unescaped in a segment of a path (RFC 3986, section 3.3).
SEGMENT = "!$&'()*+,;=:@"


def chosen(segment: str) -> str | None:
    """The name that a segment of a target stands for; None where it may be none.

    Percent escapes are read (RFC 3986, section 2.1). A name has no control characters, and is no
    dot segment; a query or a fragment is no part of one.
    """
    if re.search(r"%(?![0-9A-Fa-f]{2})|[?#]", segment):
        return None
    try:
        data = unquote_to_bytes(segment)
        name = data.decode("utf-8")
    except UnicodeError:
        return None
    if not 1 <= len(data) <= CHOSEN_BYTES or name in (".", ".."):
        return None
    return None if re.search(r"[\x00-\x1f\x7f-\x9f\u2028\u2029]", name) else name


def segment_of(name: str) -> str:
    """A name that a client chose, as a segment of a path."""
    return quote(name, safe=SEGMENT)


def written(name: str) -> str:
    """A name as the server may have it, byte by byte; it may be too long."""
    data = name.encode("utf-8")
    return WRITTEN + "".join(chr(byte) if byte in KEPT else f"_{byte:02x}" for byte in data)


def digest_of(name: str) -> str:
    """The name of the server for one that is too long to be written."""
    digest = hashlib.sha256(name.encode("utf-8")).digest()
    return DIGEST + base64.b32encode(digest).decode().rstrip("=").lower()


def read(name: str) -> str | None:
    """The client's name that a written name of the server stands for; None where it is not such."""
    found = WRITTEN_NAME.fullmatch(name)
    if found is None:
        return None
    data = re.sub(rb"_(..)", lambda byte: bytes([int(byte[1], 16)]), found[1].encode())
    try:
        told = data.decode("utf-8")
    except UnicodeDecodeError:
        return None
    is_that = written(told) == name and chosen(segment_of(told)) == told
    return told if is_that and not stands_alone(told) else None


def stands_alone(name: str) -> bool:
    """Whether the server has a client's name as it is."""
    if NAME.fullmatch(name) is None:
        return False
    return read(name) is None and LONG.name(name) is None


class LongNames:
    """The names that digests stand for: in memory, and one a line in a file, with its escapes."""

    def __init__(self) -> None:
        self._names: dict[str, str] = {}
        self._file: Path | None = None

    def open(self, file: Path | None) -> None:
        """Reads a file, and writes to it from now on; a line that is no name is left out."""
        self._file, self._names = file, {}
        if file is None or not file.exists():
            return
        for number, line in enumerate(file.read_text("ascii", "replace").splitlines(), 1):
            name = chosen(line)
            if name is None or len(written(name)) <= LONGEST:
                LOG.error("line %d of %s is no name of a card, and is left out", number, file)
            else:
                self._names[digest_of(name)] = name

    def name(self, digest: str) -> str | None:
        """The name that a digest stands for, where it is known."""
        return self._names.get(digest)

    def remember(self, name: str) -> None:
        """Keeps a name that is told by its digest. OSError where the file cannot be written."""
        digest = digest_of(name)
        if digest in self._names or of_server(name) != digest:
            return
        if self._file is not None:
            with open(self._file, "a", encoding="ascii") as file:
                file.write(segment_of(name) + "\n")
                file.flush()
                os.fsync(file.fileno())
        self._names[digest] = name


# The table of this process: a server has one gateway, in one process.
LONG = LongNames()


def of_server(name: str) -> str:
    """The server's name for a client's."""
    if stands_alone(name):
        return name
    short = written(name)
    return short if len(short) <= LONGEST else digest_of(name)


def of_client(name: str) -> str:
    """The client's name for the server's. A digest that is not known stays as it is."""
    return read(name) or LONG.name(name) or name
