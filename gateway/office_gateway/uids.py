"""UIDs of cards (RFC 6350, section 6.7.6).

Clients know a card by its UID, and take one without a UID for a new one at each change. So a card
that the server has without a UID is told with one that is made of its path, always the same; and a
card that comes without one gets that of the card that it replaces, or else a new one.
"""
from __future__ import annotations

import re
import uuid

from .vcard import unfolded

UID = re.compile(r"^(?:[A-Za-z0-9-]+\.)?UID(?:;[^:\r\n]*)?:(.*)$", re.IGNORECASE | re.MULTILINE)
# The first part of a line whose name is folded.
CUT_NAME = re.compile(r"^[A-Za-z0-9.-]*\r?\n[ \t]", re.MULTILINE)
EMPTY = re.compile(UID.pattern.replace("(.*)$", "[ \\t]*\\r?\\n(?![ \\t])"), UID.flags)
END = re.compile(r"^END:VCARD[ \t]*\r?$", re.IGNORECASE | re.MULTILINE)
# UUIDs are made of paths below this, as names of the kind URL (RFC 9562, section 5.5).
PLACE = "urn:office-gateway:"


def uid_in(text: str) -> str:
    """The first UID of a card as it is written, or an empty text."""
    found = UID.search(text)
    if found is None and CUT_NAME.search(text) is None:
        return ""
    if found is None or text[found.end() + 1 : found.end() + 2] in (" ", "\t"):
        found = UID.search("\n".join(unfolded(text)))
    return found[1].rstrip("\r") if found else ""


def made_of(path: str) -> str:
    """The UID of a card without one, made of its path at the server."""
    return f"urn:uuid:{uuid.uuid5(uuid.NAMESPACE_URL, PLACE + path)}"


def new() -> str:
    """A UID that no card has."""
    return f"urn:uuid:{uuid.uuid4()}"


def with_uid(text: str, uid: str) -> str:
    """The card with a line for this UID before its end; the text as it is where it has no end.

    An empty line for a UID is taken away.
    """
    text = EMPTY.sub("", text)
    ends = list(END.finditer(text))
    if not ends:
        return text
    at = ends[-1].start()
    return f"{text[:at]}UID:{uid}\r\n{text[at:]}"


def told(path: str, text: str) -> str:
    """The text of the server's card at a path as it is told: with its UID, or one of its path."""
    return text if uid_in(text) else with_uid(text, made_of(path))
