"""What is refused, and why: a status, a name and its details, as the server's JSON has them, as
DAV:error and in words."""
from __future__ import annotations

import json
from typing import Any

PHRASES = {
    "bad-request": "The request is not one that this address takes.",
    "unknown-caller": "The office knows no person of your name.",
    "not-found": "There is nothing here.",
    "not-allowed": "This cannot be done here.",
    "no-parent": "The book is not there.",
    "overwrite": "There is a card of that name, and the request says not to replace it.",
    "body-on-mkcol": "A new book is asked for without a body.",
    "full": "A limit of the office is reached.",
    "unavailable": "The office cannot answer now. Try again later.",
    "busy": "Too many requests are waiting. Try again later.",
    "precondition": "The card has changed since you read it.",
    "body-too-large": "The body is larger than the office takes.",
    "head-too-large": "The head of the request is larger than the office takes.",
    "not-implemented": "The office does not know this method.",
    "bad-head": "The head of the request cannot be read.",
    "bad-xml": "The body is not XML that is taken here.",
    "bad-name": "A name is 1 to 64 letters, digits, dots, underscores and hyphens, and begins with "
    "no dot.",
    "no-password": "Name and password are wanted.",
    "too-many-failures": "Too many sign-ins failed. Try again later.",
    "wrong-password": "The old password does not fit.",
    "weak-password": "A password has 10 characters or more, and at most 72 bytes.",
    "no-own-password": "This name has no password here that can be changed.",
    "device-password": "The password of a device serves for its contacts, and not for the page.",
    "foreign-origin": "The host, or the page that asks, is not among `listen.origins`.",
    "too-slow": "The request did not arrive in time.",
    "valid-sync-token": "The token is no longer valid. Read the whole book again.",
    "no-protected-ace-conflict": "A protected entry says the opposite.",
    "no-inherited-ace-conflict": "An entry that is inherited cannot be written here.",
    "limited-number-of-aces": "A list has at most 64 entries.",
    "not-supported-privilege": "An entry names a privilege that there is not.",
    "recognized-principal": "An entry names a person or a group that there is not.",
    "supported-address-data": "Cards are sent as text/vcard in UTF-8.",
    "supported-report": "This report is not known here.",
    "supported-collation": "This collation is not known here.",
    "supported-filter": "This filter is not known here.",
    "foreign-destination": "The destination is on another server.",
    "max-resource-size": "The card is longer than 65,536 bytes, and no smaller photo makes it fit.",
    "cannot-modify-protected-property": "This property cannot be written.",
    "propfind-finite-depth": "A listing goes one step deep.",
    "sync-traversal-supported": "A sync report goes one step deep.",
    "number-of-matches-within-limits": "There is more than is told at a time.",
    "valid-resourcetype": "A new collection is an address book.",
}
FAULTS = {
    "no-begin": "it does not begin with BEGIN:VCARD",
    "no-version": "it has no VERSION after BEGIN",
    "other-version": "it is of a version other than 4.0 and 3.0",
    "bad-line": "it is no line of a card",
    "no-fn": "there is no FN",
    "twice": "what it says may stand once only",
    "member-without-group": "only a group has members",
    "no-end": "the card does not end",
    "after-end": "something stands after the end",
    "too-long": "the card is longer than 65,536 bytes",
    "memory": "the office cannot answer now",
}


class Refusal(Exception):
    """A request that is refused. `detail` is the body as JSON has it, whose `error` is the name."""

    def __init__(self, status: int, name: str, fields: dict[str, str] | None = None, **detail: Any):
        super().__init__(name)
        self.status = status
        self.name = name
        self.detail: dict[str, Any] = {"error": name, **detail}
        self.fields = fields or {}

    def json(self) -> bytes:
        """The body, with keys in order as the server writes them."""
        text = json.dumps(self.detail, ensure_ascii=False, separators=(",", ":"), sort_keys=True)
        return text.encode()

    def words(self) -> str:
        """The cause in one sentence."""
        return words_of(self.detail)


def words_of(detail: dict[str, Any]) -> str:
    """What a refusal's body says, in one sentence."""
    name = detail.get("error", "need-privileges" if "privilege" in detail else "")
    if name == "need-privileges":
        entry = detail.get("entry")
        need = f"You lack the privilege {detail.get('privilege')} at {detail.get('resource')}: "
        if isinstance(entry, dict):
            number, place = entry.get("number"), entry.get("from")
            return need + f"entry {number} of its list, which stands at {place}, denies it."
        return need + "no entry grants it to you."
    if name == "bad-card":
        fault, line = detail.get("fault", ""), detail.get("line", 0)
        place = f"Line {line} of the card" if line else "The card"
        return f"{place} is refused ({fault}): {FAULTS.get(fault, 'it cannot be read')}."
    return PHRASES.get(name, "The request is refused.")


def refusal_of(status: int, body: bytes) -> Refusal:
    """The refusal in a reply of the server; one whose body cannot be read is unavailable."""
    try:
        detail = json.loads(body)
        name = detail.pop("error")
        if not isinstance(name, str):
            raise ValueError
    except (ValueError, KeyError, AttributeError, TypeError):
        return Refusal(status, "unavailable") if status >= 500 else Refusal(502, "unavailable")
    return Refusal(status, name, **detail)
