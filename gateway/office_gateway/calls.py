"""A request that was read whole, with its caller, and what is answered."""
from __future__ import annotations

import json
from collections.abc import AsyncIterator, Mapping
from dataclasses import dataclass, field
from typing import Any

from . import davxml
from .refusals import Refusal

XML_TYPE = "application/xml; charset=utf-8"


@dataclass(frozen=True)
class Call:
    """A request. `target` is as it was sent, `fields` has names without case, and `authorities` are
    the gateway's hosts."""

    method: str
    target: str
    fields: Mapping[str, str]
    body: bytes
    caller: str
    authorities: frozenset[str] = frozenset()
    login: str = ""

    @property
    def wants_json(self) -> bool:
        """Whether the page asks."""
        return "x-office-page" in self.fields


@dataclass
class Reply:
    """What is answered: a body, and after it the pieces that follow as they are made."""

    status: int
    body: bytes = b""
    fields: dict[str, str] = field(default_factory=dict)
    pieces: AsyncIterator[bytes] | None = None


def json_reply(value: Any, status: int = 200) -> Reply:
    """A reply in JSON."""
    text = json.dumps(value, ensure_ascii=False, separators=(",", ":"), sort_keys=True)
    return Reply(status, text.encode("utf-8", "replace"), {"Content-Type": "application/json"})


def xml_reply(node: davxml.Node, status: int = 207) -> Reply:
    """A reply in XML."""
    return Reply(status, davxml.written(node), {"Content-Type": XML_TYPE})


def refused(refusal: Refusal, as_xml: bool) -> Reply:
    """The reply to a request that is refused."""
    if as_xml:
        reply = xml_reply(davxml.error(refusal), refusal.status)
    else:
        fields = {"Content-Type": "application/json"}
        reply = Reply(refusal.status, refusal.json(), fields)
    reply.fields |= refusal.fields
    return reply
