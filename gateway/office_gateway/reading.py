"""The methods of CardDAV that read what stands at a path: PROPFIND, GET and HEAD."""
from __future__ import annotations

from . import convert, davxml, paths
from .answers import Answers
from .calls import Call, Reply
from .conditions import accepts_three, has_tag
from .properties import asked_by
from .refusals import Refusal, refusal_of
from .resources import Resources
from .server import Server
from .texts import tag_of

CARD_TYPE = "text/vcard; charset=utf-8"


class Reading:
    """Answers PROPFIND, GET and HEAD."""

    def __init__(self, server: Server, resources: Resources, answers: Answers):
        self._server = server
        self._resources = resources
        self._answers = answers

    async def propfind(self, call: Call, path: str) -> Reply:
        """PROPFIND of depth 0 or 1."""
        depth = call.fields.get("Depth", "0")
        if depth.lower() == "infinity":
            raise Refusal(403, "propfind-finite-depth")
        if depth not in ("0", "1"):
            raise Refusal(400, "bad-request")
        asked = asked_by(davxml.parsed(call.body))
        found = [await self._resources.at(call.caller, path, asked)]
        if depth == "1":
            found = await self._resources.listed(call.caller, found[0], asked)
        return await self._answers.multistatus(found, asked)

    async def get(self, call: Call, path: str) -> Reply:
        """GET and HEAD of a card, in the version that Accept asks for."""
        if not paths.is_card(path):
            answer = await self._server.ask(call.caller, "GET", path)
            if answer.is_refusal():
                raise refusal_of(answer.status, answer.body)
            raise Refusal(405, "not-allowed")
        text = await self._resources.text(call.caller, path)
        tag = tag_of(text)
        if "If-Match" in call.fields and not has_tag(call.fields["If-Match"], tag):
            raise Refusal(412, "precondition")
        if "If-None-Match" in call.fields and has_tag(call.fields["If-None-Match"], tag, weak=True):
            return Reply(304, b"", {"ETag": tag})
        kind = CARD_TYPE
        if accepts_three(call.fields.get("Accept", "")):
            text, kind = convert.to_three(text), f"{CARD_TYPE}; version=3.0"
        fields = {
            "ETag": tag, "Vary": "Accept", "Content-Type": kind,
            "Cache-Control": "private, no-cache",
        }
        return Reply(200, text.encode("utf-8", "surrogatepass"), fields)
