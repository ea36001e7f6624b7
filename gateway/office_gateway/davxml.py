"""XML of WebDAV: bodies are read by defusedxml, which refuses document types and entities, and
answers are written by lxml, piece after piece."""
from __future__ import annotations

import re
from collections.abc import Iterable, Iterator
from typing import Any, Union
from xml.etree.ElementTree import Element, ParseError

from defusedxml import DefusedXmlException
from defusedxml.ElementTree import fromstring
from lxml import etree

from .refusals import PHRASES, Refusal

DAV = "DAV:"
CARD = "urn:ietf:params:xml:ns:carddav"
CALENDAR = "http://calendarserver.org/ns/"
OWN = "urn:office:gateway"
PREFIXES = {"d": DAV, "c": CARD, "cs": CALENDAR, "o": OWN}
# Elements in a body, and how deep they stand.
ELEMENTS = 20_000
DEPTH = 16
# About how many bytes of an answer are written at a time.
PIECE = 32_768

ILLEGAL = re.compile("[^\t\n\r\x20-\ud7ff\ue000-\ufffd\U00010000-\U0010ffff]")


def d(name: str) -> str:
    """A name of WebDAV."""
    return f"{{{DAV}}}{name}"


def c(name: str) -> str:
    """A name of CardDAV."""
    return f"{{{CARD}}}{name}"


def o(name: str) -> str:
    """A name of the gateway's own."""
    return f"{{{OWN}}}{name}"


def privilege(name: str) -> "Node":
    """A privilege as an element: one that is none of the standard's begins with x-."""
    return Node(d("privilege"), Node(o(name) if name.startswith("x-") else d(name)))


class Node:
    """An element that is to be written: a name, attributes, and what stands in it."""

    def __init__(self, name: str, *content: "Content", **attributes: str):
        self.name = name
        self.content = list(content)
        self.attributes = {key.replace("_", "-"): value for key, value in attributes.items()}

    def add(self, *content: "Content") -> "Node":
        """The same element with more in it."""
        self.content += content
        return self


Content = Union[Node, str]


def parsed(body: bytes) -> Element | None:
    """The element of a body; None where the body is empty. Refusal 400 where it is not XML that is
    taken, and 415 where it does not begin as XML does."""
    if not body.strip():
        return None
    if not begins_as_xml(body):
        raise Refusal(415, "bad-xml")
    try:
        root = fromstring(body, forbid_dtd=True, forbid_entities=True, forbid_external=True)
    except (ParseError, DefusedXmlException, ValueError, LookupError, RecursionError):
        raise Refusal(400, "bad-xml") from None
    count, level = 0, [root]
    for depth in range(DEPTH + 1):
        if not level:
            return root
        count += len(level)
        level = [child for element in level for child in element] if count <= ELEMENTS else level
        if count > ELEMENTS or depth == DEPTH:
            break
    if level:
        raise Refusal(400, "bad-xml")
    return root


def begins_as_xml(body: bytes) -> bool:
    """Whether a body begins with `<`, or with the mark of an encoding of Unicode."""
    start = body.removeprefix(b"\xef\xbb\xbf").lstrip()
    return start.startswith((b"<", b"\xff\xfe", b"\xfe\xff"))


def is_writable(name: str) -> bool:
    """Whether an element of this name can be written."""
    try:
        etree.Element(name)
    except ValueError:
        return False
    return True


class Buffer:
    """What was written and not taken yet."""

    def __init__(self) -> None:
        self._parts: list[bytes] = []
        self.size = 0

    def write(self, part: bytes) -> None:
        """Adds a part."""
        self._parts.append(part)
        self.size += len(part)

    def take(self) -> bytes:
        """All that was written since the last time."""
        parts, self._parts, self.size = self._parts, [], 0
        return b"".join(parts)


def pieces(name: str, content: Iterable[Content]) -> Iterator[bytes]:
    """The document with an element of this name and what stands in it, as it is written."""
    buffer = Buffer()
    with etree.xmlfile(buffer, encoding="utf-8") as file:
        file.write_declaration()
        with file.element(name, nsmap=PREFIXES):
            for item in content:
                write(file, item)
                if buffer.size >= PIECE:
                    yield buffer.take()
    yield buffer.take()


def written(root: Node) -> bytes:
    """The document."""
    return b"".join(pieces(root.name, root.content))


def write(file: Any, item: Content) -> None:
    """Writes an element, or a text. What no XML may have is written as U+FFFD."""
    if isinstance(item, str):
        try:
            file.write(item)
        except ValueError:
            file.write(ILLEGAL.sub("\ufffd", item))
        return
    attributes = {key: ILLEGAL.sub("\ufffd", value) for key, value in item.attributes.items()}
    with file.element(item.name, attributes or None):
        for inner in item.content:
            write(file, inner)


STATUSES = {
    200: "OK", 201: "Created", 204: "No Content", 400: "Bad Request", 403: "Forbidden",
    404: "Not Found", 409: "Conflict", 412: "Precondition Failed", 424: "Failed Dependency",
    503: "Service Unavailable", 507: "Insufficient Storage",
}


def status_line(status: int) -> str:
    """A status as it stands in a multistatus."""
    return f"HTTP/1.1 {status} {STATUSES.get(status, 'Refused')}"


def href(text: str) -> Node:
    """An href."""
    return Node(d("href"), text)


def response(path: str, groups: Iterable[tuple[int, list[Node], Refusal | None]]) -> Node:
    """A response with its properties by status, each with the cause where it is refused."""
    node = Node(d("response"), href(path))
    for status, properties, refusal in groups:
        if properties:
            line = Node(d("status"), status_line(status))
            told = Node(d("propstat"), Node(d("prop"), *properties), line)
            if refusal is not None:
                told.add(error(refusal), Node(d("responsedescription"), refusal.words()))
            node.add(told)
    if len(node.content) == 1:
        node.add(Node(d("propstat"), Node(d("prop")), Node(d("status"), status_line(200))))
    return node


def status_response(path: str, status: int, refusal: Refusal | None = None) -> Node:
    """A response with a status alone."""
    node = Node(d("response"), href(path), Node(d("status"), status_line(status)))
    if refusal is None:
        return node
    return node.add(error(refusal), Node(d("responsedescription"), refusal.words()))


# Refusals whose name is an element of a standard.
STANDARD = {
    "valid-sync-token": d("valid-sync-token"),
    "no-protected-ace-conflict": d("no-protected-ace-conflict"),
    "no-inherited-ace-conflict": d("no-inherited-ace-conflict"),
    "limited-number-of-aces": d("limited-number-of-aces"),
    "not-supported-privilege": d("not-supported-privilege"),
    "recognized-principal": d("recognized-principal"),
    "max-resource-size": c("max-resource-size"),
    "supported-report": d("supported-report"),
    "propfind-finite-depth": d("propfind-finite-depth"),
    "sync-traversal-supported": d("sync-traversal-supported"),
    "cannot-modify-protected-property": d("cannot-modify-protected-property"),
    "valid-resourcetype": d("valid-resourcetype"),
    "number-of-matches-within-limits": d("number-of-matches-within-limits"),
    "supported-address-data": c("supported-address-data"),
    "supported-collation": c("supported-collation"),
    "supported-filter": c("supported-filter"),
    "bad-card": c("valid-address-data"),
    "full": d("quota-not-exceeded"),
}


def error(refusal: Refusal) -> Node:
    """The DAV:error of a refusal: the condition of the standard where it has one, and the cause in
    elements of the gateway's own."""
    from .paths import href as dav_href

    detail = refusal.detail
    if refusal.name == "need-privileges":
        place = href(dav_href(detail["resource"]))
        resource = Node(d("resource"), place, privilege(detail["privilege"]))
        node = Node(d("error"), Node(d("need-privileges"), resource))
        entry = detail.get("entry")
        if isinstance(entry, dict):
            place = href(dav_href(entry["from"]))
            node.add(Node(o("denied-by"), place, number=str(entry["number"])))
        return node.add(Node(o("words"), refusal.words()))
    own = refusal.name if re.fullmatch("[a-z-]+", refusal.name) else "refused"
    condition = STANDARD.get(refusal.name, o(own))
    node = Node(d("error"), Node(condition))
    if refusal.name == "bad-card":
        if detail.get("fault") == "too-long":
            node.add(Node(c("max-resource-size")))
        fault, line = str(detail.get("fault", "")), str(detail.get("line", 0))
        node.add(Node(o("bad-card"), fault=fault, line=line))
    if refusal.name in PHRASES or refusal.name == "bad-card":
        node.add(Node(o("words"), refusal.words()))
    return node
