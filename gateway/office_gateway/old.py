"""vCard 2.1, of old phones and old exports, to 3.0.

2.1 has types without their name (`TEL;HOME;CELL:`), texts in quoted-printable and in other sets of
characters than UTF-8, data in base64 that ends with an empty line, cards in cards (AGENT), and no
backslashes before commas.
"""
from __future__ import annotations

import quopri
import re
from collections.abc import Iterator
from dataclasses import dataclass

from .convert import Converted
from .vcard import Line, components, escaped, folded, unescaped

HEAD = re.compile(r'(?:([\w-]+)\.)?([\w-]+)((?:;(?:[^;:"]|"[^"]*")*)*):', re.ASCII)
PARAMETER = re.compile(r';((?:[^;:"]|"[^"]*")*)')
# What may stand without the name of its parameter, beside types.
ENCODINGS = {"QUOTED-PRINTABLE", "BASE64", "B", "8BIT", "7BIT"}
PLACES = {"URL", "CID", "CONTENT-ID", "INLINE"}
STRUCTURED = {"N", "ADR", "ORG"}
# Values that are no text, or in which commas are not part of a text.
RAW = {"URL", "GEO", "TZ", "REV", "BDAY", "CATEGORIES", "NICKNAME", "VERSION", "SOURCE"}
# Where a text says of no set of characters in which it is, and is no UTF-8.
OTHER_CHARSET = "windows-1252"
DATA = re.compile(r"[A-Za-z0-9+/= \t]*")


@dataclass
class OldLine:
    """A line of 2.1: where it begins, its parameters by name, its types, and its value as sent."""

    number: int
    group: str
    name: str
    types: list[str]
    params: list[tuple[str, str]]
    value: str

    def of(self, name: str) -> str:
        """The first value of a parameter, or an empty text."""
        return next((value for key, value in self.params if key == name), "")


def to_three(text: str) -> Converted:
    """The card of 2.1 as one of 3.0. A line that is no line of a card stays as it is.

    A byte that is no UTF-8 stands in the text as Python's `surrogateescape` writes it.
    """
    source = text.replace("\r\n", "\n").split("\n")
    made: list[tuple[str, int]] = []
    lines = logical_lines(source)
    for number, line in lines:
        if not line.strip():
            continue
        old = old_line(number, line)
        if old is None:
            made.append((line, number))
            continue
        if old.name == "AGENT" and not old.value.strip():
            old.value = nested(lines)
        made += [(three.text(), number) for three in three_of(old)]
    return Converted("".join(folded(line) for line, _ in made), [at for _, at in made], len(source))


def logical_lines(source: list[str]) -> Iterator[tuple[int, str]]:
    """The lines of 2.1 with their numbers.

    Soft line ends, folds and the lines of data are joined.
    """
    at = 0
    while at < len(source):
        number, line = at + 1, source[at]
        at += 1
        head = HEAD.match(line)
        words = head[3].upper() if head else ""
        if "QUOTED-PRINTABLE" in words:
            while line.endswith("=") and at < len(source):
                line, at = line[:-1] + source[at], at + 1
        elif re.search(r"[;=](BASE64|B)(;|$)", words):
            while at < len(source) and source[at].strip() and is_data(source[at]):
                line, at = line + source[at].strip(), at + 1
        while at < len(source) and source[at][:1] in (" ", "\t") and source[at].strip():
            line, at = line + source[at], at + 1
        yield number, line


def is_data(line: str) -> bool:
    """Whether a line goes on with the data in base64 of the line before."""
    return line[:1] in (" ", "\t") or DATA.fullmatch(line) is not None


def old_line(number: int, line: str) -> OldLine | None:
    """The line taken apart; None where it is no line of a card."""
    head = HEAD.match(line)
    if head is None:
        return None
    old = OldLine(number, head[1] or "", head[2].upper(), [], [], line[head.end() :])
    for word in PARAMETER.findall(head[3]):
        key, found, value = word.partition("=")
        key, value = key.strip().upper(), value.strip().strip('"')
        if not found and key in ENCODINGS:
            old.params.append(("ENCODING", key))
        elif not found and key in PLACES:
            old.params.append(("VALUE", key))
        elif not found or key == "TYPE":
            old.types += [part for part in (value or word.strip()).split(",") if part]
        else:
            old.params.append((key, value))
    return old


def nested(lines: Iterator[tuple[int, str]]) -> str:
    """The card that stands in an AGENT, up to its end, as a text of 3.0 has it."""
    inner: list[str] = []
    depth = 0
    for _, line in lines:
        if not line.strip():
            continue
        inner.append(line.strip())
        depth += {"BEGIN:VCARD": 1, "END:VCARD": -1}.get(line.strip().upper(), 0)
        if depth <= 0:
            break
    return "\n".join(inner)


def three_of(old: OldLine) -> list[Line]:
    """The lines of 3.0 that say what this one says."""
    if old.name == "VERSION":
        return [Line("VERSION", "3.0")]
    params: list[tuple[str, list[str]]] = [("TYPE", old.types)] if old.types else []
    encoding = old.of("ENCODING").upper()
    place = old.of("VALUE").upper()
    for key, value in old.params:
        if key not in ("ENCODING", "CHARSET", "VALUE") and value:
            params.append((key.replace("_", "-"), [value]))
    name = old.name.replace("_", "-")
    if encoding in ("BASE64", "B"):
        value = re.sub(r"\s", "", old.value)
        return [Line(name, value, old.group, [*params, ("ENCODING", ["b"])])]
    if place in ("URL", "CID", "CONTENT-ID"):
        params.append(("VALUE", ["uri"]))
    return [Line(name, value_of(old, encoding, place), old.group.replace("_", "-"), params)]


def value_of(old: OldLine, encoding: str, place: str) -> str:
    """The value of 3.0 of a line that has no data."""
    charset = old.of("CHARSET")
    quoted = encoding == "QUOTED-PRINTABLE"
    if old.name in ("BEGIN", "END"):
        return old.value.strip()
    if old.name in STRUCTURED:
        parts = [decoded(part, quoted, charset) for part in components(old.value)]
        return ";".join(escaped(unescaped(part)) for part in parts)
    value = decoded(old.value, quoted, charset)
    if old.name in RAW or place or old.name.startswith("X-"):
        return value.replace("\r\n", "\n").replace("\n", "\\n")
    return escaped(unescaped(value))


def decoded(value: str, quoted: bool, charset: str) -> str:
    """A value without quoted-printable, in the set of characters that it names."""
    data = value.encode("utf-8", "surrogateescape")
    if quoted:
        data = quopri.decodestring(data)
    elif data.isascii():
        return value
    names = [charset, "utf-8", OTHER_CHARSET] if quoted else ["utf-8", charset, OTHER_CHARSET]
    for name in names:
        try:
            return data.decode(name) if name else data.decode("ascii")
        except (UnicodeDecodeError, LookupError):
            continue
    return data.decode("latin-1")
