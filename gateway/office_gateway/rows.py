"""What lists and searches at the page show of cards: a row for each card, in order, and found by
words.

Rows are made of what the server tells the caller now. A row that was made of the same text is taken
again.
"""
from __future__ import annotations

import asyncio
import re
import unicodedata
from collections import OrderedDict
from dataclasses import dataclass, field
from typing import Any

from .copies import Copies
from .server import Server
from .vcard import components, unescaped, unfolded_text

SAID = re.compile(
    r"^(?:[A-Z0-9-]+\.)?(FN|N|NICKNAME|ORG|TEL|EMAIL|KIND|UID|MEMBER)"
    r'((?:;[^:"\n]*(?:"[^"\n]*"[^:"\n]*)*)?):(.*)$',
    re.IGNORECASE | re.MULTILINE,
)
DIGITS = re.compile(r"\D")
# Letters that have no form without an accent in Unicode, and how German writes vowels without one.
PLAIN = {"ø": "o", "ł": "l", "đ": "d", "æ": "ae", "œ": "oe", "ð": "d", "þ": "th", "ı": "i"}
GERMAN = {"ä": "ae", "ö": "oe", "ü": "ue"}
# Characters that stand on the letter before them, of the first 65,536: of these a class is fast.
ACCENTS = re.compile(
    f"[{''.join(chr(one) for one in range(0x300, 0x10000) if unicodedata.combining(chr(one)))}]+"
)
NUMBER = re.compile(r"[0-9 ()+/.-]*[0-9][0-9 ()+/.-]*")
# Rows that are kept for all callers together.
KEPT = 200_000
# Cards that are read before others have their turn.
BREATH = 200
ORDERS = ("family", "organisation")


@dataclass(frozen=True)
class Row:
    """What is shown of a card. `tag` is that of the text it was made of, and `words` what is
    searched."""

    path: str
    shown: str
    tag: str = ""
    label: str = ""
    family: str = ""
    organisation: str = ""
    phones: tuple[str, ...] = ()
    mails: tuple[str, ...] = ()
    members: tuple[str, ...] = ()
    uid: str = ""
    group: bool = False
    words: str = field(repr=False, default="")

    def json(self) -> dict[str, Any]:
        """The row as the page reads it."""
        return {
            "group": self.group,
            "label": self.label,
            "mail": self.mails[0] if self.mails else "",
            "name": self.shown,
            "organisation": self.organisation,
            "path": self.path,
            "phone": self.phones[0] if self.phones else "",
            "uid": self.uid,
        }


class Index:
    """The rows of a book that a caller may read."""

    def __init__(self, cards: Any, rows: dict[str, Row]):
        self.cards = cards
        self.rows = rows
        self._orders: dict[str, list[Row]] = {}

    def ordered(self, order: str) -> list[Row]:
        """All rows in one of the orders."""
        if order not in self._orders:
            self._orders[order] = sorted(self.rows.values(), key=key_of(order))
        return self._orders[order]

    def groups_of(self, uid: str) -> list[Row]:
        """The groups of the book that have a card of this UID as a member (RFC 6350, section
        6.6.5)."""
        named = {uid, f"urn:uuid:{uid}"}
        groups = [row for row in self.ordered("family") if row.group]
        return [row for row in groups if named & set(row.members)] if uid else []


class Rows:
    """Indexes by caller and book; those last used stay."""

    def __init__(self, copies: Copies, server: Server):
        self._copies = copies
        self._server = server
        self._kept: OrderedDict[tuple[str, str], Index] = OrderedDict()

    async def index(self, caller: str, book: str) -> Index:
        """The rows of what the caller may read of a book now; Refusal where the server refuses."""
        copy = await self._copies.read(caller, book)
        key = (caller, book)
        kept = self._kept.get(key)
        if kept is None or kept.cards is not copy.cards:
            kept = Index(copy.cards, await self._made(book, copy.cards, kept.rows if kept else {}))
        self._keep(key, kept)
        return kept

    async def _made(self, book: str, cards: Any, known: dict[str, Row]) -> dict[str, Row]:
        """A row for each card; one that is known and was made of the same text and label is taken.
        Others have their turn."""
        rows = {}
        for number, (name, held) in enumerate(cards.items()):
            if number % BREATH == BREATH - 1:
                await asyncio.sleep(0)
            row = known.get(name)
            if row is None or row.tag != held.tag or row.label != held.label:
                row = row_of(f"/books/{book}/{name}", held.text, held.tag, held.label)
            rows[name] = row
        return rows

    async def names(self, caller: str, book: str) -> Index:
        """Rows of the names alone, where the caller may see no more (the report `names`)."""
        told = await self._server.read(caller, "REPORT", f"/books/{book}", {"report": "names"})
        rows = {}
        for one in told["names"]:
            shown = unescaped(one["fn"] or "")
            words = searched([shown], [])
            rows[one["href"]] = Row(one["href"], shown, family=last_word(shown), words=words)
        return Index(None, rows)

    def _keep(self, key: tuple[str, str], index: Index) -> None:
        self._kept[key] = index
        self._kept.move_to_end(key)
        size = sum(len(one.rows) for one in self._kept.values())
        while size > KEPT and len(self._kept) > 1:
            _, old = self._kept.popitem(last=False)
            size -= len(old.rows)


def row_of(path: str, text: str, tag: str = "", label: str = "") -> Row:
    """The row of a card."""
    said: dict[str, list[str]] = {}
    for name, _, value in SAID.findall(unfolded_text(text)):
        said.setdefault(name.upper(), []).append(value.rstrip("\r"))
    shown = unescaped(said.get("FN", [""])[0]).strip()
    parts = components(said["N"][0]) if "N" in said else [""]
    organisations = [
        unescaped(part).strip() for value in said.get("ORG", []) for part in components(value)
    ]
    phones = tuple(unescaped(value).removeprefix("tel:") for value in said.get("TEL", []))
    mails = tuple(unescaped(value) for value in said.get("EMAIL", []))
    more = [unescaped(value) for name in ("N", "NICKNAME") for value in said.get(name, [])]
    members = tuple(value.strip() for value in said.get("MEMBER", []))
    return Row(
        path, shown, tag, label, unescaped(parts[0]).strip() or last_word(shown),
        organisations[0] if organisations else "", phones, mails, members,
        said.get("UID", [""])[0].strip(), said.get("KIND", [""])[0].strip().lower() == "group",
        searched([shown, label, *more, *organisations, *mails], list(phones)),
    )


def last_word(shown: str) -> str:
    """What stands for a family name where a card has no parts of a name."""
    return shown.split()[-1] if shown.split() else ""


def plain(text: str) -> str:
    """A text in small letters without accents."""
    if text.isascii():
        return text.lower()
    return ACCENTS.sub("", unicodedata.normalize("NFKD", written_as(text.casefold(), PLAIN)))


def written_as(text: str, letters: dict[str, str]) -> str:
    """A text with other letters in place of these."""
    for letter, other in letters.items():
        text = text.replace(letter, other)
    return text


def searched(texts: list[str], phones: list[str]) -> str:
    """What words are looked for in: texts without accents, also as German writes them so, and the
    digits of numbers."""
    text = "\n".join(texts)
    parts = [plain(text)]
    if not text.isascii():
        small = unicodedata.normalize("NFC", text.casefold())
        german = written_as(small, GERMAN)
        if german != small:
            parts.append(plain(german))
    return "\n".join(parts + [DIGITS.sub("", phone) for phone in phones])


def words_of(text: str) -> list[str]:
    """The words that are looked for. A telephone number is one word, without the zeros that stand
    for a country or a town."""
    if NUMBER.fullmatch(text.strip()):
        digits = DIGITS.sub("", text).lstrip("0")
        return [digits] if digits else []
    return plain(text).split()


def found(rows: list[Row], words: list[str]) -> list[Row]:
    """The rows that have each word; those whose name begins with the first come first, each part in
    its order."""
    hits = [row for row in rows if all(word in row.words for word in words)]
    return sorted(hits, key=lambda row: not begins(row, words[0])) if words else hits


def begins(row: Row, word: str) -> bool:
    """Whether a word of the name begins with this one."""
    name = plain(row.shown)
    return name.startswith(word) or f" {word}" in name


def key_of(order: str) -> Any:
    """What rows are sorted by."""
    if order == "organisation":
        return lambda row: (
            not row.organisation, plain(row.organisation), plain(row.family), plain(row.shown),
            row.path,
        )
    return lambda row: (plain(row.family or row.shown or row.path), plain(row.shown), row.path)
