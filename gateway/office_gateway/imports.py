"""The command `import`: puts each card of a file of vCards into a book."""
from __future__ import annotations

import argparse
import codecs
import hashlib
import sys
import time
from collections.abc import Sequence
from dataclasses import dataclass, field
from pathlib import Path
from xml.etree.ElementTree import fromstring

from . import uids
from .faults import fault_of
from .gate import Fault, Gate, add_words, cause_of, gate_of
from .paths import is_name
from .refusals import words_of
from .taking import Taken, taken
from .vcard import cards_of, formatted

FILE_BYTES = 1_073_741_824
NOT_REPLACED = "a card of that name is there, and --replace was not given"
CARD = "{urn:ietf:params:xml:ns:carddav}"
# What asks for the UIDs of a book's cards.
UIDS = (
    b'<d:sync-collection xmlns:d="DAV:" xmlns:c="urn:ietf:params:xml:ns:carddav">'
    b"<d:sync-token/><d:sync-level>1</d:sync-level><d:prop>"
    b'<c:address-data version="4.0"><c:prop name="UID"/></c:address-data>'
    b"</d:prop></d:sync-collection>"
)
# Seconds between two words on how far it has come.
STEP_SECONDS = 0.2


@dataclass(frozen=True)
class Card:
    """A card of the file, by its number in it."""

    number: int
    text: str
    taken: Taken

    @property
    def uid(self) -> str:
        """Its UID, or an empty text."""
        return uids.uid_in(self.taken.text() or "")

    @property
    def who(self) -> str:
        """The name of whom it tells."""
        return formatted(self.taken.text() or "") or "without a name"


@dataclass
class Book:
    """What is known of the book: where each UID is, and what this run has put where."""

    path: str
    hrefs: dict[str, str] = field(default_factory=dict)
    put: dict[str, Card] = field(default_factory=dict)

    def href_of(self, card: Card) -> str:
        """Where the card with this UID is, or else where it is put."""
        return self.hrefs.get(card.uid) or self.path + name_of(card.text)


def name_of(text: str) -> str:
    """The name that a card gets in the book: its UID where that is a name, else a digest of the UID
    or of the text.

    So a card that is imported again has the name that it had.
    """
    uid = uids.uid_in(text).strip()
    bare = uid.removeprefix("urn:uuid:")
    if len(bare) <= 60 and is_name(bare):
        return bare + ".vcf"
    data = (uid or text).encode("utf-8", "surrogatepass")
    return hashlib.sha256(data).hexdigest()[:40] + ".vcf"


def cards_in(text: str) -> list[Card]:
    """The cards of a text. A byte that is no UTF-8 stands in it as `surrogateescape` writes it."""
    found = []
    for number, card in enumerate(cards_of(text), 1):
        body = card.encode("utf-8", "surrogateescape")
        found.append(Card(number, card, taken(body, shrink_photos=False)))
    return found


def book_of(gate: Gate, name: str) -> Book:
    """What the person may read of the book; nothing where the book may not be read."""
    book = Book(f"/dav/books/{name}/")
    status, answer = gate.ask("REPORT", book.path, UIDS, Content_Type="application/xml")
    if status in (401, 503):
        raise Fault("the gateway refuses all")
    for response in fromstring(answer).iter("{DAV:}response") if status == 207 else []:
        uid = uids.uid_in(response.findtext(f".//{CARD}address-data") or "")
        href = response.findtext("{DAV:}href")
        if uid and href:
            book.hrefs.setdefault(uid, href)
    return book


class Import:
    """One run of the command."""

    def __init__(self, gate: Gate, given: argparse.Namespace):
        self._gate = gate
        self._given = given
        self._book = book_of(gate, given.book)
        self._begun = 0.0
        self.done: list[Card] = []
        self.refused: list[Card] = []

    def run(self, cards: list[Card]) -> None:
        """Puts each card, and prints what became of it."""
        for card in cards:
            self.step(card.number, len(cards))
            href = self._book.href_of(card)
            words, cause = self.one(card, href)
            (self.refused if cause else self.done).append(card)
            mended = f" (mended: {'; '.join(card.taken.notes)})" if card.taken.notes else ""
            told = f"refused. {cause}" if cause else f"{href.rsplit('/', 1)[1]} {words}{mended}"
            if cause and self._given.refused:
                told += f" It is card {len(self.refused)} of {self._given.refused}."
            self.clear()
            print(f"card {card.number} ({card.who}): {told}")
        self.clear()

    def one(self, card: Card, href: str) -> tuple[str, str]:
        """What became of a card, in words, and why it is refused, or an empty text."""
        other = self._book.put.get(href)
        if other is not None and other.taken.data != card.taken.data:
            return "", f"it has the UID of card {other.number}, and says something else"
        if other is not None:
            return f"is there: it is card {other.number}", ""
        words, cause = self.tried(card, href) if self._given.dry_run else self.put(card, href)
        if not cause:
            self._book.put[href] = card
        return words, cause

    def tried(self, card: Card, href: str) -> tuple[str, str]:
        """What would become of a card, as far as can be seen without the server."""
        fault = fault_of(card.taken.data)
        if fault is not None:
            line = card.taken.origin(fault[1]) if fault[1] else 0
            return "", words_of({"error": "bad-card", "fault": fault[0], "line": line})
        if href not in self._book.hrefs.values():
            return "would be new", ""
        return ("would be replaced", "") if self._given.replace else ("", NOT_REPLACED)

    def put(self, card: Card, href: str) -> tuple[str, str]:
        """PUT of a card."""
        fields = {} if self._given.replace else {"If_None_Match": "*"}
        body = card.text.encode("utf-8", "surrogateescape")
        status, answer = self._gate.ask("PUT", href, body, Content_Type="text/vcard", **fields)
        if status in (401, 503):
            raise Fault("the gateway refuses all")
        if status in (201, 204):
            return f"is {'new' if status == 201 else 'replaced'}", ""
        return "", NOT_REPLACED if status == 412 else cause_of(answer)

    def step(self, number: int, count: int) -> None:
        """Says on a terminal how far it has come."""
        if sys.stderr.isatty() and time.monotonic() - self._begun > STEP_SECONDS:
            self._begun = time.monotonic()
            print(f"\r{number} of {count}\033[K", end="", file=sys.stderr, flush=True)

    def clear(self) -> None:
        """Takes away what was said of that."""
        if sys.stderr.isatty() and sys.stdout.isatty():
            print("\r\033[K", end="", file=sys.stderr, flush=True)


def text_of(given: argparse.Namespace) -> str:
    """The text of the file in its set of characters."""
    if given.file == "-":
        data = sys.stdin.buffer.read(FILE_BYTES + 1)
    else:
        data = Path(given.file).read_bytes()
    if len(data) > FILE_BYTES:
        raise Fault("the file is too large")
    if not given.charset:
        return data.decode("utf-8", "surrogateescape").removeprefix("\ufeff")
    try:
        return data.decode(codecs.lookup(given.charset).name).removeprefix("\ufeff")
    except (LookupError, UnicodeError) as fault:
        raise Fault(f"the file is not in {given.charset}: {fault}") from None


def write_refused(file: str, cards: list[Card]) -> None:
    """Writes the refused cards as they came, to be corrected and imported again."""
    texts = [card.text if card.text.endswith("\n") else card.text + "\r\n" for card in cards]
    Path(file).write_bytes("".join(texts).encode("utf-8", "surrogateescape"))


def parser() -> argparse.ArgumentParser:
    """The words of the command."""
    made = argparse.ArgumentParser(
        "import", description="Puts each card of a file of vCards 2.1, 3.0 or 4.0 into a book."
    )
    add_words(made)
    made.add_argument("file", help="the file; - is standard input")
    made.add_argument("--replace", action="store_true", help="replaces cards of the same UID")
    made.add_argument("--dry-run", action="store_true", help="puts nothing, and says what it would")
    made.add_argument(
        "--charset", default="",
        help="the file's set of characters, as windows-1252; without it UTF-8, or what the lines "
        "of cards of 2.1 say",
    )
    made.add_argument(
        "--refused", default="", metavar="FILE",
        help="writes the refused cards into this file, to be corrected and imported again",
    )
    return made


def main(words: Sequence[str] | None = None) -> int:
    """Status 0 where every card was put, 1 where one was refused, 3 where nobody answered."""
    given = parser().parse_args(words)
    run = None
    try:
        cards = cards_in(text_of(given))
        run = Import(gate_of(given), given)
        run.run(cards)
    except (Fault, OSError) as fault:
        print(fault, file=sys.stderr)
        return 3
    finally:
        if run is not None and given.refused and run.refused:
            write_refused(given.refused, run.refused)
    done = "would be put" if given.dry_run else "put"
    print(f"{len(run.done)} {done}, {len(run.refused)} refused")
    return 1 if run.refused else 0
