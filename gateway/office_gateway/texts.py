"""The texts of cards, each kept once for all who may read it.

They stand in a file without a name, of which a part is in memory. A text is kept for as long as
something holds its card, and is gone with the process.
"""
from __future__ import annotations

import hashlib
import sqlite3
from weakref import WeakValueDictionary

# Kilobytes of the file that are in memory.
MEMORY = 32_768
# About how many bytes a card takes beside its text.
HELD = 400


def tag_of(text: str) -> str:
    """The entity tag of a text: a digest, so that a card has one tag for all who may read it."""
    return f'"{hashlib.sha256(text.encode("utf-8", "surrogatepass")).hexdigest()[:32]}"'


class Held:
    """A card as the server told it: its change number, its label, its tag, the bytes of its text,
    and the text."""

    __slots__ = ("number", "label", "tag", "length", "_texts", "_row", "__weakref__")

    def __init__(self, number: int, label: str, tag: str, length: int, texts: Texts, row: int):
        self.number = number
        self.label = label
        self.tag = tag
        self.length = length
        self._texts = texts
        self._row = row

    @property
    def size(self) -> int:
        """About how many bytes it takes."""
        return self.length + HELD

    @property
    def text(self) -> str:
        """The text, read from where it is kept."""
        return self._texts.read(self._row)

    def __del__(self) -> None:
        self._texts.let_go(self._row, self.size)


class Texts:
    """Cards that are held, by book, name, change number and tag."""

    def __init__(self) -> None:
        self._base = sqlite3.connect("", isolation_level=None)
        for line in ("journal_mode = off", "synchronous = off", f"cache_size = -{MEMORY}"):
            self._base.execute(f"pragma {line}")
        # One transaction that never ends: nothing of the file outlasts the process.
        self._base.execute("begin")
        self._base.execute("create table text (row integer primary key, body blob not null)")
        self._known: WeakValueDictionary[tuple[str, str, int, str], Held] = WeakValueDictionary()
        self._gone: list[int] = []
        # About how many bytes all held cards take.
        self.size = 0

    def held(self, book: str, name: str, number: int, text: str, label: str) -> Held:
        """A card. One that is held already is not kept again."""
        tag = tag_of(text)
        key = (book, name, number, tag)
        found = self._known.get(key)
        if found is not None:
            return found
        self._sweep()
        body = text.encode("utf-8", "surrogatepass")
        row = self._base.execute("insert into text (body) values (?)", (body,)).lastrowid
        assert row is not None
        made = Held(number, label, tag, len(body), self, row)
        self._known[key] = made
        self.size += made.size
        return made

    def read(self, row: int) -> str:
        """The text in a row."""
        [body] = self._base.execute("select body from text where row = ?", (row,)).fetchone()
        return body.decode("utf-8", "surrogatepass")

    def let_go(self, row: int, size: int) -> None:
        """Notes that nothing holds a row any more. It is removed when the next text comes."""
        self._gone.append(row)
        self.size -= size

    def _sweep(self) -> None:
        """Removes what nothing holds."""
        while self._gone:
            rows, self._gone = self._gone, []
            self._base.executemany("delete from text where row = ?", [(row,) for row in rows])
