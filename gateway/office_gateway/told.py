"""What each person was last told of a book, by sync token: names and entity tags, and no texts.

The server refuses every token that it gave before a change of access. What is remembered here lets
the gateway answer such a token by what differs now. It stands in a file of its own that may be
lost: then clients read their books again.

For each person and book there is one row for each name. A row is written when the person is told
something new of the name, and gets the next serial number then. A token has the serial number at
which it was given. So a client that has the token knows each row of that serial number or less, and
may lack the later ones. Where an answer was cut by a limit, the client also lacks the cards whose
change number is above that of its token.
"""
from __future__ import annotations

import asyncio
import logging
import sqlite3
from collections.abc import Callable, Mapping
from concurrent.futures import ThreadPoolExecutor
from dataclasses import dataclass
from pathlib import Path
from typing import TypeVar

from .copies import Changes, Copy
from .texts import Held

LOG = logging.getLogger("office_gateway")
NAME = "told.db"
# The version of the file's tables; a file of another is made anew.
VERSION = 1
TABLES = """
create table book (
    book integer primary key, person text not null, name text not null, serial integer not null,
    used integer not null, unique (person, name)
);
create table card (
    book integer not null, name text not null, number integer not null, tag text,
    serial integer not null, primary key (book, name)
) without rowid;
create index card_serial on card (book, serial);
create table token (
    book integer not null, token text not null, serial integer not null, number integer not null,
    given integer not null, primary key (book, token)
) without rowid;
"""
# Tokens that are remembered of each book for each person.
TOKENS = 64

T = TypeVar("T")
# A name's change number and tag; None for a name that is gone.
Row = tuple[int, str] | None


@dataclass(frozen=True)
class Difference:
    """Names that a client lacks as they are, and its next token. `more` tells whether this is not
    all."""

    names: list[str]
    token: str
    more: bool


def rows_of(cards: Mapping[str, Held | None]) -> dict[str, Row]:
    """What is remembered of cards."""
    return {name: (held.number, held.tag) if held else None for name, held in cards.items()}


def number_of(token: str) -> int:
    """The change number of a token of the server: the last part of data:,BOOK/EPOCH/NUMBER."""
    last = token.rpartition("/")[2]
    return int(last) if last.isascii() and last.isdigit() else 0


class Told:
    """What was told, asked in a thread of its own. Who asks holds the lock of the person's book."""

    def __init__(self, folder: Path | None, names: int):
        self._memory = Memory(opened(folder), names)
        self._thread = ThreadPoolExecutor(1, "told")

    async def _asked(self, work: Callable[[], T], otherwise: T) -> T:
        """What the memory answers; where its file fails, nothing is remembered."""
        try:
            return await asyncio.get_running_loop().run_in_executor(self._thread, work)
        except sqlite3.Error as fault:
            LOG.warning("what was told is not remembered: %s", fault)
            return otherwise

    async def knows(self, person: str, book: str, token: str) -> bool:
        """Whether it is remembered what was told with a token."""
        return await self._asked(lambda: self._memory.knows(person, book, token), False)

    async def learn(self, person: str, book: str, now: Copy) -> None:
        """Remembers all that the person may read of a book as told with the token of the copy."""
        if not await self.knows(person, book, now.token):
            rows = rows_of(now.cards)
            await self._asked(lambda: self._memory.learn(person, book, rows, now.token), None)

    async def add(self, person: str, book: str, known: str, changes: Changes) -> None:
        """Remembers changes as told to a client that had the token `known`."""
        if known != changes.token:
            rows = rows_of(changes.cards)
            await self._asked(
                lambda: self._memory.add(person, book, known, rows, changes.token), None
            )

    async def after(
        self, person: str, book: str, known: str, now: Copy, limit: int | None
    ) -> Difference | None:
        """What a client that has the token `known` lacks of what the person may read now, at most
        `limit` names; None where that is not remembered."""
        rows = rows_of(now.cards)
        return await self._asked(
            lambda: self._memory.after(person, book, known, rows, now.token, limit), None
        )

    def close(self) -> None:
        """Ends the thread and closes the file."""
        self._thread.submit(self._memory.close)
        self._thread.shutdown()


def opened(folder: Path | None) -> sqlite3.Connection:
    """The file in a folder; without one, or where it cannot be written, memory alone."""
    if folder is not None:
        path = folder / NAME
        for _ in range(2):
            try:
                return tables_in(connected(str(path)))
            except sqlite3.DatabaseError as fault:
                LOG.warning("%s: %s", path, fault)
                try:
                    path.unlink(missing_ok=True)
                except OSError:
                    break
    return tables_in(connected(":memory:"))


def connected(path: str) -> sqlite3.Connection:
    """A file that the thread of another may use."""
    return sqlite3.connect(path, isolation_level=None, check_same_thread=False)


def tables_in(base: sqlite3.Connection) -> sqlite3.Connection:
    """The same with its tables, which are made anew where they are of another version."""
    base.execute("pragma journal_mode = memory")
    base.execute("pragma synchronous = off")
    [version] = base.execute("pragma user_version").fetchone()
    if version != VERSION:
        tables = base.execute("select name from sqlite_master where type = 'table'").fetchall()
        for [name] in tables:
            base.execute(f"drop table {name}")
        base.executescript(TABLES)
        base.execute(f"pragma user_version = {VERSION}")
    return base


class Memory:
    """The tables of what was told."""

    def __init__(self, base: sqlite3.Connection, names: int):
        self._base = base
        self._names = names
        [self._count] = base.execute("select count(*) from card").fetchone()

    def close(self) -> None:
        """Closes the file."""
        self._base.close()

    def knows(self, person: str, book: str, token: str) -> bool:
        """Whether a token is remembered."""
        return self._given(self._book(person, book), token) is not None

    def learn(self, person: str, book: str, rows: Mapping[str, Row], token: str) -> None:
        """Remembers all rows of a book as told with a token."""
        if self.knows(person, book, token):
            return
        with self._base:
            self._base.execute("begin")
            key = self._made(person, book)
            self._write(key, {**dict.fromkeys(self._live(key)), **rows})
            self._give(key, token, self._serial(key), number_of(token))
        self._forget(key)

    def add(self, person: str, book: str, known: str, rows: Mapping[str, Row], token: str) -> None:
        """Remembers changes as told. Of a client whose token is not remembered nothing is known."""
        key = self._book(person, book)
        if known and self._given(key, known) is None:
            return
        with self._base:
            self._base.execute("begin")
            key = self._made(person, book)
            self._write(key, rows)
            self._give(key, token, self._serial(key), number_of(token))
        self._forget(key)

    def after(
        self,
        person: str,
        book: str,
        known: str,
        rows: Mapping[str, Row],
        token: str,
        limit: int | None,
    ) -> Difference | None:
        """What a client that has the token `known` lacks of these rows."""
        key = self._book(person, book)
        given = self._given(key, known)
        if given is None:
            return None
        serial, number = given
        with self._base:
            self._base.execute("begin")
            self._write(key, {**dict.fromkeys(self._live(key)), **rows})
            self._raise(key, serial, number)
            lacking = self._base.execute(
                "select name, serial from card where book = ? and serial > ? order by serial",
                (key, serial),
            ).fetchall()
            told = lacking if limit is None else lacking[:limit]
            more = len(told) < len(lacking)
            # The server refuses the token of a part, so that the client comes back here.
            last = told[-1][1] if more else self._serial(key)
            new = f"{token}/{last}" if more else token
            self._give(key, new, last, number_of(token))
        self._forget(key)
        return Difference([name for name, _ in told], new, more)

    def _book(self, person: str, book: str) -> int:
        """The key of a person's book; 0 where there is none."""
        found = self._base.execute(
            "select book from book where person = ? and name = ?", (person, book)
        ).fetchone()
        return found[0] if found else 0

    def _made(self, person: str, book: str) -> int:
        """The key of a person's book, which is made where there is none, and is used now."""
        self._base.execute(
            "insert into book (person, name, serial, used) values (?, ?, 0, 0) "
            "on conflict do nothing",
            (person, book),
        )
        self._base.execute(
            "update book set used = (select max(used) + 1 from book) where person = ? and name = ?",
            (person, book),
        )
        return self._book(person, book)

    def _serial(self, key: int) -> int:
        """The last serial number of a person's book."""
        [serial] = self._base.execute("select serial from book where book = ?", (key,)).fetchone()
        return serial

    def _live(self, key: int) -> list[str]:
        """The names that were told and are not gone."""
        found = self._base.execute(
            "select name from card where book = ? and tag is not null", (key,)
        )
        return [name for [name] in found]

    def _given(self, key: int, token: str) -> tuple[int, int] | None:
        """The serial number and the change number with which a token was given."""
        return self._base.execute(
            "select serial, number from token where book = ? and token = ?", (key, token)
        ).fetchone()

    def _give(self, key: int, token: str, serial: int, number: int) -> None:
        """Remembers a token. One that is remembered stays as it is."""
        self._base.execute(
            "insert into token (book, token, serial, number, given) values (?, ?, ?, ?, "
            "(select coalesce(max(given), 0) + 1 from token where book = ?)) "
            "on conflict do nothing",
            (key, token, serial, number, key),
        )

    def _write(self, key: int, rows: Mapping[str, Row]) -> None:
        """Writes the rows that differ, each with the next serial number."""
        found = self._base.execute("select name, number, tag from card where book = ?", (key,))
        known = {name: (number, tag) if tag else None for name, number, tag in found}
        serial = self._serial(key)
        written = []
        for name, row in rows.items():
            if known.get(name) != row:
                serial += 1
                number, tag = row or (0, None)
                written.append((key, name, number, tag, serial))
        self._base.executemany("insert or replace into card values (?, ?, ?, ?, ?)", written)
        self._count += sum(1 for row in written if row[1] not in known)
        self._base.execute("update book set serial = ? where book = ?", (serial, key))

    def _raise(self, key: int, serial: int, number: int) -> None:
        """Gives new serial numbers to the cards that a client lacks since its answer was cut."""
        found = self._base.execute(
            "select name from card where book = ? and serial <= ? and number > ? order by number",
            (key, serial, number),
        ).fetchall()
        last = self._serial(key)
        rows = [(last + count, key, name) for count, [name] in enumerate(found, 1)]
        self._base.executemany("update card set serial = ? where book = ? and name = ?", rows)
        self._base.execute("update book set serial = ? where book = ?", (last + len(rows), key))

    def _forget(self, key: int) -> None:
        """Lets go what is beyond the bounds: old tokens, names that are gone for all that are left,
        and the books that were not used for the longest time."""
        with self._base:
            self._base.execute("begin")
            self._base.execute(
                "delete from token where book = ?1 and given <= "
                "(select max(given) from token where book = ?1) - ?2",
                (key, TOKENS),
            )
            gone = self._base.execute(
                "delete from card where book = ?1 and tag is null and serial <= "
                "(select min(serial) from token where book = ?1)",
                (key,),
            )
            self._count -= gone.rowcount
            while self._count > self._names:
                [old] = self._base.execute("select book from book order by used").fetchone()
                gone = self._base.execute("delete from card where book = ?", (old,))
                self._base.execute("delete from token where book = ?", (old,))
                self._base.execute("delete from book where book = ?", (old,))
                self._count -= gone.rowcount
