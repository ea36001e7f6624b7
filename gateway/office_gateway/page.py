"""What the web page asks for beside the server's own requests: who signed in, books, rows of cards,
cards, and searches."""
from __future__ import annotations

import asyncio
import hashlib
import json
from dataclasses import replace
from pathlib import Path
from typing import Any

from . import paths
from .accounts import Devices
from .calls import Call, Reply, json_reply
from .config import Offer, Settings
from .copies import Copies
from .dav import Dav
from .passwords import Passwords
from .preview import preview
from .refusals import Refusal
from .rows import ORDERS, Index, Row, Rows, found, row_of, words_of
from .server import Server
from .sessions import Sessions, word_of
from .texts import tag_of

KINDS = {".html": "text/html", ".css": "text/css", ".js": "text/javascript"}
POLICY = (
    "default-src 'none'; script-src 'self'; style-src 'self'; img-src 'self' data:; "
    "connect-src 'self'; base-uri 'none'; form-action 'none'; frame-ancestors 'none'"
)
# Fields that keep a browser from doing with a reply what it is not for.
GUARDS = {
    "Content-Security-Policy": POLICY,
    "X-Content-Type-Options": "nosniff",
    "Referrer-Policy": "no-referrer",
    "Cross-Origin-Resource-Policy": "same-origin",
    "Cross-Origin-Opener-Policy": "same-origin",
}
RIGHTS = "current-user-privilege-set"
# Rows in an answer, books that are asked at the same time, and what is found in all of them
# together.
SLICE = 500
TOGETHER = 8
FOUND = 60
EDITS = ("COPY", "DELETE", "MOVE", "PUT")
# A book of which the caller is not told label, owner and rights, and the book of a card that is
# told alone.
UNKNOWN: dict[str, Any] = {"label": "", "may": None, "owner": None}
SHARED = {**UNKNOWN, "sees": "cards"}


class Page:
    """The files of the page, and what it asks for."""

    def __init__(
        self, folder: Path, settings: Settings, server: Server, copies: Copies, dav: Dav,
        passwords: Passwords, sessions: Sessions, devices: Devices,
    ):
        self._offered = settings.offered
        self._people = settings.people
        self._devices = devices
        self._server = server
        self._dav = dav
        self._passwords = passwords
        self._sessions = sessions
        self._secure = settings.secure()
        self._rows = Rows(copies, server)
        self._files = files_of(folder)

    # Files and sessions

    def file(self, name: str, known: str) -> Reply | None:
        """A file of the page; None where there is none of that name. `known` is If-None-Match."""
        if name not in self._files:
            return None
        kind, body = self._files[name]
        tag = f'"{hashlib.sha256(body).hexdigest()[:32]}"'
        fields = {"ETag": tag, "Cache-Control": "no-cache", **GUARDS}
        if tag in known:
            return Reply(304, b"", fields)
        return Reply(200, body, {"Content-Type": f"{kind}; charset=utf-8", **fields})

    async def sign_in(self, body: bytes, address: str = "") -> Reply:
        """POST of a name and a password: a session, whose word is in a cookie."""
        told = asked_of(body, name=str, password=str)
        person = await self._passwords.check(told["name"], told["password"], address)
        if person is None:
            raise Refusal(401, "no-password")
        login = told["name"]
        reply = json_reply({"login": login, "person": person})
        word = self._sessions.begin(login, person, self._passwords.mark(login))
        reply.fields["Set-Cookie"] = self._cookie(word, int(self._sessions.seconds))
        return reply

    def sign_out(self, word: str) -> Reply:
        """DELETE of a session."""
        self._sessions.end(word)
        return Reply(204, b"", {"Set-Cookie": self._cookie("", 0)})

    def _cookie(self, word: str, seconds: int) -> str:
        secure = "; Secure" if self._secure else ""
        life = f"Path=/; Max-Age={seconds}; HttpOnly; SameSite=Strict{secure}"
        return f"{self._sessions.cookie}={word}; {life}"

    # Requests

    async def answer(self, call: Call) -> Reply:
        """What the page asks for below /page."""
        name = call.target.removeprefix("/page")
        path = paths.server_path(name)
        if path and paths.is_card(path) and call.method in EDITS:
            return await self.edit(call, path)
        posts = {
            "/book": self.book, "/search": self.search, "/export": self.export,
            "/members": self.members, "/preview": self.preview, "/device": self.make_device,
            "/lost": self.take_device_away, "/password": self.set_password,
        }
        gets = {
            "/session": self.session, "/books": self.books, "/names": self.names,
            "/account": self.account,
        }
        wanted = posts if call.method == "POST" else gets if call.method == "GET" else None
        if wanted is None:
            raise Refusal(405, "not-allowed", {"Allow": "GET, POST"})
        if name in wanted:
            return await wanted[name](call)
        if call.method == "GET" and path and paths.is_card(path):
            return await self.card(call, path)
        if call.method == "GET" and path and paths.is_book(path):
            return await self.denied(call, path)
        raise Refusal(404, "not-found")

    async def edit(self, call: Call, path: str) -> Reply:
        """PUT, DELETE, COPY or MOVE of a card, as CardDAV has them; the page names places as the
        server does."""
        fields = dict(call.fields)
        target = paths.server_path(fields.get("destination", "/"))
        if target is None:
            raise Refusal(403, "bad-name")
        if "destination" in fields:
            fields["destination"] = paths.href(target)
        named = replace(call, target=paths.href(path), fields=type(call.fields)(fields))
        return await self._dav.answer(named)

    async def session(self, call: Call) -> Reply:
        """Who is signed in, whether the proxy in front says so, and whom to ask for rights."""
        field = self._people.name_field
        named = bool(field) and call.fields.get(field, "").strip() != ""
        told = {"ask": self._people.ask, "login": call.login, "person": call.caller}
        return json_reply({**told, "named": named})

    # Accounts

    async def account(self, call: Call) -> Reply:
        """The devices of the login name, and whether it has a password here."""
        devices, own = self._devices.listed(call.login), self._passwords.has(call.login)
        return json_reply({"devices": devices, "password": own})

    async def make_device(self, call: Call) -> Reply:
        """A new password for a device."""
        name = asked_of(call.body, name=str)["name"]
        return json_reply({"word": self._devices.make(call.login, name)})

    async def take_device_away(self, call: Call) -> Reply:
        """One device's password is taken away."""
        self._devices.take_away(call.login, asked_of(call.body, id=str)["id"])
        return Reply(204)

    async def set_password(self, call: Call) -> Reply:
        """The own password is set, by who knows the old one. Other sessions of this name end."""
        told = asked_of(call.body, new=str, old=str)
        if await self._passwords.check(call.login, told["old"]) is None:
            raise Refusal(403, "wrong-password")
        await self._passwords.change(call.login, told["new"])
        word = word_of(call.fields.get("Cookie", ""), self._sessions.cookie)
        self._sessions.mark_anew(word, self._passwords.mark(call.login))
        return Reply(204)

    async def rights(self, caller: str, path: str) -> dict[str, Any]:
        """Label and owner of a resource, and what the caller may do there: None where that may not
        be asked."""
        wanted = ["displayname", "owner"]
        try:
            told = await self._server.read(caller, "PROPFIND", path, {"prop": [*wanted, RIGHTS]})
        except Refusal as refusal:
            if refusal.detail.get("privilege") != "read-current-user-privilege-set":
                raise
            told = await self._server.read(caller, "PROPFIND", path, {"prop": wanted})
        prop = told["responses"][0]["prop"]
        may = prop.get(RIGHTS)
        return {"label": prop["displayname"], "may": may, "owner": prop["owner"], "path": path}

    async def books(self, call: Call) -> Reply:
        """The books of which the caller may read the cards, or see the names; and what the caller
        may do with books."""
        try:
            may = (await self.rights(call.caller, "/books"))["may"]
        except Refusal as refusal:
            hide(refusal)
            may = None
        books, shared = await self.known_books(call.caller), await self.shared(call.caller)
        return json_reply({"books": books, "may": may, "shared": [row.json() for row in shared]})

    async def known_books(self, caller: str) -> list[dict[str, Any]]:
        """The books that the caller may use, each with what is seen of it."""
        try:
            names = await self._dav.book_names(caller)
        except Refusal as refusal:
            hide(refusal)
            names = []
        told = await together([self.known(caller, path) for path in names])
        return [book for book in told if book is not None]

    async def known(self, caller: str, path: str) -> dict[str, Any] | None:
        """A book whose cards or names the caller sees; None for another."""
        try:
            return {**await self.rights(caller, path), "sees": "cards"}
        except Refusal as refusal:
            hide(refusal)
        try:
            await self._rows.names(caller, paths.parts_of(path)[1])
        except Refusal as refusal:
            hide(refusal)
            return self.add_only(caller, path)
        return {**UNKNOWN, "path": path, "sees": "names"}

    def add_only(self, caller: str, path: str) -> dict[str, Any] | None:
        """A book to which the caller may add cards, as the settings say, and of which nothing is
        seen."""
        if caller not in self.offer(path).add:
            return None
        return {**UNKNOWN, "may": ["bind"], "path": path, "sees": "nothing"}

    def offer(self, path: str) -> Offer:
        """To whom the settings offer a book."""
        return self._offered.get(paths.parts_of(path)[1], Offer())

    async def shared(self, caller: str) -> list[Row]:
        """Single cards that the settings offer to the caller, of those that the server lets the
        caller read."""
        wanted = [
            f"/books/{book}/{name}"
            for book, offer in self._offered.items()
            for name in offer.cards.get(caller, ())
        ]

        async def one(path: str) -> Row | None:
            try:
                return row_of(path, (await self._dav.card(caller, path))[1])
            except Refusal as refusal:
                hide(refusal)
                return None

        return [row for row in await together([one(path) for path in wanted]) if row is not None]

    async def seen(self, caller: str, path: str) -> tuple[dict[str, Any], Index]:
        """A book with its rows: of its cards, or else of their names. Refusal where the caller may
        see neither."""
        book = paths.parts_of(path)[1]
        try:
            told = await self.rights(caller, path)
            return {**told, "sees": "cards"}, await self._rows.index(caller, book)
        except Refusal as refusal:
            hide(refusal)
            try:
                rows = await self._rows.names(caller, book)
            except Refusal as other:
                hide(other)
                added = self.add_only(caller, path)
                if added is None:
                    raise refusal from None
                return added, Index(None, {})
            return {**UNKNOWN, "path": path, "sees": "names"}, rows

    async def book(self, call: Call) -> Reply:
        """A slice of the rows of a book, in an order, of those that have the words."""
        told = asked_of(call.body, path=str, order=str, start=int, count=int, words=str)
        book_in(told["path"])
        if told["order"] not in ORDERS:
            raise Refusal(400, "bad-request")
        book, index = await self.seen(call.caller, told["path"])
        rows = index.ordered(told["order"])
        hits = found(rows, words_of(told["words"])) if told["words"].strip() else rows
        start = max(0, told["start"])
        part = hits[start : start + max(1, min(SLICE, told["count"]))]
        shown = [row.json() for row in part]
        return json_reply({**book, "cards": len(rows), "rows": shown, "total": len(hits)})

    async def denied(self, call: Call, path: str) -> Reply:
        """The cards of a book that the caller may not read, each with its denial."""
        body = {"prop": ["displayname"]}
        told = await self._server.read(call.caller, "PROPFIND", path, body, Depth="1")
        denied = [
            {"denial": child["need-privileges"], "path": child["href"]}
            for child in told["responses"][1:]
            if child["status"] == 403
        ]
        return json_reply({"denied": denied})

    async def card(self, call: Call, path: str) -> Reply:
        """A card: its text with the tag for If-Match, what the caller may do with it, and the
        groups that it is in."""
        held, text = await self._dav.card(call.caller, path)
        told = await self.rights(call.caller, path)
        told |= {"tag": tag_of(text), "text": text, "groups": [], "names": {}}
        own = row_of(path, text)
        if held is not None:
            index = await self._rows.index(call.caller, paths.parts_of(path)[1])
            told["groups"] = [row.json() for row in index.groups_of(own.uid)]
            told["names"] = names_by_uid(index, own)
        try:
            book = await self.rights(call.caller, path.rpartition("/")[0])
        except Refusal as refusal:
            hide(refusal)
            book = None
        return json_reply({**told, "book": book})

    async def search(self, call: Call) -> Reply:
        """The first cards of all books of the caller that have the words, by name, and how many
        there are."""
        words = words_of(asked_of(call.body, words=str)["words"])
        if not words:
            return json_reply({"rows": [], "total": 0})
        names = await self.paths_of_books(call.caller)
        books = await together([self.seen_or_none(call.caller, path) for path in names])
        hits = []
        for pair in books:
            if pair is not None:
                hits += [(row, pair[0]) for row in found(pair[1].ordered("family"), words)]
        known = {row.path for row, _ in hits}
        shared = found(await self.shared(call.caller), words)
        hits += [(row, SHARED) for row in shared if row.path not in known]
        ordered = found([row for row, _ in hits], words)
        books_of = {row.path: book for row, book in hits}
        rows = [
            {**row.json(), "book": books_of[row.path]["label"], "sees": books_of[row.path]["sees"]}
            for row in ordered[:FOUND]
        ]
        return json_reply({"rows": rows, "total": len(hits)})

    async def paths_of_books(self, caller: str) -> list[str]:
        """The paths of books that the caller may have something in."""
        try:
            return await self._dav.book_names(caller)
        except Refusal as refusal:
            hide(refusal)
            return []

    async def seen_or_none(self, caller: str, path: str) -> tuple[dict[str, Any], Index] | None:
        """A book with its rows; None where the caller sees nothing of it."""
        try:
            return await self.seen(caller, path)
        except Refusal as refusal:
            hide(refusal)
            return None

    async def names(self, call: Call) -> Reply:
        """The persons and groups that the caller may see, with what is shown for them."""
        told = {}
        for home in ("people", "groups"):
            try:
                body = {"prop": ["displayname"]}
                answer = await self._server.read(
                    call.caller, "PROPFIND", f"/{home}", body, Depth="1"
                )
            except Refusal as refusal:
                hide(refusal)
                told[home] = []
                continue
            told[home] = [
                {"label": one["prop"]["displayname"], "path": one["href"]}
                for one in answer["responses"][1:]
                if one["status"] == 200
            ]
        return json_reply(told)

    async def members(self, call: Call) -> Reply:
        """Cards of a book that could be members of a group, by words."""
        told = asked_of(call.body, path=str, words=str)
        index = await self._rows.index(call.caller, book_in(told["path"]))
        rows = [row for row in found(index.ordered("family"), words_of(told["words"])) if row.uid]
        return json_reply({"rows": [row.json() for row in rows[:FOUND]], "total": len(rows)})

    async def preview(self, call: Call) -> Reply:
        """What would be done with each of some cards, were they put into a book."""
        told = asked_of(call.body, path=str, texts=list)
        book_in(told["path"])
        if not all(isinstance(text, str) for text in told["texts"]):
            raise Refusal(400, "bad-request")
        _, index = await self.seen(call.caller, told["path"])
        return json_reply({"cards": preview(told["path"], told["texts"], index)})

    async def export(self, call: Call) -> Reply:
        """The texts of cards of a book that the caller may read: all, or those that are named."""
        told = asked_of(call.body, path=str, names=list)
        copy = (await self._rows.index(call.caller, book_in(told["path"]))).cards
        names = told["names"] or list(copy)
        texts = [copy[name].text for name in names if name in copy]
        body = "".join(text if text.endswith("\n") else text + "\r\n" for text in texts)
        fields = {"Content-Type": "text/vcard; charset=utf-8"}
        return Reply(200, body.encode("utf-8", "surrogatepass"), fields)


def files_of(folder: Path) -> dict[str, tuple[str, bytes]]:
    """The files of the page by name, and a list of its languages: one for each file of texts."""
    files = {
        file.name: (KINDS[file.suffix], file.read_bytes())
        for file in sorted(folder.iterdir())
        if file.suffix in KINDS
    }
    files[""] = files["index.html"]
    texts = [name.split(".") for name in files if name.startswith("texts.")]
    languages = [parts[1] for parts in texts if len(parts) == 3]
    files["languages.js"] = (KINDS[".js"], f"export default {json.dumps(languages)};\n".encode())
    return files


def asked_of(body: bytes, **kinds: type) -> dict[str, Any]:
    """A body in JSON with these keys, each of its kind; Refusal 400 for another."""
    try:
        told = json.loads(body)
    except ValueError:
        raise Refusal(400, "bad-request") from None
    fits = isinstance(told, dict) and set(told) == set(kinds)
    if not fits or any(type(told[key]) is not kind for key, kind in kinds.items()):
        raise Refusal(400, "bad-request")
    return told


def book_in(path: str) -> str:
    """The name of the book that a path is; Refusal 400 where it is no book's."""
    if not paths.is_book(paths.server_path(path) or ""):
        raise Refusal(400, "bad-request")
    return paths.parts_of(path)[1]


def hide(refusal: Refusal) -> None:
    """Lets a denial, or a thing that is not there, count as not seen; raises another refusal
    again."""
    if refusal.name not in ("need-privileges", "not-found"):
        raise refusal


async def together(tasks: list[Any]) -> list[Any]:
    """The results in order, of which some are waited for at the same time."""
    turn = asyncio.Semaphore(TOGETHER)

    async def one(task: Any) -> Any:
        async with turn:
            return await task

    return list(await asyncio.gather(*(one(task) for task in tasks)))


def names_by_uid(index: Index, own: Row) -> dict[str, dict[str, Any]]:
    """What is shown for the members of a group card that are cards of the book, by the URI of the
    member."""
    if not own.members:
        return {}
    wanted = set(own.members)
    named = {}
    for row in index.rows.values():
        for uri in (row.uid, f"urn:uuid:{row.uid}"):
            if row.uid and uri in wanted:
                named[uri] = row.json()
    return named
