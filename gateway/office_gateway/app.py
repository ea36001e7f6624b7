"""From a connection to an answer: bounds, hosts and origins, who asks, and which module answers."""
from __future__ import annotations

import asyncio
import base64
import binascii
import logging
import re
import ssl
import time
from contextlib import aclosing
from dataclasses import replace
from pathlib import Path
from urllib.parse import urlsplit

from aiohttp import web

from . import client_names, paths
from .accounts import Changed, Devices
from .calls import Call, Reply, refused
from .config import BODY_BYTES, HEAD_BYTES, HEAD_FIELDS, ConfigFault, Settings
from .connections import Connections
from .copies import Copies
from .dav import Dav
from .flight import Spool
from .health import PATH as HEALTH
from .health import Health
from .locks import Locks
from .offers import Offers
from .page import GUARDS, Page
from .passwords import Passwords
from .refusals import Refusal
from .server import Server
from .sessions import Sessions, cookie_name, word_of
from .told import Told
from .turns import Turns

LOG = logging.getLogger("office_gateway")
METHODS = {
    "ACL", "COPY", "DELETE", "GET", "HEAD", "MKCOL", "MOVE", "OPTIONS", "PROPFIND", "PROPPATCH",
    "PUT", "REPORT",
}
READS = {"GET", "HEAD", "OPTIONS", "PROPFIND", "REPORT"}
SESSION = "/page/session"
# Fields of which two are refused, as the server refuses them.
ONCE = (
    "Authorization", "Content-Length", "Depth", "Destination", "Host", "If-Match", "If-None-Match",
    "Overwrite", "Transfer-Encoding",
)
# A weight of a coding that refuses it.
ZERO = re.compile(r"q=0(\.0{0,3})?")


class Gateway:
    """The gateway with its parts."""

    def __init__(self, settings: Settings):
        self.settings = settings
        open_names(settings)
        people = settings.people
        # Made where it listens.
        self.connections: Connections
        self.locks = Locks()
        self.server = Server(settings.server)
        turns = Turns()
        offers = Offers(self.server, settings.offered, settings.cards.names_as_cards)
        self.copies = Copies(self.server, settings.cards.copies_bytes, turns, offers)
        self.told = Told(settings.files.folder, settings.cards.told_names)
        folder = settings.files.folder
        self.passwords = Passwords(people, Changed(folder / "changed-passwords.json"))
        self.devices = Devices(folder / "devices.json")
        cookie = cookie_name(settings.listen.port, settings.secure())
        self.sessions = Sessions(people.session_seconds, cookie, folder / "sessions.json")
        self.dav = Dav(
            self.server, self.copies, offers, self.told, self.locks, turns, people.service,
            settings.cards,
        )
        self.origins = frozenset(settings.origins())
        self.hosts = frozenset(host for origin in self.origins for host in hosts_of(origin))
        self.page = Page(
            page_folder(), settings, self.server, self.copies, self.dav, self.passwords,
            self.sessions, self.devices,
        )
        self.health = Health(self.server, people.service)
        self.tls = tls_of(settings)

    async def handle(self, request: web.BaseRequest) -> web.StreamResponse:
        """Answers one request. No fault of the gateway's own reaches the client but as
        `unavailable`."""
        self.connections.spoke(request.protocol)
        begun = time.monotonic()
        as_xml = request.raw_path.startswith(paths.DAV) and "x-office-page" not in request.headers
        person = "-"
        try:
            reply = await self.public(request)
            if reply is None:
                login, person = await self.caller(request)
                self.connections.known(request.protocol)
                reply = await self.private(request, login, person)
        except Refusal as refusal:
            reply = refused(refusal, as_xml)
        except (asyncio.CancelledError, ConnectionError):
            raise
        except Exception:  # pylint: disable=broad-except
            LOG.exception("a request was not answered")
            reply = refused(Refusal(500, "unavailable"), as_xml)
        taken = (time.monotonic() - begun) * 1000
        line = "%s %s %r %d %.0f ms"
        LOG.info(line, person, request.method, request.raw_path[:200], reply.status, taken)
        return await self.respond(request, reply)

    async def respond(self, request: web.BaseRequest, reply: Reply) -> web.StreamResponse:
        """The response that is sent. A connection whose body was not read whole is closed."""
        fields = {"Server": "office", "X-Content-Type-Options": "nosniff", **reply.fields}
        if self.settings.secure():
            fields["Strict-Transport-Security"] = "max-age=31536000"
        if reply.pieces is not None:
            return await self.respond_in_pieces(request, reply, fields)
        response = web.Response(status=reply.status, body=reply.body or None, headers=fields)
        if request.method == "HEAD" and "Content-Length" in reply.fields:
            response = web.Response(status=reply.status, headers=fields)
        if not request.content.is_eof() or reply.status in (400, 413, 431):
            response.force_close()
        return response

    async def respond_in_pieces(
        self, request: web.BaseRequest, reply: Reply, fields: dict[str, str]
    ) -> web.StreamResponse:
        """The response that is sent as its pieces are made; one piece alone is sent with its
        length. Answers in XML of more than one piece are compressed, since a proxy in front may
        compress those of status 200 alone. A client that does not read for long is let go."""
        assert reply.pieces is not None
        idle = self.settings.listen.idle_seconds
        async with aclosing(reply.pieces) as pieces:  # type: ignore[type-var]
            piece = await anext(pieces, b"")
            if not piece:
                return web.Response(status=reply.status, body=reply.body, headers=fields)
            response = web.StreamResponse(status=reply.status, headers=fields)
            if reply.status == 207 and takes_gzip(request.headers.get("Accept-Encoding", "")):
                response.enable_compression(web.ContentCoding.gzip)
            await response.prepare(request)
            await response.write(reply.body)
            while piece:
                await asyncio.wait_for(response.write(piece), idle)
                piece = await anext(pieces, b"")
            await response.write_eof()
        return response

    async def public(self, request: web.BaseRequest) -> Reply | None:
        """The reply to a request that is answered to everybody; None where it is to be known who
        asks. Refusal where the request is refused to everybody."""
        check_head(request)
        target = request.raw_path
        if target == HEALTH and request.method in ("GET", "HEAD"):
            return await self.health.reply()
        if request.headers.get("Host", "").lower() not in self.hosts:
            raise Refusal(421, "foreign-origin")
        if target.rstrip("/") == "/.well-known/carddav":
            return Reply(301, b"", {"Location": paths.DAV + "/"})
        file = self.file(request, target)
        if file is not None:
            return file
        self.check_origin(request)
        if target == SESSION and request.method == "POST":
            check_page(request)
            return await self.page.sign_in(await self.body(request), self.address(request))
        return None

    async def private(self, request: web.BaseRequest, login: str, person: str) -> Reply:
        """The reply to a request of a person."""
        target = request.raw_path
        if target == SESSION and request.method == "DELETE":
            return self.page.sign_out(self.session_word(request))
        fields = CaselessFields({name: request.headers[name] for name in request.headers})
        body = await self.body(request)
        return await self.dispatch(
            Call(request.method, target, fields, body, person, self.hosts, login)
        )

    def file(self, request: web.BaseRequest, target: str) -> Reply | None:
        """A file of the page, or the way to it; None where something else is asked for."""
        if request.method not in ("GET", "HEAD"):
            return None
        accepted = request.headers.get("Accept", "")
        if target == "/page" or target == "/" and "text/html" in accepted:
            return Reply(302, b"", {"Location": "/page/"})
        if target.startswith("/page/"):
            known = request.headers.get("If-None-Match", "")
            return self.page.file(target.removeprefix("/page/"), known)
        return None

    def check_origin(self, request: web.BaseRequest) -> None:
        """Refusal 403 where the page of another place asks."""
        origin = request.headers.get("Origin")
        site = request.headers.get("Sec-Fetch-Site", "none")
        if origin is not None and origin not in self.origins or site not in ("none", "same-origin"):
            raise Refusal(403, "foreign-origin")

    async def caller(self, request: web.BaseRequest) -> tuple[str, str]:
        """Login name and person by password or session; Refusal 401 where neither is right."""
        named = self.named(request)
        if named is not None:
            return named
        login, password = basic_of(request.headers.get("Authorization", ""))
        if login:
            if self.devices.has(login, password):
                return self.device(request, login)
            person = await self.passwords.check(login, password, self.address(request))
            if person is not None:
                return login, person
        elif "Authorization" not in request.headers:
            session = self.sessions.person(self.session_word(request))
            if session is not None and session.mark == self.passwords.mark(session.login):
                check_page(request)
                return session.login, session.person
        of_page = "x-office-page" in request.headers
        scheme = "OfficePage" if of_page else 'Basic realm="Contact books", charset="UTF-8"'
        raise Refusal(401, "no-password", {"WWW-Authenticate": scheme})

    def address(self, request: web.BaseRequest) -> str:
        """The client's address: the peer's, or the one that the proxy in front names."""
        field = self.settings.listen.address_field
        if field and field in request.headers:
            return request.headers[field].rsplit(",", 1)[-1].strip()
        return request.remote or ""

    def renew(self) -> None:
        """Reads a renewed certificate. Connections that are open keep the old one."""
        listen = self.settings.listen
        if self.tls is None:
            return
        try:
            self.tls.load_cert_chain(listen.certificate, listen.key)
            LOG.info("the certificate was read again")
        except (OSError, ssl.SSLError) as fault:
            LOG.error("the certificate stays: %s cannot be read: %s", listen.certificate, fault)

    def session_word(self, request: web.BaseRequest) -> str:
        """The word of a session in the cookies, or an empty text."""
        return word_of(request.headers.get("Cookie", ""), self.sessions.cookie)

    def named(self, request: web.BaseRequest) -> tuple[str, str] | None:
        """Login name and person where the proxy in front names who asks; None where it names
        nobody.

        Refusal 403 where the name is no person's.
        """
        field = self.settings.people.name_field
        login = request.headers.get(field, "").strip() if field else ""
        if not login:
            return None
        person = self.passwords.person(login)
        if person is None:
            raise Refusal(403, "unknown-caller")
        return login, person

    def device(self, request: web.BaseRequest, login: str) -> tuple[str, str]:
        """Login name and person of a device whose password fits. The page is not for devices."""
        person = self.passwords.person(login)
        known = self.passwords.has(login) or bool(self.settings.people.name_field)
        if person is None or not known:
            raise Refusal(401, "no-password")
        if request.raw_path.startswith("/page/"):
            raise Refusal(403, "device-password")
        return login, person

    async def body(self, request: web.BaseRequest) -> bytes:
        """The body, of at most as many bytes as the server takes, in time."""
        if request.headers.get("Content-Encoding", "identity").lower() != "identity":
            raise Refusal(415, "bad-request")
        limit = self.body_limit(request)
        if (request.content_length or 0) > limit:
            raise Refusal(413, "body-too-large")
        if request.headers.get("Expect", "").lower() == "100-continue":
            await request.writer.write(b"HTTP/1.1 100 Continue\r\n\r\n")
        try:
            seconds = self.settings.listen.arrive_seconds
            return await asyncio.wait_for(bounded(request, limit), seconds)
        except asyncio.TimeoutError:
            raise Refusal(408, "too-slow", {"Connection": "close"}) from None

    def body_limit(self, request: web.BaseRequest) -> int:
        """Bytes of a body: the server's, but more for a card whose photo may be made smaller."""
        is_card = request.method == "PUT" and paths.chosen_name(request.raw_path) is not None
        cards = self.settings.cards
        return max(BODY_BYTES, cards.sent_bytes) if is_card and cards.shrink_photos else BODY_BYTES

    async def dispatch(self, call: Call) -> Reply:
        """Gives a request to the module that answers it."""
        xml = "xml" in call.fields.get("Content-Type", "").lower()
        discovers = call.method == "OPTIONS" or call.method == "PROPFIND" and xml
        if call.target == "/" and discovers:
            call = replace(call, target=paths.DAV + "/")
        if call.target == paths.DAV or call.target.startswith(paths.DAV + "/"):
            return await self.dav.answer(call)
        if call.target.startswith("/page/"):
            reply = await self.page.answer(call)
            reply.fields |= {"Cache-Control": "no-store", **GUARDS}
            return reply
        return await self.passed(call)

    async def passed(self, call: Call) -> Reply:
        """A request of the server's own form: asked as it is, with the caller's name, and answered
        as the server does."""
        if call.method not in METHODS:
            raise Refusal(501, "not-implemented")
        path = paths.server_path(call.target)
        if path is None:
            raise Refusal(404, "not-found")
        fields = wire_fields(call)
        touched = [paths.book_of(path), paths.book_of(fields.get("Destination", ""))]
        books = [book for book in touched if book and call.method not in READS]
        spool = Spool(self.server.flight)
        try:
            async with self.locks.hold(*books):
                answer = await self.server.pass_on(
                    call.caller, call.method, path, call.body, spool, **fields
                )
        except BaseException:
            spool.close()
            raise
        kept = answer.fields | {"Cache-Control": "no-store"}
        if call.method != "HEAD":
            kept.pop("Content-Length", None)
        return Reply(answer.status, b"", kept, spool.parts())

    async def run(self, ready: asyncio.Event | None = None) -> None:
        """Listens until it is cancelled."""
        listen = self.settings.listen
        await self.server.open()
        inner = web.Server(self.handle)
        connections = self.connections = Connections(listen, inner)
        tls = self.tls
        listener = await asyncio.get_running_loop().create_server(
            connections.made,
            listen.host,
            listen.port,
            ssl=tls,
            backlog=1_024,
            ssl_handshake_timeout=listen.arrive_seconds if tls else None,
        )
        port = listener.sockets[0].getsockname()[1]
        print(f"listening on {listen.host}:{port}", flush=True)
        if ready is not None:
            ready.set()
        try:
            while True:
                await asyncio.sleep(1.0)
                connections.close_silent()
        finally:
            listener.close()
            await inner.shutdown(5.0)
            await self.server.close()
            self.passwords.close()
            self.told.close()


class CaselessFields(dict[str, str]):
    """Fields by name without regard to case."""

    def __init__(self, fields: dict[str, str]):
        super().__init__({name.lower(): value for name, value in fields.items()})

    def __getitem__(self, name: str) -> str:
        return super().__getitem__(name.lower())

    def __contains__(self, name: object) -> bool:
        return isinstance(name, str) and super().__contains__(name.lower())

    def get(self, name, default=None):  # type: ignore[no-untyped-def, override]
        return super().get(name.lower(), default)


def page_folder() -> Path:
    """Where the files of the page are: installed beside this package, or in the repository."""
    beside = Path(__file__).resolve().parent.parent
    installed = beside / "office_gateway_page"
    return installed if installed.is_dir() else beside / "page"


def open_names(settings: Settings) -> None:
    """Reads the table of long names of cards; ConfigFault where it cannot be read."""
    file = settings.files.folder / "card-names"
    try:
        client_names.LONG.open(file)
    except OSError as fault:
        raise ConfigFault(f"[files] folder: {file} cannot be read: {fault.strerror}") from None


def hosts_of(origin: str) -> list[str]:
    """The values of Host that an origin stands for."""
    split = urlsplit(origin)
    port = {"https": 443, "http": 80}.get(split.scheme)
    return [split.netloc.lower()] + ([f"{split.hostname}:{port}"] if split.port is None else [])


def check_head(request: web.BaseRequest) -> None:
    """Refusal where a head is larger than the server's, or has a field twice that may come once."""
    raw = request.raw_headers
    size = len(request.method) + len(request.raw_path) + 12
    size += sum(len(name) + len(value) + 4 for name, value in raw)
    if len(raw) > HEAD_FIELDS or size > HEAD_BYTES:
        raise Refusal(431, "head-too-large")
    if any(len(request.headers.getall(name, [])) > 1 for name in ONCE):
        raise Refusal(400, "bad-head")
    coding = request.headers.get("Transfer-Encoding")
    if coding is not None and (coding.lower() != "chunked" or "Content-Length" in request.headers):
        raise Refusal(400, "bad-head")


def check_page(request: web.BaseRequest) -> None:
    """Refusal 403 where a session is used by something else than the page: no form and no link
    sends this field."""
    if "x-office-page" not in request.headers:
        raise Refusal(403, "foreign-origin")


def basic_of(field: str) -> tuple[str, str]:
    """Name and password of an Authorization field; two empty texts where it has none."""
    scheme, _, word = field.partition(" ")
    if scheme.lower() != "basic":
        return "", ""
    try:
        decoded = base64.b64decode(word.strip(), validate=True).decode("utf-8")
        login, found, password = decoded.partition(":")
    except (binascii.Error, ValueError):
        return "", ""
    return (login, password) if found else ("", "")


def takes_gzip(field: str) -> bool:
    """Whether Accept-Encoding names gzip, and does not refuse it (RFC 9110, section 12.5.3)."""
    for part in field.lower().split(","):
        coding, _, weight = part.partition(";")
        if coding.strip() == "gzip":
            return ZERO.fullmatch(weight.strip()) is None
    return False


async def bounded(request: web.BaseRequest, limit: int) -> bytes:
    """A body read to its end; Refusal 413 where it has too many bytes."""
    parts, size = [], 0
    async for part in request.content.iter_any():
        size += len(part)
        if size > limit:
            raise Refusal(413, "body-too-large")
        parts.append(part)
    return b"".join(parts)


def wire_fields(call: Call) -> dict[str, str]:
    """The fields that the server reads for this method; Refusal 400 where it could not read one."""
    if call.method == "PROPFIND":
        depth = call.fields.get("Depth", "0")
        if depth not in ("0", "1"):
            raise Refusal(400, "bad-request")
        return {"Depth": depth}
    if call.method not in ("COPY", "MOVE"):
        return {}
    overwrite = call.fields.get("Overwrite", "T")
    try:
        target = paths.target_of(call.fields.get("Destination", ""), set(call.authorities))
    except ValueError:
        target = None
    destination = paths.server_path(target) if target else None
    if overwrite not in ("T", "F") or destination is None:
        raise Refusal(400, "bad-request")
    return {"Destination": destination, "Overwrite": overwrite}


def tls_of(settings: Settings) -> ssl.SSLContext | None:
    """TLS 1.2 or later with the certificate; None without one."""
    if not settings.listen.certificate:
        return None
    context = ssl.create_default_context(ssl.Purpose.CLIENT_AUTH)
    context.minimum_version = ssl.TLSVersion.TLSv1_2
    try:
        context.load_cert_chain(settings.listen.certificate, settings.listen.key)
    except (OSError, ssl.SSLError) as fault:
        raise ConfigFault(f"[listen] certificate and key cannot be read: {fault}") from None
    return context
