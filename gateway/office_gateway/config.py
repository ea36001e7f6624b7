"""The settings of the gateway: one file in TOML."""
from __future__ import annotations

import ipaddress
import os
import re
import tomllib
from collections.abc import Mapping
from dataclasses import dataclass, field, fields
from pathlib import Path
from typing import Any

from . import photos
from .paths import is_name

# The bounds of the server: bytes of a body and of a head, and fields in a head.
BODY_BYTES = 262_144
HEAD_BYTES = 16_384
HEAD_FIELDS = 64
CARD_BYTES = 65_536
# What a value of each kind is called where it is of another kind.
KINDS = {
    str: "a text", bool: "true or false", int: "a whole number", float: "a number",
    tuple: "a list of texts", dict: "a table",
}


class ConfigFault(ValueError):
    """Settings that the gateway does not start with, in words."""


@dataclass(frozen=True)
class Listen:
    """Where the gateway listens. With a certificate it speaks HTTPS; without, on loopback alone."""

    host: str = "127.0.0.1"
    port: int = 8090
    certificate: str = ""
    key: str = ""
    # The origins under which browsers reach the page, as https://office.example. Without any: the
    # listener's own.
    origins: tuple[str, ...] = ()
    # The field in which a proxy in front names the client's address. Without one it is the peer's.
    address_field: str = ""
    # Connections at a time, seconds for a head or a body to arrive, and seconds that a connection
    # may be idle.
    connections: int = 2_000
    arrive_seconds: float = 20.0
    idle_seconds: float = 60.0
    # Connections of one address on which nobody has signed in yet, where the gateway speaks HTTPS
    # itself.
    strangers: int = 64


@dataclass(frozen=True)
class Backend:
    """The server that is asked."""

    host: str = "127.0.0.1"
    port: int = 8080
    # The path of its Unix socket, in the place of both.
    socket: str = ""
    # False: one connection a request. True: connections are kept, as many as `connections`.
    keep_connections: bool = False
    connections: int = 1
    # Requests that may wait for a connection, seconds for a reply, and seconds in which a server
    # that starts is awaited.
    waiting: int = 4_096
    reply_seconds: float = 60.0
    start_seconds: float = 5.0
    reply_bytes: int = 268_435_456
    # Bytes of all replies together that are on their way to clients.
    flight_bytes: int = 1_073_741_824


@dataclass(frozen=True)
class People:
    """Who may ask, and as whom."""

    passwords: Path = Path("passwords")
    # The person who lists the names of books. It has no password at the gateway.
    service: str = ""
    # Login names that are not the person's own, as mail addresses.
    names: dict[str, str] = field(default_factory=dict)
    session_seconds: float = 43_200.0
    # The field in which a proxy in front names who signed in there. The proxy sets it on each
    # request, so that nobody else can. Without one the gateway alone asks for passwords.
    name_field: str = ""
    # Whom a person without any right is told to ask, in words.
    ask: str = ""


@dataclass(frozen=True)
class Cards:
    """How cards are told and taken, and what is remembered of them."""

    # The version that clients are told who name none. RFC 6352, section 10.4, has 3.0.
    unversioned: str = "3.0"
    # About how many bytes of what persons read are kept: in memory, and what is more in a file
    # without a name.
    copies_bytes: int = 1_073_741_824
    # Names of cards that are remembered as told, for all persons and books together.
    told_names: int = 1_000_000
    # Whether the photo of a card that is too large is made smaller, and bytes of a card with its
    # photo that a client may send.
    shrink_photos: bool = True
    sent_bytes: int = 4_194_304
    # Whether who may read names alone is told of them as cards.
    names_as_cards: bool = False


@dataclass(frozen=True)
class Files:
    """The gateway's own files."""

    # Without one: the folder that the unit of systemd names, or else the folder of the settings.
    folder: Path = Path()


@dataclass(frozen=True)
class Offer:
    """The persons who may use a book which the server does not let them PROPFIND.

    The server decides what they may do. This says only that they are to find the book.
    """

    # Who may read the names of its cards, who may add cards, and who may read which cards.
    names: tuple[str, ...] = ()
    add: tuple[str, ...] = ()
    cards: dict[str, tuple[str, ...]] = field(default_factory=dict)

    def has(self, person: str) -> bool:
        """Whether the book is offered to a person."""
        return person in self.names or person in self.add or person in self.cards


@dataclass(frozen=True)
class Settings:
    """All settings. `offered` has books by their names."""

    listen: Listen = Listen()
    server: Backend = Backend()
    people: People = People()
    cards: Cards = Cards()
    files: Files = Files()
    offered: Mapping[str, Offer] = field(default_factory=dict)

    def origins(self) -> tuple[str, ...]:
        """The origins whose pages may ask for edits."""
        if self.listen.origins:
            return self.listen.origins
        scheme = "https" if self.listen.certificate else "http"
        return tuple(f"{scheme}://{host}:{self.listen.port}" for host in ("127.0.0.1", "localhost"))

    def secure(self) -> bool:
        """Whether people reach the gateway by HTTPS alone."""
        return all(origin.startswith("https:") for origin in self.origins())


def load(path: Path) -> Settings:
    """Reads the settings; ConfigFault where a key, a value or a file is not as it should be.

    A fault names the file, and the table and the key as they are written.
    """
    try:
        table = tomllib.loads(path.read_text(encoding="utf-8"))
    except (OSError, UnicodeDecodeError, tomllib.TOMLDecodeError) as fault:
        raise ConfigFault(f"{path}: {fault}") from None
    try:
        settings = settings_of(table, path.parent)
        check(settings)
    except ConfigFault as fault:
        raise ConfigFault(f"{path}: {fault}") from None
    return settings


def settings_of(table: dict[str, Any], folder: Path) -> Settings:
    """The settings of a table. Relative paths are below `folder`."""
    known = [one.name for one in fields(Settings)]
    unknown = sorted(set(table) - set(known))
    if unknown:
        raise ConfigFault(f"[{unknown[0]}]: there is no such table; there are {', '.join(known)}")
    state = os.environ.get("STATE_DIRECTORY", ".")
    return Settings(
        made(Listen, "listen", table.get("listen", {}), folder),
        made(Backend, "server", table.get("server", {}), folder),
        made(People, "people", table.get("people", {}), folder, passwords="passwords"),
        made(Cards, "cards", table.get("cards", {}), folder),
        made(Files, "files", table.get("files", {}), folder, folder=state),
        offers_of(table.get("offered", {}), folder),
    )


def made(kind: type, table: str, values: Any, below: Path, **absent: str) -> Any:
    """A value of this kind from the table of this name, whose keys and values are to be its own.

    Relative paths are `below` a folder. `absent` has values for keys that are not there.
    """
    if not isinstance(values, dict):
        raise ConfigFault(f"{table} is to be a table, as [{table}]")
    default = kind()
    known = {one.name: getattr(default, one.name) for one in fields(kind)}
    given = {}
    for key, value in {**absent, **values}.items():
        if key not in known:
            has = ", ".join(known)
            raise ConfigFault(f"[{table}] {key}: there is no such key; [{table}] has {has}")
        given[key] = value_like(known[key], value, f"[{table}] {key}", below)
    return kind(**given)


def value_like(wanted: Any, value: Any, place: str, below: Path) -> Any:
    """The value as one of the kind of `wanted`; ConfigFault with its place where it is none."""
    if isinstance(wanted, Path) and isinstance(value, str):
        return below / value
    if isinstance(wanted, tuple):
        if isinstance(value, list) and all(isinstance(item, str) for item in value):
            return tuple(value)
    elif isinstance(wanted, float) and type(value) is int:
        return float(value)
    elif type(value) is type(wanted):
        return value
    kind = KINDS[str if isinstance(wanted, Path) else type(wanted)]
    raise ConfigFault(f"{place} is to be {kind}, and is {value!r}")


def offers_of(table: Any, folder: Path) -> dict[str, Offer]:
    """The tables [offered.BOOK] by book."""
    if not isinstance(table, dict):
        raise ConfigFault("offered is to be tables, as [offered.sales]")
    offers = {}
    for book, values in table.items():
        place = f"offered.{book}"
        if not is_name(book):
            raise ConfigFault(f"[{place}]: {book} is no name of a book")
        offer = made(Offer, place, values, folder)
        cards = {
            person: value_like((), names, f"[{place}] cards.{person}", folder)
            for person, names in offer.cards.items()
        }
        listed = [name for names in cards.values() for name in names]
        for name in [*offer.names, *offer.add, *cards, *listed]:
            if not is_name(name):
                raise ConfigFault(f"[{place}]: {name} is no name of a person or a card")
        offers[book] = Offer(offer.names, offer.add, cards)
    return offers


def check(settings: Settings) -> None:
    """ConfigFault where settings do not fit together."""
    check_listen(settings.listen)
    check_people(settings.people)
    if settings.people.name_field and settings.listen.certificate:
        raise ConfigFault(
            "[people] name_field is for a gateway behind a proxy, without a certificate"
        )
    if not is_loopback(settings.server.host):
        raise ConfigFault("[server] host: the server is reached on loopback alone")
    if settings.server.socket and not settings.server.socket.startswith("/"):
        raise ConfigFault("[server] socket is to be a whole path, as /run/book_desk/socket")
    if settings.server.connections < 1:
        raise ConfigFault("[server] connections is to be 1 or more")
    if settings.cards.unversioned not in ("3.0", "4.0"):
        raise ConfigFault('[cards] unversioned is to be "3.0" or "4.0"')
    if settings.cards.shrink_photos and not photos.is_there():
        raise ConfigFault(
            f"[cards] shrink_photos wants the package {photos.PACKAGE}: "
            f"apt-get install {photos.PACKAGE}, or shrink_photos = false"
        )
    if settings.cards.sent_bytes < CARD_BYTES:
        raise ConfigFault(f"[cards] sent_bytes is to be {CARD_BYTES} or more")


def check_listen(listen: Listen) -> None:
    """ConfigFault where it cannot be listened so."""
    if bool(listen.certificate) != bool(listen.key):
        raise ConfigFault("[listen] certificate and key are given both or neither")
    if listen.certificate and not listen.origins:
        raise ConfigFault(
            "[listen] origins: with a certificate they are to be given, "
            'as ["https://office.example"]'
        )
    for origin in listen.origins:
        if re.fullmatch(r"https?://[a-z0-9.\-\[\]:]+", origin) is None:
            raise ConfigFault(
                f"[listen] origins: {origin} is to be http:// or https:// and a host in small "
                "letters, with no slash at its end"
            )
    if not listen.certificate and not is_loopback(listen.host):
        raise ConfigFault(
            "[listen] host: without a certificate the gateway listens on loopback alone"
        )
    if listen.connections < 1:
        raise ConfigFault("[listen] connections is to be 1 or more")


def check_people(people: People) -> None:
    """ConfigFault where a name is none, or is the service person's."""
    if people.service and not is_name(people.service):
        raise ConfigFault(f"[people] service: {people.service} is no name of a person")
    for login, person in people.names.items():
        place = f'[people.names] "{login}"'
        if not isinstance(person, str) or not is_name(person):
            raise ConfigFault(f"{place} is to be the name of a person, and is {person!r}")
        if person == people.service:
            raise ConfigFault(f"{place}: nobody signs in as the service person")


def is_loopback(host: str) -> bool:
    """Whether a host is this machine's loopback."""
    if host == "localhost":
        return True
    try:
        return ipaddress.ip_address(host).is_loopback
    except ValueError:
        return False
