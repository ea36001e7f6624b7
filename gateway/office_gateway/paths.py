"""Names and paths: as the server has them, and as CardDAV clients see them.

The server's paths are `/`, `/people`, `/groups`, `/books`, what stands in them, and cards,
`/books/BOOK/CARD`. A path with a percent escape, a dot segment, two slashes, a query or a fragment
is no path: it is refused here, and the server does not see it. CardDAV has the same below `/dav`,
where collections end with a slash, and cards have the names that clients choose.
"""
from __future__ import annotations

from urllib.parse import urlsplit

from . import client_names

HOMES = ("people", "groups", "books")
DAV = "/dav"


def is_name(text: str) -> bool:
    """Whether it is 1 to 64 letters, digits, `.`, `_`, `-` of ASCII, and begins with no dot."""
    return client_names.NAME.fullmatch(text) is not None


def server_path(raw: str) -> str | None:
    """The server's path that a request's target names as it was sent, without a slash at its end.

    None where it is none.
    """
    if raw == "/":
        return raw
    if not raw.startswith("/"):
        return None
    parts = raw[1:].split("/")
    if parts[-1] == "" and len(parts) in (2, 3):
        parts.pop()
    if parts[0] not in HOMES or len(parts) > (3 if parts[0] == "books" else 2):
        return None
    return "/" + "/".join(parts) if all(is_name(part) for part in parts) else None


def dav_path(raw: str) -> str | None:
    """The server's path that a target below /dav names; None where it is none."""
    if raw in (DAV, DAV + "/"):
        return "/"
    if not raw.startswith(DAV + "/"):
        return None
    path = raw[len(DAV) :]
    name = chosen_name(raw)
    if name is not None:
        path = path[: path.rindex("/") + 1] + client_names.of_server(name)
    return server_path(path)


def chosen_name(raw: str) -> str | None:
    """The name that a client chose for a card, in a target below /dav; None where it names none."""
    parts = raw.removeprefix(DAV).split("/")
    if not raw.startswith(DAV + "/") or len(parts) != 4 or parts[1] != "books":
        return None
    return client_names.chosen(parts[3]) if is_name(parts[2]) else None


def parts_of(path: str) -> list[str]:
    """The names of a path."""
    return [part for part in path.split("/") if part]


def is_card(path: str) -> bool:
    """Whether it is the path of a card."""
    return path.startswith("/books/") and path.count("/") == 3


def is_book(path: str) -> bool:
    """Whether it is the path of a book."""
    return path.startswith("/books/") and path.count("/") == 2


def book_of(path: str) -> str | None:
    """The name of the book that a path is, or is in."""
    parts = parts_of(path)
    return parts[1] if len(parts) > 1 and parts[0] == "books" else None


def href(path: str) -> str:
    """A path of the server as CardDAV clients see it."""
    if path == "/":
        return DAV + "/"
    if not is_card(path):
        return f"{DAV}{path}/"
    book, _, name = path.rpartition("/")
    return f"{DAV}{book}/{client_names.segment_of(client_names.of_client(name))}"


def target_of(text: str, authorities: set[str]) -> str | None:
    """The target in a Destination or an href: a path, or a URL of one of these hosts.

    None for another host.
    """
    text = text.strip()
    if text.startswith("/") and not text.startswith("//"):
        return text
    split = urlsplit(text)
    if split.scheme not in ("http", "https") or split.netloc not in authorities:
        return None
    if split.query or split.fragment:
        return None
    return split.path or "/"
