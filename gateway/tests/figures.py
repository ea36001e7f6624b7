"""Figures of the gateway beside radicale, and of many persons: python3 -m tests.figures [CARDS].

Each row has the milliseconds until the answer was read, and of processor time: of the gateway, of
the server behind it, and of radicale. It is no test: it asserts nothing but that each request is
answered.
"""
from __future__ import annotations

import base64
import contextlib
import http.client
import os
import re
import shutil
import signal
import subprocess
import sys
import tempfile
import time
from collections.abc import Iterator
from pathlib import Path

from tests.test_dav import multiget, propfind, sync, vcard
from tests.world import World, await_port, basic, free_port

BOOK = "/dav/books/big/"
PERSONS = 30
WORD = "figures-1"
QUERY = (
    '<c:addressbook-query xmlns:d="DAV:" xmlns:c="urn:ietf:params:xml:ns:carddav">'
    "<d:prop><d:getetag/><c:address-data/></d:prop><c:filter>"
    '<c:prop-filter name="EMAIL"><c:text-match collation="i;unicode-casemap" match-type="contains">'
    "nr77</c:text-match></c:prop-filter></c:filter>"
    "</c:addressbook-query>"
)


def card(number: int, photo: int = 0, version: str = "4.0") -> str:
    """A card as an office has them, with so many bytes of a photo."""
    lines = [
        f"UID:urn:uuid:00000000-0000-4000-8000-{number:012}", f"N:Rahman;Nadia {number};;;",
        "ORG:Linden Office;Sales", "TITLE:Account manager", f"TEL;TYPE=work:+49 30 5550 {number}",
        f"EMAIL:nr{number}@linden.example", "ADR;TYPE=work:;;Am Hang 1;Berlin;;10115;Germany",
    ]
    if photo:
        data = base64.b64encode(os.urandom(photo * 3 // 4)).decode()
        lines.append(f"PHOTO:data:image/jpeg;base64,{data}")
    return vcard(f"Nadia {number} Rahman", *lines, version=version)


class Served:
    """Something that serves a book: its port, its processes, and who asks."""

    def __init__(self, port: int, processes: list[int], book: str, login: str):
        self.port = port
        self.processes = processes
        self.book = book
        self.login = login

    def seconds(self) -> list[float]:
        """Processor time of each process."""
        found = []
        for process in self.processes:
            fields = Path(f"/proc/{process}/stat").read_text().rpartition(")")[2].split()
            found.append((int(fields[11]) + int(fields[12])) / os.sysconf("SC_CLK_TCK"))
        return found

    def since(self, before: list[float]) -> list[float]:
        """Processor time of each process since then."""
        return [now - then for now, then in zip(self.seconds(), before)]

    def peak(self, process: int) -> int:
        """Megabytes that a process had at most."""
        status = Path(f"/proc/{process}/status").read_text()
        return int(status.partition("VmHWM:")[2].split()[0]) // 1024

    def ask(self, method: str, path: str, body: str = "", **fields: str) -> bytes:
        """The body of the answer to a request that is accepted."""
        named = {name.replace("_", "-"): value for name, value in fields.items()}
        named["Authorization"] = basic(self.login, WORD)
        connection = http.client.HTTPConnection("127.0.0.1", self.port, timeout=600)
        with contextlib.closing(connection):
            connection.request(method, path, body.encode(), named)
            reply = connection.getresponse()
            told = reply.read()
        if reply.status >= 300:
            raise RuntimeError(f"{method} {path}: {reply.status} {told[:300]!r}")
        return told


def rows(served: Served, cards: int) -> Iterator[tuple[str, list[float]]]:
    """What each kind of request takes: its name, and seconds of the clock and of each process."""

    def timed(times: int, *words: str, **fields: str) -> tuple[list[float], bytes]:
        begun, used = time.monotonic(), served.seconds()
        for _ in range(times):
            told = served.ask(*words, **fields)
        taken = [time.monotonic() - begun, *served.since(used)]
        return [one / times for one in taken], told

    book = served.book
    taken, told = timed(1, "REPORT", book, sync(""))
    yield f"first sync, {cards:,} cards", taken
    token = re.search(rb"sync-token>([^<]+)<", told)
    assert token is not None and told.count(b"response>") >= 2 * cards
    yield "nothing new", timed(20, "REPORT", book, sync(token[1].decode()))[0]
    hrefs = [f"{book}{number}.vcf" for number in range(min(cards, 1_000))]
    taken, told = timed(3, "REPORT", book, multiget(*hrefs))
    assert told.count(b"BEGIN:VCARD") == len(hrefs)
    yield f"multiget of {len(hrefs):,}", taken
    taken, told = timed(3, "REPORT", book, QUERY, Depth="1")
    yield f"query, {told.count(b'BEGIN:VCARD')} found", taken
    yield "PROPFIND of all tags", timed(3, "PROPFIND", book, propfind("getetag"), Depth="1")[0]
    yield "GET", timed(200, "GET", book + "7.vcf")[0]
    changed = card(7).replace("Account manager", "Head of sales")
    yield "PUT", timed(100, "PUT", book + "7.vcf", changed, Content_Type="text/vcard")[0]


@contextlib.contextmanager
def radicale(cards: int) -> Iterator[Served]:
    """radicale over a book."""
    port = free_port()
    with tempfile.TemporaryDirectory(prefix="figures-") as folder:
        book = Path(folder) / "collection-root" / "p0" / "big"
        book.mkdir(parents=True)
        (book / ".Radicale.props").write_text('{"tag": "VADDRESSBOOK"}')
        for number in range(cards):
            (book / f"{number}.vcf").write_bytes(card(number, version="3.0").encode())
        settings = Path(folder) / "config"
        settings.write_text(
            f"[server]\nhosts = 127.0.0.1:{port}\n[auth]\ntype = none\n[storage]\n"
            f"filesystem_folder = {folder}\n[rights]\ntype = owner_only\n[logging]\nlevel = error\n"
        )
        program = shutil.which("radicale") or "radicale"
        process = subprocess.Popen([program, "--config", str(settings)], stderr=subprocess.DEVNULL)
        try:
            await_port(port)
            yield Served(port, [process.pid], "/p0/big/", "p0")
        finally:
            process.terminate()
            process.wait(20)


@contextlib.contextmanager
def office(cards: int, photo: int = 0) -> Iterator[Served]:
    """The gateway and the server over a book."""
    persons = [f"p{number}" for number in range(PERSONS)]
    lines = ["version = 1"] + [f'[[person]]\nname = "{name}"' for name in [*persons, "lister"]]
    lines.append('[[book]]\nname = "big"\nowner = "/people/p0"')
    for who, grant in (("owner", "all"), ("authenticated", "read")):
        lines.append(f'[[entry]]\nat = "/books/big"\nwho = "{who}"\ngrant = ["{grant}"]')
    with tempfile.TemporaryDirectory(prefix="figures-") as folder:
        policy = Path(folder) / "policy.toml"
        policy.write_text("\n".join(lines))
        world = World(policy=policy, passwords=dict.fromkeys(persons, WORD), kept=16)
        try:
            server = http.client.HTTPConnection("127.0.0.1", world.server_port, timeout=120)
            for number in range(cards):
                path, fields = f"/books/big/{number}.vcf", {"x-office-caller": "p0"}
                server.request("PUT", path, card(number, photo).encode(), fields)
                reply = server.getresponse()
                reply.read()
                if reply.status != 201:
                    raise RuntimeError(f"PUT {path}: {reply.status}")
            server.close()
            yield Served(world.port, [world.gateway.pid, world.server.pid], BOOK, "p0")
        finally:
            world.close()


def beside(cards: int) -> None:
    """Prints the rows of both."""
    told, peaks = {}, {}
    for name, made in (("gateway", office), ("radicale", radicale)):
        with made(cards) as served:
            told[name] = list(rows(served, cards))
            peaks[name] = [served.peak(process) for process in served.processes]
    heads = ("clock", "gateway", "server", "clock", "radicale")
    print(f"{'milliseconds':28}" + "".join(f"{head:>12}" for head in heads))
    for (name, mine), (_, other) in zip(told["gateway"], told["radicale"]):
        numbers = "".join(f"{1000 * part:12.1f}" for part in (*mine, *other))
        print(f"{name:28}{numbers}")
    gateway, server = peaks["gateway"]
    print(f"memory: gateway {gateway} MB, server {server} MB; radicale {peaks['radicale'][0]} MB")


def many(cards: int, photo: int) -> None:
    """Prints what many persons take on a book with photos."""
    hrefs = [f"{BOOK}{one}.vcf" for one in range(50)]
    with office(cards, photo) as served:
        print(f"{PERSONS} persons, {cards:,} cards with photos of {photo:,} bytes")
        for title, asks in (
            ("first sync of each", [("REPORT", BOOK, sync(""))]),
            ("then a GET and a multiget of 50 each", [
                ("GET", BOOK + "7.vcf"), ("REPORT", BOOK, multiget(*hrefs)),
            ]),
        ):
            begun, used = time.monotonic(), served.seconds()
            for number in range(PERSONS):
                served.login = f"p{number}"
                for words in asks:
                    served.ask(*words)
            gateway, server = served.since(used)
            clock = time.monotonic() - begun
            print(f"{title}: {clock:.1f} s; gateway {gateway:.1f} s, server {server:.1f} s")
        gateway, server = (served.peak(process) for process in served.processes)
        print(f"memory: gateway {gateway} MB, server {server} MB")


def main(words: list[str]) -> int:
    """Status 0 where all was answered."""
    signal.signal(signal.SIGTERM, lambda *_: sys.exit(143))
    cards = int(words[0]) if words else 5_000
    beside(cards)
    many(cards, 30_000)
    return 0


if __name__ == "__main__":
    sys.exit(main(sys.argv[1:]))
