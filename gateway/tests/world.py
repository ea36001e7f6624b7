"""A server and a gateway on free ports of loopback, for tests that talk to them.

They end when the world is closed.
"""
from __future__ import annotations

import atexit
import base64
import contextlib
import functools
import http.client
import json
import os
import socket
import subprocess
import tempfile
import time
from pathlib import Path
from typing import Any

import bcrypt

GATEWAY = Path(__file__).resolve().parent.parent
TOP = GATEWAY.parent
PASSWORDS = {"head": "kopf-1", "assistant": "hand-2", "guest@office.example": "gast-3"}


def program() -> Path | None:
    """The server's program: BOOK_DESK, or what `make build` links, or else what `make try` does."""
    built = (TOP / "build" / "book_desk", TOP / "build" / "try" / "book_desk")
    named = os.environ.get("BOOK_DESK")
    for path in (Path(named),) if named else built:
        if os.access(path, os.X_OK):
            return path
    return None


@functools.lru_cache
def hashed(word: str) -> str:
    """The hash of a password, of the least cost that the gateway takes."""
    return bcrypt.hashpw(word.encode(), bcrypt.gensalt(10)).decode()


@functools.lru_cache
def store_of(found: Path, policy: Path) -> bytes:
    """The file of a store that has adopted a policy. It is made once for all worlds of a run."""
    with tempfile.TemporaryDirectory(prefix="office-store-") as folder:
        store = Path(folder) / "office.db"
        adopt(found, store, policy)
        return store.read_bytes()


def adopt(found: Path, store: Path, policy: Path) -> None:
    """Lets the program adopt a policy into a store."""
    words = [str(found), "import", "--store", str(store), str(policy)]
    subprocess.run(words, check=True, timeout=900, stdout=subprocess.DEVNULL)


def free_port() -> int:
    """A port of loopback that nobody listens on."""
    with contextlib.closing(socket.socket()) as probe:
        probe.bind(("127.0.0.1", 0))
        return probe.getsockname()[1]


class Spoken:
    """A reply: status, fields, body."""

    def __init__(self, status: int, fields: http.client.HTTPMessage, body: bytes):
        self.status = status
        self.fields = fields
        self.body = body

    @property
    def text(self) -> str:
        """The body as a text."""
        return self.body.decode()

    def json(self) -> Any:
        """The body as JSON."""
        return json.loads(self.body)


def basic(login: str, password: str) -> str:
    """The Authorization field of a name and a password."""
    return "Basic " + base64.b64encode(f"{login}:{password}".encode()).decode()


class World:
    """A folder with a store, a server over it, and a gateway before it.

    The gateway keeps so many connections to the server as `kept` says, as in an office, or none.
    """

    def __init__(
        self,
        more: str = "",
        policy: Path = GATEWAY / "tests" / "policy.toml",
        origins: str = "",
        passwords: dict[str, str] | None = None,
        port: int = 0,
        kept: int = 0,
    ):
        found = program()
        if found is None:
            raise RuntimeError(
                "the server's program is not there: run make build or make try, or name it in "
                "BOOK_DESK"
            )
        self.program = found
        self.folder = tempfile.TemporaryDirectory(prefix="office-gateway-")
        self.path = Path(self.folder.name)
        self.port, self.server_port = port or free_port(), free_port()
        self.passwords = passwords or PASSWORDS
        lines = [f"{login}:{hashed(word)}\n" for login, word in self.passwords.items()]
        (self.path / "passwords").write_text("".join(lines))
        listed = origins or f'"http://127.0.0.1:{self.port}", "http://localhost:{self.port}"'
        keeping = f"keep_connections = true\nconnections = {kept}\n" if kept else ""
        (self.path / "gateway.toml").write_text(
            f"[listen]\nport = {self.port}\norigins = [{listed}]\narrive_seconds = 3\n"
            f"[server]\nport = {self.server_port}\n{keeping}[people]\nservice = \"lister\"\n"
            f"[people.names]\n\"guest@office.example\" = \"guest\"\n{more}"
        )
        self.processes: list[subprocess.Popen[bytes]] = []
        self.closed = False
        atexit.register(self.close)
        self.log = open(self.path / "gateway.log", "wb")  # pylint: disable=consider-using-with
        try:
            (self.path / "office.db").write_bytes(store_of(found, policy))
            self.start_server()
            self.start_gateway()
        except BaseException:
            self.close()
            raise

    def start_gateway(self) -> None:
        """Starts the gateway with the settings as they are."""
        words = [str(GATEWAY / "serve"), str(self.path / "gateway.toml")]
        self.gateway = subprocess.Popen(words, stdout=subprocess.DEVNULL, stderr=self.log)
        self.processes.append(self.gateway)
        await_port(self.port)

    def run_import(self, policy: Path) -> None:
        """Adopts a policy. The server must not run."""
        adopt(self.program, self.path / "office.db", policy)

    def start_server(self) -> None:
        """Starts the server over the store."""
        words = [str(self.program), "serve", "--port", str(self.server_port), "--forever"]
        words += ["--at-once", "64", "--idle", "75", "--store", str(self.path / "office.db")]
        self.server = subprocess.Popen(words, stdout=subprocess.PIPE, stderr=subprocess.DEVNULL)
        assert self.server.stdout is not None
        self.server.stdout.readline()
        self.processes.append(self.server)

    def stop_server(self) -> None:
        """Ends the server."""
        self.server.terminate()
        self.server.wait(10)

    def close(self) -> None:
        """Ends both, and removes the folder; also where the tests are ended before their end."""
        if self.closed:
            return
        self.closed = True
        for process in reversed(self.processes):
            process.terminate()
        for process in self.processes:
            try:
                process.wait(15)
            except subprocess.TimeoutExpired:
                process.kill()
                process.wait(5)
            if process.stdout is not None:
                process.stdout.close()
        self.log.close()
        self.folder.cleanup()

    def logged(self) -> str:
        """What the gateway wrote on standard error."""
        return (self.path / "gateway.log").read_text()

    def say(
        self, who: str, method: str, target: str, body: bytes | str | dict = b"", **fields: str
    ) -> Spoken:
        """One request to the gateway as a person, by name and password; `who` may be empty.

        `_` in a field's name is `-`.
        """
        headers = {name.replace("_", "-"): value for name, value in fields.items()}
        login = "guest@office.example" if who == "guest" else who
        if who:
            headers.setdefault("Authorization", basic(login, self.passwords[login]))
        if isinstance(body, dict):
            body = json.dumps(body)
        data = body.encode() if isinstance(body, str) else body
        connection = http.client.HTTPConnection("127.0.0.1", self.port, timeout=120)
        with contextlib.closing(connection):
            connection.putrequest(
                method, target, skip_accept_encoding=True, skip_host="Host" in headers
            )
            for name, value in headers.items():
                connection.putheader(name, value)
            if data or method in ("PUT", "POST"):
                connection.putheader("Content-Length", str(len(data)))
            connection.endheaders(data or None)
            reply = connection.getresponse()
            return Spoken(reply.status, reply.headers, reply.read())

    def raw(self, data: bytes, seconds: float = 10.0) -> bytes:
        """What the gateway writes on a connection that sends these bytes, until it closes."""
        opened = socket.create_connection(("127.0.0.1", self.port), timeout=seconds)
        with contextlib.closing(opened) as connection:
            got = b""
            try:
                connection.sendall(data)
                while True:
                    part = connection.recv(65_536)
                    if not part:
                        return got
                    got += part
            except (TimeoutError, ConnectionError):
                return got


def await_port(port: int, seconds: float = 120.0) -> None:
    """Waits until somebody listens on a port of loopback."""
    until = time.monotonic() + seconds
    while time.monotonic() < until:
        try:
            socket.create_connection(("127.0.0.1", port), timeout=1).close()
            return
        except OSError:
            time.sleep(0.05)
    raise RuntimeError(f"nobody listens on port {port}")
