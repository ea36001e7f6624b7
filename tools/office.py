"""An office of one person for the tools that ask the program: its policy, cards, requests and replies, a server of it and a
connection; and how comparisons are counted. What imports this is run by `python3 -B`, so that nothing is left in tools/."""

import contextlib
import importlib.machinery
import importlib.util
import os
import pathlib
import re
import shutil
import socket
import subprocess
import sys
import tempfile
import typing

TOP = pathlib.Path(__file__).resolve().parent.parent
SECONDS = 60


def program(words):
    """The program that the words name first, or else the proved one."""
    return pathlib.Path(words[0]) if words else TOP / "build/book_desk"


def want(file, how="make build"):
    """Ends the tool where a program that it asks is not there."""
    if not os.access(file, os.X_OK):
        sys.exit(f"{file} was not found: run '{how}' first")


def script(name):
    """A script of tools/ as a module."""
    loader = importlib.machinery.SourceFileLoader(name.replace("-", "_"), str(TOP / "tools" / name))
    module = importlib.util.module_from_spec(importlib.util.spec_from_loader(loader.name, loader))
    loader.exec_module(module)
    return module


class Count:
    """How many comparisons passed, and how many failed; of one that failed both are told, where they are long from where they differ."""

    def __init__(self):
        self.passed = self.failed = 0

    def judge(self, name, wanted, given):
        if wanted == given:
            self.passed += 1
            return
        self.failed += 1
        told = [repr(wanted), repr(given)]
        at = max(0, len(os.path.commonprefix(told)) - 120)
        print(f"{name}\n  wanted: {told[0][at : at + 400]}\n  given:  {told[1][at : at + 400]}", flush=True)

    def ends(self):
        """Tells both, and is the status of the tool."""
        print(f"{self.passed} passed, {self.failed} failed")
        return 1 if self.failed else 0


def policy(at="/books/all"):
    """The text of a policy: Ann, her book, and that she may do anything at the path and below."""
    lines = ["version = 1", "[[person]]", 'name = "ann"', "[[book]]", 'name = "all"', 'owner = "/people/ann"']
    return "\n".join([*lines, "[[entry]]", f'at = "{at}"', 'who = "/people/ann"', 'grant = ["all"]', ""])


@contextlib.contextmanager
def room(at="/books/all"):
    """A temporary folder with that policy, as policy.toml."""
    with tempfile.TemporaryDirectory() as name:
        folder = pathlib.Path(name)
        (folder / "policy.toml").write_text(policy(at), encoding="ascii")
        yield folder


def card(number, note=219):
    """The text of a card, with a note of so many bytes: of 300 bytes in all where it is not told."""
    lines = ["BEGIN:VCARD", "VERSION:4.0", f"UID:urn:uuid:{number:06}", f"FN:Card {number:06}", "NOTE:" + note * "n"]
    return "\r\n".join([*lines, "END:VCARD", ""])


def request(method, path, body=b"", fields="", caller="ann"):
    """The bytes of a request, with further fields, each of which has its line end."""
    body = body if isinstance(body, bytes) else body.encode()
    head = f"{method} {path} HTTP/1.1\r\nx-office-caller: {caller}\r\n{fields}Content-Length: {len(body)}\r\n\r\n"
    return head.encode() + body


def replies(text):
    """Each of the replies of a text, by the lengths that they tell; of a last one that is cut off what is there."""
    at = 0
    while at < len(text):
        end = text.find(b"\r\n\r\n", at)
        _, _, length = text[at : max(at, end)].lower().partition(b"\r\ncontent-length: ")
        after = end + 4 + int(length.partition(b"\r\n")[0] or 0) if end >= 0 else len(text)
        yield text[at:after]
        at = after


def statuses(text):
    """The status of each of the replies of a text, all of whose heads are whole."""
    return (int(reply[9 : reply.index(b"\r\n\r\n")][:3]) for reply in replies(text))


class Reply:
    """A reply: its status, its head with the empty line, its body, and the size of both."""

    def __init__(self, head, body):
        self.status, self.head, self.body, self.size = int(head[9:12]), head, body, len(head) + len(body)

    def __repr__(self):
        return repr((self.status, self.body))


def read_reply(stream, bare=False):
    """The next reply of a stream, which has no body where it is to a HEAD and does not close; nothing where the stream ends before it does."""
    head = b""
    while not head.endswith(b"\r\n\r\n"):
        line = stream.readline()
        if not line:
            return None
        head += line
    if bare:
        return Reply(head, stream.read() if b"\r\nconnection: close\r\n" in head.lower() else b"")
    length = re.search(rb"\r\ncontent-length: *(\d+)\r\n", head.lower())
    body = stream.read(int(length[1]) if length else 0)
    return Reply(head, body) if length is None or len(body) == int(length[1]) else None


class Line:
    """A connection to a port of loopback, over which one reply is read after the other."""

    def __init__(self, port):
        self.port = port
        self.line = socket.create_connection(("127.0.0.1", port), SECONDS)
        self.replies = self.line.makefile("rb")

    def ask(self, asked):
        self.line.sendall(asked)
        return self.reply()

    def reply(self):
        """The next reply; nothing where the connection ends before its end."""
        return read_reply(self.replies)

    def close(self):
        self.replies.close()
        self.line.close()


def serving(file, *words):
    """The command of a server at a free port of loopback."""
    return [file, "serve", "--port", "0", *words]


class Server:
    """A process of a command that tells first, as `serve` does, where it listens, on so many lines. Those of one that ends before are
    empty."""

    def __init__(self, command, lines=1, **how):
        self.process = subprocess.Popen([*map(str, command)], stdout=subprocess.PIPE, **how)
        self.lines = [self.process.stdout.readline().decode() for _ in range(lines)]

    @property
    def port(self):
        """The port that the first line tells."""
        return int(self.lines[0].rpartition(":")[2])

    def spent(self):
        """The processor time of the process so far, in microseconds."""
        return int(pathlib.Path(f"/proc/{self.process.pid}/schedstat").read_text(encoding="ascii").split()[0]) / 1e3

    def ends(self, by=None):
        """How it ends, of itself or by a signal: its status, and what it told of faults, where that is kept."""
        if by is not None:
            self.process.send_signal(by)
        _, errors = self.process.communicate(timeout=SECONDS)
        return self.process.returncode, (errors or b"").decode()

    def end(self):
        """Ends it by TERM."""
        self.process.terminate()
        self.process.wait(SECONDS)
        self.process.stdout.close()


def library(room, name):
    """A library of tools/ that lies under a program, compiled into a folder."""
    made = room / f"{name}.so"
    subprocess.run(["cc", "-O2", "-shared", "-fPIC", "-o", made, TOP / "tools" / f"{name}.c"], check=True)
    return made


class Stops:
    """Stops of a program at calls that change files of a folder, by stopped.c, which is compiled into a room."""

    # What is taken back of what was not synced: nothing, what was written to files, and names too.
    LOSES = (None, "bytes", "all")
    CALLS = {"w": "write", "t": "cut", "s": "sync", "n": "name"}

    def __init__(self, room, folder):
        self.library, self.folder, self.kept, self.told = library(room, "stopped"), folder, room / "stopped", room / "stopped.told"

    def environment(self, at=None, lose=None):
        """That of a program that is stopped at the call of this number, at 0 as it ends; or of one whose calls are only counted."""
        shutil.rmtree(self.kept, ignore_errors=True)
        self.kept.mkdir()
        self.told.unlink(missing_ok=True)
        about = {"LD_PRELOAD": self.library, "STOP_IN": self.folder, "STOP_KEPT": self.kept, "STOP_TOLD": self.told}
        about |= {} if at is None else {"STOP_AT": at}
        return os.environ | {name: str(value) for name, value in (about | ({"LOSE": lose} if lose else {})).items()}

    def calls(self):
        """What the calls of the last program were, a letter each."""
        return self.told.read_text(encoding="ascii") if self.told.exists() else ""

    def chosen(self, most, rng):
        """The numbers of so many calls of the last program, of the last thirty, and 0, each with what is taken back; and how each is told."""
        calls = self.calls()
        numbers = range(1, len(calls) + 1)
        for at in sorted({0, *rng.sample(numbers, min(len(numbers), most)), *numbers[-30:]}):
            for lose in self.LOSES:
                what = f"call {at} of {len(calls)}, a {self.CALLS[calls[at - 1]]}" if at else "its end"
                yield at, lose, f"{what}, {lose or 'nothing'} lost"


class Verdict(typing.NamedTuple):
    """What is decided: granted, denied, or the name of a refusal; and of a denial the privilege, the resource and the entry."""

    word: str
    privilege: str | None = None
    resource: str | None = None
    number: int | None = None
    place: str | None = None


def told(done):
    """The verdict that a run of `why` tells, with the place that it tells of the entry."""
    if done.returncode:
        return Verdict(done.stderr.decode().strip().removeprefix("why: "))
    lines = done.stdout.decode().splitlines()
    if lines[0] == "granted":
        return Verdict("granted")
    first, none, _ = lines[0].partition(", none granted")
    if none:
        privilege, _, resource = first.removeprefix("denied ").partition(" at ")
        return Verdict("denied", privilege, resource)
    privilege, _, rest = first.removeprefix("denied ").partition(" at ")
    resource, _, number = rest.rpartition(" by ")
    place = next(line.rpartition(" at ")[2] for line in lines if f" denied by {number}, " in line)
    return Verdict("denied", privilege, resource, int(number), place)


def is_late(word):
    """Whether a refusal comes after the verdict, so that `why` tells that the request is granted."""
    late = ["bad-card", "recognized-principal", "valid-sync-token", "full"]
    return word in late or word.startswith(("no-protected", "no-inherited", "limited-number", "not-supported"))
