"""Clients that nobody changed for the gateway: vdirsyncer and khard, curl, and nginx in front."""
from __future__ import annotations

import os
import shutil
import subprocess
import unittest
from pathlib import Path

from tests.test_dav import SALES, vcard
from tests.world import PASSWORDS, World, await_port, free_port, program

LOGINS = {"head": "head", "assistant": "assistant", "guest": "guest@office.example"}


def run(
    *words: str, env: dict[str, str] | None = None, answer: str = ""
) -> subprocess.CompletedProcess[str]:
    """Runs a command for at most two minutes."""
    return subprocess.run(
        words, capture_output=True, text=True, timeout=120, check=False,
        env={**os.environ, **(env or {})}, input=answer,
    )


class Desk:
    """A person's folder, with vdirsyncer and khard on it."""

    def __init__(self, folder: Path, person: str, address: str, certificate: str = ""):
        self.folder = folder / person
        self.cards = self.folder / "books" / "sales"
        self.cards.mkdir(parents=True)
        login = LOGINS[person]
        verify = f'verify = "{certificate}"\n' if certificate else ""
        (self.folder / "vdirsyncer").write_text(
            f'[general]\nstatus_path = "{self.folder}/status/"\n'
            '[pair office]\na = "near"\nb = "far"\ncollections = ["from b"]\n'
            f'[storage near]\ntype = "filesystem"\npath = "{self.folder}/books/"\n'
            'fileext = ".vcf"\n'
            f'[storage far]\ntype = "carddav"\nurl = "{address}"\nusername = "{login}"\n'
            f'password = "{PASSWORDS[login]}"\n{verify}'
        )
        (self.folder / "khard").write_text(
            f"[addressbooks]\n[[sales]]\npath = {self.cards}\n"
            "[general]\ndefault_action = list\neditor = true\nmerge_editor = true\n"
        )

    def sync(self) -> subprocess.CompletedProcess[str]:
        """One vdirsyncer sync."""
        return run("vdirsyncer", "-c", str(self.folder / "vdirsyncer"), "sync")

    def discover(self) -> subprocess.CompletedProcess[str]:
        """vdirsyncer discover; what it wants to make here is made."""
        return run(
            "vdirsyncer", "-c", str(self.folder / "vdirsyncer"), "discover", answer="y\n" * 20
        )

    def khard(self, *words: str, answer: str = "") -> subprocess.CompletedProcess[str]:
        """A khard command."""
        return run("khard", "-c", str(self.folder / "khard"), *words, answer=answer)

    def texts(self) -> str:
        """All cards here."""
        return "".join(path.read_text() for path in sorted(self.cards.glob("*.vcf")))


@unittest.skipUnless(program(), "the server's program is named in BOOK_DESK, or made by make build")
@unittest.skipUnless(
    shutil.which("vdirsyncer") and shutil.which("khard"),
    "the packages vdirsyncer and khard are not there",
)
class Syncing(unittest.TestCase):
    """vdirsyncer and khard as head, assistant and guest."""

    def setUp(self) -> None:
        self.world = World()
        self.addCleanup(self.world.close)
        address = f"http://127.0.0.1:{self.world.port}/"
        self.desks = {person: Desk(self.world.path, person, address) for person in LOGINS}

    def synced(self, person: str) -> None:
        """A sync that has to succeed."""
        done = self.desks[person].sync()
        self.assertEqual(done.returncode, 0, done.stderr)

    def card_named(self, name: str) -> tuple[str, str]:
        """The path and the text of the one card of this name, as the head reads it."""
        told = self.world.say(
            "head", "REPORT", "/books/sales", {"report": "sync-collection", "sync-token": ""}
        ).json()
        [found] = [response for response in told["responses"] if f"FN:{name}" in response["text"]]
        return found["href"], found["text"]

    def test_both_ways(self) -> None:
        self.world.say("head", "PUT", SALES + "shut.vcf", vcard("Geheim", "UID:urn:uuid:shut"))
        self.world.say(
            "head", "ACL", "/books/sales/shut.vcf",
            {"acl": [{"deny": ["read"], "principal": "/people/guest"}]},
        )
        self.world.say("head", "PUT", SALES + "open.vcf", vcard("Offen", "UID:urn:uuid:open"))
        for person, desk in self.desks.items():
            found = desk.discover()
            self.assertEqual(found.returncode, 0, found.stderr)
            self.synced(person)
            self.assertIn("Offen", desk.khard("list").stdout)
        self.assertIn("Geheim", self.desks["head"].texts())
        self.assertNotIn("Geheim", self.desks["guest"].texts())

        # The head makes a card; the others get it.
        new = (
            "First name: Anna\nLast name: Oberländer\nEmail:\n    work: anna@linden.example\n"
            "Phone:\n    cell: +49 170 5550123\n"
        )
        made = self.desks["head"].khard("new", "-a", "sales", answer=new)
        self.assertEqual(made.returncode, 0, made.stderr)
        self.synced("head")
        path, text = self.card_named("Anna Oberländer")
        self.assertIn("VERSION:4.0", text)
        self.assertIn("anna@linden.example", text)
        for person in ("assistant", "guest"):
            self.synced(person)
            self.assertIn("anna@linden.example", self.desks[person].khard("show", "Anna").stdout)

        # The assistant changes it; the head gets that.
        mine = next(
            file
            for file in self.desks["assistant"].cards.glob("*.vcf")
            if "Anna" in file.read_text()
        )
        mine.write_text(mine.read_text().replace("anna@linden.example", "anna.o@linden.example"))
        self.synced("assistant")
        self.assertIn("anna.o@linden.example", self.card_named("Anna Oberländer")[1])
        self.synced("head")
        self.assertIn("anna.o@linden.example", self.desks["head"].khard("show", "Anna").stdout)

        # The assistant may not remove it: the card stays for all. A card that was sent as 3.0 is
        # read back once, since its tag was not told; then vdirsyncer knows the tag.
        self.synced("assistant")
        mine.unlink()
        refused = self.desks["assistant"].sync()
        self.assertNotEqual(refused.returncode, 0)
        self.assertIn("403", refused.stderr)
        self.assertEqual(self.card_named("Anna Oberländer")[0], path)

        # The guest may add nothing.
        self.desks["guest"].khard("new", "-a", "sales", answer="First name: Gast\nLast name: Neu\n")
        refused = self.desks["guest"].sync()
        self.assertNotEqual(refused.returncode, 0)
        self.assertNotIn(
            "Gast",
            self.world.say(
                "head", "REPORT", "/books/sales", {"report": "sync-collection", "sync-token": ""}
            ).text,
        )

        # The head removes it; the guest loses it, and has never had the denied one.
        gone = self.desks["head"].khard("remove", "--force", "Anna", answer="y\n")
        self.assertEqual(gone.returncode, 0, gone.stderr)
        self.synced("head")
        self.desks["guest"].sync()
        self.assertNotIn("Anna", self.desks["guest"].texts())
        self.assertNotIn("Geheim", self.desks["guest"].texts())


@unittest.skipUnless(program(), "the server's program is named in BOOK_DESK, or made by make build")
@unittest.skipUnless(
    shutil.which("cadaver") and shutil.which("rclone"),
    "the packages cadaver and rclone are not there",
)
class Exploring(unittest.TestCase):
    """cadaver and rclone, which know WebDAV and no cards."""

    def test_a_card_is_put_listed_read_and_removed(self) -> None:
        world = World()
        self.addCleanup(world.close)
        card, got = world.path / "explored.vcf", world.path / "got.vcf"
        card.write_bytes(vcard("Explored", "UID:urn:uuid:explored").encode())
        entry = f"machine 127.0.0.1 login head password {PASSWORDS['head']}\n"
        (world.path / ".netrc").write_text(entry)
        (world.path / ".netrc").chmod(0o600)
        address = f"http://127.0.0.1:{world.port}{SALES}"
        words = f"put {card} one.vcf\nls\nget one.vcf {got}\nmove one.vcf two.vcf\nls\nquit\n"
        told = run("cadaver", address, env={"HOME": str(world.path)}, answer=words)
        self.assertIn("one.vcf", told.stdout, told.stderr)
        self.assertIn("two.vcf", told.stdout)
        self.assertEqual(got.read_bytes(), card.read_bytes())

        password = run("rclone", "obscure", PASSWORDS["head"]).stdout.strip()
        far = f":webdav,url='{address}',user=head,pass='{password}':"
        settings = ("--config", str(world.path / "none"))
        told = run("rclone", *settings, "lsf", far)
        self.assertEqual(told.stdout.split(), ["two.vcf"], told.stderr)
        told = run("rclone", *settings, "cat", far + "two.vcf")
        self.assertEqual(told.stdout, card.read_bytes().decode().replace("\r\n", "\n"))
        told = run("rclone", *settings, "copyto", str(card), far + "3.vcf")
        self.assertEqual(told.returncode, 0, told.stderr)
        told = run("rclone", *settings, "deletefile", far + "two.vcf")
        self.assertEqual(told.returncode, 0, told.stderr)
        statuses = [world.say("head", "GET", f"{SALES}{name}.vcf").status for name in ("3", "two")]
        self.assertEqual(statuses, [200, 404])


@unittest.skipUnless(program(), "the server's program is named in BOOK_DESK, or made by make build")
@unittest.skipUnless(shutil.which("syncevolution"), "the package syncevolution is not there")
class Evolving(unittest.TestCase):
    """SyncEvolution as it is, over its items."""

    def setUp(self) -> None:
        self.world = World()
        self.addCleanup(self.world.close)
        self.home = self.world.path / "home"
        self.home.mkdir()

    def run_it(self, who: str, *words: str) -> str:
        """What a command prints; it has to succeed."""
        login = LOGINS[who]
        done = run(
            "syncevolution", "--daemon=no", *words, "backend=carddav",
            f"database=http://127.0.0.1:{self.world.port}{SALES}", f"username={login}",
            f"password={PASSWORDS[login]}", env={"HOME": str(self.home)},
        )
        self.assertEqual(done.returncode, 0, done.stdout + done.stderr)
        return done.stdout

    def test_items(self) -> None:
        card, all_cards = self.world.path / "one.vcf", self.world.path / "all.vcf"
        card.write_text(vcard("Evolution", "UID:se-one", "N:Evolution;Sync;;;", version="3.0"))
        self.assertIn("se-one%2evcf", self.run_it("head", "--import", str(card)))
        self.assertIn("FN:Evolution", self.world.say("guest", "GET", SALES + "se-one.vcf").text)
        self.world.say("head", "PUT", SALES + "other.vcf", vcard("Other", "UID:other"))
        self.assertIn("other%2evcf", self.run_it("guest", "--print-items"))
        self.run_it("guest", "--export", str(all_cards))
        self.assertIn("Other", all_cards.read_text())
        self.assertIn("Evolution", all_cards.read_text())


@unittest.skipUnless(program(), "the server's program is named in BOOK_DESK, or made by make build")
@unittest.skipUnless(
    shutil.which("nginx") and shutil.which("openssl") and shutil.which("curl"),
    "the packages nginx, openssl and curl are not there",
)
class Fronts(unittest.TestCase):
    """TLS by nginx in front, and by the gateway itself."""

    world: World

    @classmethod
    def setUpClass(cls) -> None:
        cls.port = free_port()
        cls.world = World(origins=f'"https://localhost:{cls.port}", "https://127.0.0.1:{cls.port}"')

    @classmethod
    def tearDownClass(cls) -> None:
        cls.world.close()

    def certificate(self, folder: Path) -> tuple[Path, Path]:
        """A certificate for localhost and its key."""
        certificate, key = folder / "office.pem", folder / "office.key"
        made = run(
            "openssl", "req", "-x509", "-newkey", "ec", "-pkeyopt", "ec_paramgen_curve:prime256v1",
            "-nodes", "-days", "2", "-subj", "/CN=localhost", "-addext",
            "subjectAltName=DNS:localhost,IP:127.0.0.1", "-keyout", str(key), "-out",
            str(certificate),
        )
        self.assertEqual(made.returncode, 0, made.stderr)
        return certificate, key

    def start_nginx(self, world: World, port: int, certificate: Path, key: Path) -> None:
        """nginx with the example's settings, on a port of loopback."""
        example = (Path(__file__).resolve().parent.parent / "nginx.conf").read_text()
        rows = {
            "listen 443 ssl;": f"listen 127.0.0.1:{port} ssl;",
            "server_name office.example;": "server_name localhost;",
            "/etc/ssl/office.pem": str(certificate), "/etc/ssl/private/office.key": str(key),
            "http://127.0.0.1:8090": f"http://127.0.0.1:{world.port}",
        }
        for old, new in rows.items():
            self.assertIn(old, example)
            example = example.replace(old, new)
        temporary = "".join(
            f"{kind}_temp_path {world.path}/{kind};\n"
            for kind in ("client_body", "proxy", "fastcgi", "uwsgi", "scgi")
        )
        (world.path / "nginx.conf").write_text(
            f"daemon off;\nuser root;\npid {world.path}/nginx.pid;\nerror_log "
            f"{world.path}/nginx.log;\nevents {{}}\nhttp {{\naccess_log off;\n"
            f"{temporary}{example}\n}}\n"
        )
        process = subprocess.Popen(
            ["nginx", "-p", str(world.path), "-c", str(world.path / "nginx.conf")],
            stdout=subprocess.DEVNULL, stderr=subprocess.DEVNULL,
        )
        world.processes.append(process)
        await_port(port)

    def test_nginx_in_front(self) -> None:
        port, world = self.port, self.world
        certificate, key = self.certificate(world.path)
        self.start_nginx(world, port, certificate, key)
        curl = (
            "curl", "-s", "-i", "-m", "60", "--cacert", str(certificate), "-u",
            f"head:{PASSWORDS['head']}",
        )
        address = f"https://localhost:{port}"
        card = world.path / "a.vcf"
        card.write_bytes(vcard("Hinter nginx").encode())
        put = run(
            *curl, "-T", str(card), "-H", "Content-Type: text/vcard", "-H",
            "x-office-caller: guest",
            address + SALES + "a.vcf"
        )
        self.assertIn("HTTP/1.1 201", put.stdout, put.stderr)
        self.assertIn("FN:Hinter nginx", run(*curl, address + SALES + "a.vcf").stdout)
        moved = run(
            *curl, "-X", "MOVE", "-H", f"Destination: {address}{SALES}b.vcf",
            address + SALES + "a.vcf",
        )
        self.assertIn("HTTP/1.1 201", moved.stdout)
        large = world.path / "large"
        large.write_bytes(b"x" * 10_000_000)
        self.assertIn(" 413 ", run(*curl, "-T", str(large), address + SALES + "c.vcf").stdout)
        self.assertIn("HTTP/1.1 301", run(*curl, address + "/.well-known/carddav").stdout)
        if shutil.which("vdirsyncer"):
            desk = Desk(world.path, "guest", address + "/", str(certificate))
            self.assertEqual(desk.discover().returncode, 0)
            done = desk.sync()
            self.assertEqual(done.returncode, 0, done.stderr)
            self.assertIn("Hinter nginx", desk.texts())

    def test_https_by_the_gateway(self) -> None:
        world, port = self.world, free_port()
        certificate, key = self.certificate(world.path)
        settings = world.path / "https.toml"
        text = (
            (world.path / "gateway.toml")
            .read_text()
            .replace(f"localhost:{self.port}", f"localhost:{port}")
        )
        settings.write_text(
            text.replace(
                f"port = {world.port}\n",
                f'port = {port}\ncertificate = "{certificate}"\nkey = "{key}"\n', 1,
            )
        )
        process = subprocess.Popen(
            [str(Path(__file__).resolve().parent.parent / "serve"), str(settings)],
            stdout=subprocess.DEVNULL, stderr=world.log,
        )
        world.processes.append(process)
        await_port(port)
        curl = ("curl", "-s", "-i", "-m", "60", "--cacert", str(certificate))
        self.assertIn("HTTP/1.1 401", run(*curl, f"https://localhost:{port}/dav/").stdout)
        told = run(
            *curl, "-u", f"head:{PASSWORDS['head']}", "-X", "PROPFIND", "-H", "Depth: 1",
            f"https://localhost:{port}/dav/books/",
        )
        self.assertIn("HTTP/1.1 207", told.stdout)
        self.assertIn("Verkauf", told.stdout)
        self.assertNotEqual(
            run("curl", "-s", "-m", "20", f"https://localhost:{port}/dav/").returncode, 0
        )


if __name__ == "__main__":
    unittest.main()
