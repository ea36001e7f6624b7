"""The gateway as an office runs it: who guesses passwords, whether all is there, certificates."""
from __future__ import annotations

import asyncio
import contextlib
import gzip
import http.client
import io
import json
import os
import re
import shutil
import signal
import ssl
import subprocess
import tempfile
import time
import unittest
import unittest.mock
from pathlib import Path

from office_gateway.__main__ import main
from office_gateway.config import Backend, People
from office_gateway.health import Health
from office_gateway.passwords import Passwords
from office_gateway.refusals import Refusal
from office_gateway.server import Server
from tests import test_clients
from tests.test_dav import SALES, vcard
from tests.test_server import Listener
from tests.world import (
    GATEWAY, PASSWORDS, TOP, World, await_port, basic, free_port, hashed, program,
)

FILTER = GATEWAY / "fail2ban.conf"
TIME = "2026-11-27 20:41:37,123"
FAILED = "WARNING sign-in failed from"
LINES = (
    f"{TIME} {FAILED} 192.0.2.7 as 'ann'",
    f"{TIME} {FAILED} 2001:db8::7 as \"'\\n{FAILED} 9.9.9.9 as 'x\"",
    f"{TIME} INFO ann GET '/dav/WARNING' 404 3 ms",
    f"{TIME} INFO ann PUT x: {FAILED} 8.8.8.8 as 'ann'",
    f"Nov 27 20:41:40 host office_gateway[12]: {TIME} {FAILED} 192.0.2.8 as 'bob'",
)
QUERY = (
    '<c:addressbook-query xmlns:d="DAV:" xmlns:c="urn:ietf:params:xml:ns:carddav"><d:prop>'
    '<d:getetag/><c:address-data content-type="text/vcard" version="4.0"/></d:prop>'
    '<c:filter><c:prop-filter name="FN"/></c:filter></c:addressbook-query>'
)
BOTH, ONE = {"gateway": "ok", "server": "ok"}, {"gateway": "ok", "server": "unavailable"}


class Banning(unittest.TestCase):
    """The filter of fail2ban."""

    @unittest.skipUnless(shutil.which("fail2ban-regex"), "the package fail2ban is not there")
    def test_each_failed_sign_in_is_seen_with_its_own_address(self) -> None:
        with tempfile.NamedTemporaryFile("w", suffix=".log") as log:
            log.write("".join(f"{line}\n" for line in LINES))
            log.flush()
            words = ["fail2ban-regex", "--out", "ip", log.name, str(FILTER)]
            done = subprocess.run(words, capture_output=True, text=True, timeout=120, check=False)
        self.assertEqual(done.stdout.split(), ["192.0.2.7", "2001:db8::7", "192.0.2.8"], done)


class Starting(unittest.TestCase):
    """What the gateway does not start without."""

    def test_a_package_that_is_not_there_is_named(self) -> None:
        with unittest.mock.patch("importlib.util.find_spec", lambda name: name != "lxml" or None):
            with contextlib.redirect_stderr(io.StringIO()) as told:
                self.assertEqual(main(["none.toml"]), 1)
        wanted = "packages are not there: python3-lxml: apt-get install python3-lxml\n"
        self.assertEqual(told.getvalue(), wanted)

    def test_the_words_are_one_file(self) -> None:
        with contextlib.redirect_stderr(io.StringIO()) as told:
            self.assertEqual((main([]), main(["a", "b"])), (2, 2))
            self.assertEqual(main(["/none/gateway.toml"]), 1)
        self.assertIn("settings: /none/gateway.toml: ", told.getvalue())


class Setting(unittest.IsolatedAsyncioTestCase):
    """Passwords that htpasswd sets by the command of the README."""

    @unittest.skipUnless(shutil.which("htpasswd"), "the package apache2-utils is not there")
    async def test_htpasswd(self) -> None:
        with tempfile.TemporaryDirectory() as folder:
            file = Path(folder) / "passwords"
            for words in (["-c", str(file), "ann"], [str(file), "bob@office.example"]):
                command = ["htpasswd", "-i", "-B", "-C", "12", *words]
                subprocess.run(command, input=b"word", check=True, timeout=120, capture_output=True)
            passwords = Passwords(People(passwords=file, names={"bob@office.example": "bob"}))
            self.addCleanup(passwords.close)
            self.assertEqual(await passwords.check("ann", "word"), "ann")
            self.assertEqual(await passwords.check("bob@office.example", "word"), "bob")
            with self.assertLogs("office_gateway", "WARNING") as told:
                self.assertIsNone(await passwords.check("ann", "sword", "192.0.2.7"))
        self.assertIn("sign-in failed from 192.0.2.7 as 'ann'", told.output[0])


class Watching(unittest.IsolatedAsyncioTestCase):
    """/health, against a listener in place of the server."""

    async def test_both_are_there_or_the_server_is_not(self) -> None:
        listener = Listener()
        port = await listener.start()
        server = Server(Backend(port=port, start_seconds=9.0))
        await server.open()
        self.addAsyncCleanup(server.close)
        health = Health(server, "lister")
        replies = await asyncio.gather(*(health.reply() for _ in range(5)))
        self.assertEqual({one.status for one in replies}, {200})
        self.assertEqual(json.loads(replies[0].body), BOTH)
        self.assertEqual(len(listener.heads), 1)
        self.assertTrue(listener.heads[0].startswith(b"OPTIONS / "))
        assert listener.server is not None
        listener.server.close()
        await listener.server.wait_closed()
        with unittest.mock.patch("office_gateway.health.ANSWER_SECONDS", 0.1):
            health = Health(server, "")
            reply = await health.reply()
        self.assertEqual((reply.status, json.loads(reply.body)), (503, ONE))

    async def test_a_refusal_is_an_answer(self) -> None:
        server = unittest.mock.Mock()
        server.ask = unittest.mock.AsyncMock(side_effect=Refusal(503, "busy"))
        self.assertEqual((await Health(server, "").reply()).status, 503)
        server.ask = unittest.mock.AsyncMock(return_value=unittest.mock.Mock(status=403))
        self.assertEqual((await Health(server, "").reply()).status, 200)


@unittest.skipUnless(program(), "the server's program is not there: see tests/world.py")
class Running(unittest.TestCase):
    """A gateway behind a proxy that names the client's address, and over HTTPS of its own."""

    world: World

    @classmethod
    def setUpClass(cls) -> None:
        cls.world = World()

    @classmethod
    def tearDownClass(cls) -> None:
        cls.world.close()

    def second(self, name: str, **rows: str) -> tuple[int, subprocess.Popen[bytes]]:
        """Another gateway over the same server, with other settings."""
        port = free_port()
        text = (self.world.path / "gateway.toml").read_text()
        text = text.replace(f"port = {self.world.port}\n", f"port = {port}\n", 1)
        if "origins" in str(rows):
            text = re.sub(r"origins = .*\n", "", text)
        for table, lines in rows.items():
            text = text.replace(f"[{table}]\n", f"[{table}]\n{lines}\n")
        settings = self.world.path / name
        settings.write_text(text)
        words = [str(GATEWAY / "serve"), str(settings)]
        started = subprocess.Popen(words, stdout=subprocess.DEVNULL, stderr=self.world.log)
        self.world.processes.append(started)
        await_port(port)
        return port, started

    def test_a_watcher_needs_no_name_and_no_host(self) -> None:
        for host in ("", "monitor.example"):
            told = self.world.say("", "GET", "/health", **({"Host": host} if host else {}))
            self.assertEqual((told.status, told.json()["server"]), (200, "ok"))
        self.assertEqual(self.world.say("", "POST", "/health").status, 401)
        self.world.stop_server()
        time.sleep(1.1)
        told = self.world.say("", "GET", "/health")
        self.assertEqual((told.status, told.json()), (503, ONE))
        self.world.start_server()
        time.sleep(1.1)
        self.assertEqual(self.world.say("", "GET", "/health").status, 200)

    def test_failed_sign_ins_are_logged_and_slowed_down(self) -> None:
        port, _ = self.second("behind.toml", listen='address_field = "X-Real-IP"')
        world = self.world
        mine, world.port = world.port, port
        self.addCleanup(setattr, world, "port", mine)
        host = f"127.0.0.1:{mine}"
        for number in range(7):
            word = basic("head", f"wrong {number}")
            fields = {"Authorization": word, "X_Real_IP": "192.0.2.9", "Host": host}
            begun = time.monotonic()
            self.assertEqual(world.say("", "GET", "/dav/", **fields).status, 401)
        self.assertGreater(time.monotonic() - begun, 0.4)
        self.assertIn("WARNING sign-in failed from 192.0.2.9 as 'head'", world.logged())
        told = world.say("head", "OPTIONS", "/dav/", Host=host, X_Real_IP="192.0.2.10")
        self.assertEqual((told.status, told.fields["Strict-Transport-Security"]), (200, None))

    @unittest.skipUnless(shutil.which("openssl"), "the package openssl is not there")
    def test_a_renewed_certificate_is_read_by_hup(self) -> None:
        certificate, key = self.world.path / "a.pem", self.world.path / "a.key"
        self.certify(certificate, key, "first")
        rows = f'certificate = "{certificate}"\nkey = "{key}"\norigins = ["https://localhost"]'
        port, gateway = self.second("https.toml", listen=rows)
        self.assertIn(b"first", self.shown(port))
        self.certify(certificate, key, "second")
        self.assertIn(b"first", self.shown(port))
        gateway.send_signal(signal.SIGHUP)
        until = time.monotonic() + 60
        while b"second" not in self.shown(port) and time.monotonic() < until:
            time.sleep(0.1)
        self.assertIn(b"second", self.shown(port))
        certificate.write_text("none")
        gateway.send_signal(signal.SIGHUP)
        time.sleep(0.5)
        self.assertIn(b"second", self.shown(port))
        context = ssl.create_default_context()
        context.check_hostname, context.verify_mode = False, ssl.CERT_NONE
        asked = http.client.HTTPSConnection("127.0.0.1", port, context=context, timeout=60)
        asked.request("GET", "/health")
        field = asked.getresponse().headers["Strict-Transport-Security"]
        asked.close()
        self.assertEqual(field, "max-age=31536000")

    def certify(self, certificate: Path, key: Path, name: str) -> None:
        """A certificate of this name."""
        words = ["openssl", "req", "-x509", "-newkey", "ec", "-pkeyopt", "ec_paramgen_curve:P-256"]
        words += ["-nodes", "-days", "2", "-subj", f"/CN={name}"]
        words += ["-keyout", str(key), "-out", str(certificate)]
        subprocess.run(words, check=True, timeout=60, capture_output=True)

    def shown(self, port: int) -> bytes:
        """The certificate that is shown, as bytes."""
        return ssl.PEM_cert_to_DER_cert(ssl.get_server_certificate(("127.0.0.1", port), timeout=60))

    def test_what_it_does_not_start_with_is_told_in_words(self) -> None:
        cheap = "ann:$2y$05$" + "a" * 53
        (self.world.path / "cheap").write_text(cheap + "\n")
        rows = {
            '[people]\npasswords = "cheap"\n': "htpasswd -B -C 12",
            "[listen]\nport = \"x\"\n": "[listen] port is to be a whole number, and is 'x'",
        }
        for text, wanted in rows.items():
            settings = self.world.path / "wrong.toml"
            settings.write_text(text)
            words = [str(GATEWAY / "serve"), str(settings)]
            done = subprocess.run(words, capture_output=True, text=True, timeout=120, check=False)
            self.assertEqual(done.returncode, 1)
            self.assertIn(wanted, done.stderr)


@unittest.skipUnless(program(), "the server's program is not there: see tests/world.py")
class Installed(unittest.TestCase):
    """What `make install` puts into a folder."""

    def test_the_gateway_starts_where_it_is_installed(self) -> None:
        with tempfile.TemporaryDirectory(prefix="office-installed-") as folder:
            about = {**os.environ, "DESTDIR": folder, "PREFIX": "/opt/office"}
            words = [str(TOP / "tools" / "install"), str(program())]
            subprocess.run(words, env=about, check=True, timeout=60, stdout=subprocess.DEVNULL)
            root = Path(folder) / "opt" / "office"
            for name in ("BOOKLET.md", "DEFINITIONS.md", "PACKAGES.md", "gateway/README.md"):
                self.assertTrue((root / "share/doc/book_desk" / name).is_file(), name)
            unit = (root / "lib/systemd/system/office_gateway.service").read_text()
            self.assertIn("ExecStart=/opt/office/lib/office_gateway/serve", unit)
            self.assertTrue((root / "share/man/man1/office-gateway.1").is_file())
            for name in ("office-import", "office-export"):
                words = [str(root / "bin" / name), "--help"]
                told = subprocess.run(words, capture_output=True, text=True, timeout=60)
                self.assertEqual(told.returncode, 0, told.stderr)
            self.starts(root)

    def starts(self, root: Path) -> None:
        """The installed gateway serves the page, though no server is there to be asked."""
        (root / "passwords").write_text("ann:" + hashed("ann-word") + "\n")
        port = free_port()
        text = f"[listen]\nport = {port}\n[server]\nport = {free_port()}\nstart_seconds = 0.1\n"
        (root / "gateway.toml").write_text(text)
        words = [str(root / "bin" / "office-gateway"), str(root / "gateway.toml")]
        quiet = {"stdout": subprocess.DEVNULL, "stderr": subprocess.DEVNULL}
        with subprocess.Popen(words, **quiet) as started:
            try:
                await_port(port)
                asked = http.client.HTTPConnection("127.0.0.1", port, timeout=60)
                with contextlib.closing(asked):
                    asked.request("GET", "/page/main.js")
                    self.assertIn(b"import", asked.getresponse().read())
                    asked.request("GET", "/health")
                    self.assertEqual(asked.getresponse().status, 503)
            finally:
                started.terminate()


@unittest.skipUnless(program(), "the server's program is not there: see tests/world.py")
@unittest.skipUnless(shutil.which("nginx") and shutil.which("openssl"), "nginx is not there")
class Proxied(unittest.TestCase):
    """nginx in front, with the settings of the example."""

    def test_answers_are_compressed_and_clients_are_limited(self) -> None:
        port = free_port()
        origin = f'"https://localhost:{port}"'
        world = World(origins=origin)
        self.addCleanup(world.close)
        settings = world.path / "gateway.toml"
        listen = '[listen]\naddress_field = "X-Real-IP"\n'
        settings.write_text(settings.read_text().replace("[listen]\n", listen))
        world.gateway.terminate()
        world.gateway.wait(60)
        world.start_gateway()
        front = test_clients.Fronts
        certificate, key = front.certificate(self, world.path)  # type: ignore[arg-type]
        front.start_nginx(self, world, port, certificate, key)  # type: ignore[arg-type]
        context = ssl.create_default_context(cafile=str(certificate))
        asked = http.client.HTTPSConnection("localhost", port, context=context, timeout=120)
        self.addCleanup(asked.close)
        asked.request("GET", "/page/page.css", headers={"Accept-Encoding": "gzip"})
        reply = asked.getresponse()
        body = reply.read()
        self.assertEqual((reply.status, reply.headers["Content-Encoding"]), (200, "gzip"))
        self.assertIn(b"body {", gzip.decompress(body))
        self.assertEqual(reply.headers["Strict-Transport-Security"], "max-age=31536000")
        self.answers_of_reports_are_compressed(asked)
        self.connections_of_one_address_are_bounded(asked, port, context)
        asked.request("GET", "/health")
        reply = asked.getresponse()
        self.assertEqual((reply.status, json.loads(reply.read())), (200, BOTH))
        fields = {"x-office-page": "1", "Content-Type": "application/json"}
        statuses: list[int] = []
        while 429 not in statuses and len(statuses) < 100:
            asked.request("POST", "/page/session", b"none", fields)
            reply = asked.getresponse()
            reply.read()
            statuses.append(reply.status)
        self.assertEqual((statuses[0], statuses[-1]), (400, 429))
        wrong = {"Authorization": basic("head", "wrong")}
        asked.request("GET", "/dav/", headers=wrong)
        self.assertEqual(asked.getresponse().status, 401)
        self.assertIn("sign-in failed from 127.0.0.1 as 'head'", world.logged())

    def answers_of_reports_are_compressed(self, asked: http.client.HTTPSConnection) -> None:
        """The gateway compresses a long answer of status 207 for who takes gzip, and for no
        other."""
        signed = {"Authorization": basic("head", PASSWORDS["head"])}
        for number in range(3):
            lines = [f"NOTE:{'long ' * 8_000}"]
            asked.request("PUT", f"{SALES}{number}.vcf", vcard(f"Long {number}", *lines), signed)
            reply = asked.getresponse()
            self.assertEqual((reply.status, reply.read()), (201, b""))
        fields = {**signed, "Depth": "1", "Content-Type": "application/xml"}
        told = {}
        for coding in ("", "gzip", "deflate, gzip;q=0"):
            asked.request("REPORT", SALES, QUERY, {**fields, "Accept-Encoding": coding})
            reply = asked.getresponse()
            told[coding] = (reply.status, reply.headers["Content-Encoding"], reply.read())
        plain = told[""]
        self.assertEqual((plain[:2], plain[2].count(b"long ")), ((207, None), 24_000))
        self.assertEqual((told["deflate, gzip;q=0"], told["gzip"][:2]), (plain, (207, "gzip")))
        self.assertEqual(gzip.decompress(told["gzip"][2]), plain[2])
        self.assertLess(len(told["gzip"][2]) * 10, len(plain[2]))

    def connections_of_one_address_are_bounded(
        self, asked: http.client.HTTPSConnection, port: int, context: ssl.SSLContext
    ) -> None:
        """While 32 connections send their bodies, the next one is answered 429."""
        with contextlib.ExitStack() as stack:
            for _ in range(32):
                one = http.client.HTTPSConnection("localhost", port, context=context, timeout=120)
                stack.callback(one.close)
                one.putrequest("PUT", SALES + "never.vcf")
                one.putheader("Content-Length", "10")
                one.endheaders(b"BEGIN")
            self.await_status(asked, 429)
        self.await_status(asked, 200)

    def await_status(self, asked: http.client.HTTPSConnection, wanted: int) -> None:
        """Waits until a file of the page is answered with this status."""
        until, status = time.monotonic() + 60, 0
        while status != wanted and time.monotonic() < until:
            asked.request("GET", "/page/page.css")
            reply = asked.getresponse()
            reply.read()
            status = reply.status
            time.sleep(0.05)
        self.assertEqual(status, wanted)


if __name__ == "__main__":
    unittest.main()
