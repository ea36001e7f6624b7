"""The parts of the gateway that talk to nobody."""
from __future__ import annotations

import asyncio
import tempfile
import time
import unittest
import unittest.mock
from pathlib import Path

import bcrypt

from office_gateway import davxml, guesses, imports, paths, properties, queries, vcard
from office_gateway.app import CaselessFields, basic_of, hosts_of, takes_gzip
from office_gateway.conditions import accepts_three, has_tag
from office_gateway.config import ConfigFault, People, load
from office_gateway.locks import Locks
from office_gateway.passwords import Passwords, hashes_of
from office_gateway.refusals import Refusal, refusal_of, words_of
from office_gateway.sessions import Sessions
from office_gateway.texts import tag_of

BOMB = (
    b'<?xml version="1.0"?><!DOCTYPE l [<!ENTITY a "ha"><!ENTITY b "&a;&a;&a;&a;">]>'
    b'<propfind xmlns="DAV:">&b;</propfind>'
)


class Paths(unittest.TestCase):
    """Which targets are paths."""

    def test_paths(self) -> None:
        rows = {
            "/": "/", "/books": "/books", "/books/": "/books", "/books/sales": "/books/sales",
            "/books/sales/": "/books/sales", "/books/sales/a.vcf": "/books/sales/a.vcf",
            "/people/ann": "/people/ann", "/books/sales/a.vcf/": None, "//": None, "/books//": None,
            "//books": None, "/books/../people": None, "/books/sales/..": None,
            "/books/.hidden": None, "/books/sales/%61.vcf": None, "/books/sales?x": None,
            "/books/sales#x": None, "/other": None, "books": None, "": None, "/people/ann/x": None,
            "/books/sales/a/b": None, "/books/" + "a" * 65: None,
            "/books/" + "a" * 64: "/books/" + "a" * 64, "/books/s\u00e4le": None,
            "/books/a b": None, "/books/a\\b": None, "/books/sales/a.vcf\n": None,
            "http://x/books": None,
        }
        for target, wanted in rows.items():
            with self.subTest(target):
                self.assertEqual(paths.server_path(target), wanted)

    def test_below_dav(self) -> None:
        rows = {
            "/dav": "/", "/dav/": "/", "/dav/books/": "/books", "/dav/books/s/c": "/books/s/c",
            "/davbooks": None, "/dav//books": None,
        }
        for target, wanted in rows.items():
            with self.subTest(target):
                self.assertEqual(paths.dav_path(target), wanted)

    def test_hrefs(self) -> None:
        self.assertEqual(
            [paths.href(path) for path in ("/", "/books/s", "/books/s/c.vcf")],
            ["/dav/", "/dav/books/s/", "/dav/books/s/c.vcf"],
        )

    def test_targets_of_other_hosts_are_none(self) -> None:
        hosts = {"office.example"}
        self.assertEqual(
            paths.target_of("https://office.example/dav/books/a/b", hosts), "/dav/books/a/b"
        )
        self.assertEqual(paths.target_of("/dav/books/a/b", hosts), "/dav/books/a/b")
        for text in (
            "https://other.example/dav/x", "//office.example/x", "ftp://office.example/x", "",
            "https://office.example/x?y",
        ):
            with self.subTest(text):
                self.assertIsNone(paths.target_of(text, hosts))


class Xml(unittest.TestCase):
    """Bodies that are refused, and texts that are written."""

    def test_bodies_that_are_refused(self) -> None:
        deep = b"<a>" * 40 + b"</a>" * 40
        wide = b"<a>" + b"<b/>" * 20_001 + b"</a>"
        bad = [BOMB, b"<a", b"<!DOCTYPE a><a/>", deep, wide, b"\xff\xfe<a/>"]
        rows = {**dict.fromkeys(bad, 400), b"no": 415, b"{}": 415, b"\xff<a/>": 415}
        for body, status in rows.items():
            with self.subTest(body[:40]), self.assertRaises(Refusal) as caught:
                davxml.parsed(body)
            self.assertEqual((caught.exception.status, caught.exception.name), (status, "bad-xml"))

    def test_an_empty_body_is_none(self) -> None:
        self.assertIsNone(davxml.parsed(b" \n"))

    def test_texts_are_written_as_they_are(self) -> None:
        node = davxml.Node(
            davxml.d("a"), "x<&>\"\r\n\x01\ufffe", davxml.Node("{urn:x}b", c_d="1\"")
        )
        text = davxml.written(node)
        again = davxml.parsed(text)
        assert again is not None
        self.assertEqual(again.text, "x<&>\"\r\n\ufffd\ufffd")
        self.assertEqual(
            [(child.tag, child.attrib) for child in again], [("{urn:x}b", {"c-d": '1"'})]
        )

    def test_a_denial_names_resource_privilege_and_entry(self) -> None:
        detail = {
            "entry": {"from": "/people", "number": 1}, "privilege": "read",
            "resource": "/people/bob",
        }
        root = davxml.parsed(
            davxml.written(davxml.error(Refusal(403, "need-privileges", **detail)))
        )
        assert root is not None
        need = root.find(f"{davxml.d('need-privileges')}/{davxml.d('resource')}")
        assert need is not None
        self.assertEqual(need.findtext(davxml.d("href")), "/dav/people/bob/")
        self.assertIsNotNone(need.find(f"{davxml.d('privilege')}/{davxml.d('read')}"))
        denied = root.find(davxml.o("denied-by"))
        assert denied is not None
        self.assertEqual(
            (denied.get("number"), denied.findtext(davxml.d("href"))), ("1", "/dav/people/")
        )
        self.assertIn(
            "entry 1 of its list, which stands at /people, denies it",
            root.findtext(davxml.o("words")) or "",
        )


class Filters(unittest.TestCase):
    """addressbook-query."""

    text = (
        "BEGIN:VCARD\r\nVERSION:4.0\r\nFN:Anna Öz\r\nitem1.EMAIL;TYPE=\"home,"
        "work\":Anna@A.example\r\nNOTE:a\\, b\r\nEND:VCARD\r\n"
    )

    def holds(self, inner: str, attributes: str = "") -> bool:
        """Whether a filter holds of the card."""
        body = f'<c:filter xmlns:c="{davxml.CARD}" {attributes}>{inner}</c:filter>'
        return queries.filter_of(davxml.parsed(body.encode()))(self.text)

    def test_filters(self) -> None:
        match = '<c:prop-filter name="{}"><c:text-match {}>{}</c:text-match></c:prop-filter>'
        rows = [
            ("", True), ('<c:prop-filter name="FN"/>', True),
            ('<c:prop-filter name="TEL"/>', False),
            ('<c:prop-filter name="TEL"><c:is-not-defined/></c:prop-filter>', True),
            ('<c:prop-filter name="FN"><c:is-not-defined/></c:prop-filter>', False),
            (match.format("FN", "", "ANNA"), True),
            (match.format("FN", 'collation="i;octet"', "ANNA"), False),
            (match.format("FN", 'collation="i;ascii-casemap"', "ÖZ"), True),
            (match.format("FN", 'collation="i;ascii-casemap"', "öz"), False),
            (match.format("FN", "", "öz"), True),
            (match.format("FN", 'match-type="starts-with"', "öz"), False),
            (match.format("FN", 'match-type="ends-with"', "öz"), True),
            (match.format("FN", 'match-type="equals"', "anna öz"), True),
            (match.format("FN", 'negate-condition="yes"', "anna"), False),
            (match.format("FN", 'negate-condition="yes"', "bo"), True),
            (match.format("NOTE", "", "a, b"), True), (match.format("email", "", "anna@a"), True),
            (match.format("item1.EMAIL", "", "anna@a"), True),
            (match.format("item2.EMAIL", "", "anna@a"), False),
            ('<c:prop-filter name="EMAIL"><c:param-filter name="type"/></c:prop-filter>', True),
            (
                '<c:prop-filter name="EMAIL"><c:param-filter name="PREF"><c:is-not-defined/>'
                '</c:param-filter></c:prop-filter>',
                True,
            ),
            (
                '<c:prop-filter name="EMAIL"><c:param-filter name="TYPE"><c:text-match '
                'match-type="equals">work</c:text-match></c:param-filter></c:prop-filter>',
                True,
            ),
            (
                '<c:prop-filter name="EMAIL"><c:param-filter name="TYPE">'
                '<c:text-match>cell</c:text-match></c:param-filter></c:prop-filter>',
                False,
            ),
        ]
        for inner, wanted in rows:
            with self.subTest(inner):
                self.assertEqual(self.holds(inner), wanted)

    def test_any_and_all(self) -> None:
        both = '<c:prop-filter name="FN"/><c:prop-filter name="TEL"/>'
        self.assertTrue(self.holds(both))
        self.assertFalse(self.holds(both, 'test="allof"'))
        inner = (
            '<c:prop-filter name="FN" test="{}"><c:text-match>anna</c:text-match>'
            '<c:text-match>bo</c:text-match></c:prop-filter>'
        )
        self.assertTrue(self.holds(inner.format("anyof")))
        self.assertFalse(self.holds(inner.format("allof")))

    def test_what_is_not_known_is_refused(self) -> None:
        rows = {
            '<c:prop-filter name="FN"><c:text-match collation="i;basic">a</c:text-match>'
            '</c:prop-filter>': "supported-collation",
            '<c:prop-filter name="FN"><c:text-match match-type="near">a</c:text-match>'
            '</c:prop-filter>': "supported-filter",
            "<c:prop-filter/>": "supported-filter", "<c:x/>": "supported-filter",
            '<c:prop-filter name="FN" test="none"/>': "supported-filter",
        }
        for inner, name in rows.items():
            with self.subTest(inner), self.assertRaises(Refusal) as caught:
                self.holds(inner)
            self.assertEqual(caught.exception.name, name)

    def test_a_part_of_a_card(self) -> None:
        asked = properties.AddressData("4.0", frozenset({"FN", "NOTE"}), frozenset({"NOTE"}))
        self.assertEqual(
            properties.data_of(self.text, asked, "3.0"),
            "BEGIN:VCARD\r\nVERSION:4.0\r\nFN:Anna Öz\r\nNOTE:\r\nEND:VCARD\r\n",
        )


class Words(unittest.TestCase):
    """Refusals in words."""

    def test_words(self) -> None:
        self.assertEqual(
            words_of(
                {
                    "error": "need-privileges", "entry": None, "privilege": "bind",
                    "resource": "/books",
                }
            ),
            "You lack the privilege bind at /books: no entry grants it to you.",
        )
        self.assertEqual(
            words_of({"error": "bad-card", "fault": "no-fn", "line": 4}),
            "Line 4 of the card is refused (no-fn): there is no FN.",
        )
        self.assertEqual(words_of({"error": "something"}), "The request is refused.")

    def test_a_reply_that_cannot_be_read_is_unavailable(self) -> None:
        for body in (b"", b"<html>", b"[]", b'{"x":1}', b'{"error":1}'):
            self.assertEqual(refusal_of(404, body).name, "unavailable")
        self.assertEqual(
            refusal_of(403, b'{"error":"bad-card","fault":"twice","line":3}').detail,
            {"error": "bad-card", "fault": "twice", "line": 3},
        )


class Heads(unittest.TestCase):
    """Fields of requests."""

    def test_accept(self) -> None:
        rows = {
            "": False, "text/vcard": False, "*/*": False, "text/vcard; version=3.0": True,
            "text/vcard;version=4.0, text/vcard;version=3.0;q=0.5": False,
            "text/vcard;version=3.0, */*": True, 'text/vcard; version="3.0"': True,
            "text/vcard;version=3.0;q=x": False,
        }
        for field, wanted in rows.items():
            with self.subTest(field):
                self.assertEqual(accepts_three(field), wanted)

    def test_tags(self) -> None:
        self.assertTrue(has_tag('"a", "b"', '"b"'))
        self.assertFalse(has_tag('W/"b"', '"b"'))
        self.assertTrue(has_tag('W/"b"', '"b"', weak=True))
        self.assertFalse(has_tag("b", '"b"'))
        self.assertFalse(has_tag('"a"', None))
        self.assertNotEqual(tag_of("a"), tag_of("b"))

    def test_basic(self) -> None:
        self.assertEqual(basic_of("Basic YTpiOmM="), ("a", "b:c"))
        for field in ("", "Basic", "Basic !!", "Bearer YTpi", "Basic YWI=", "Basic /w=="):
            self.assertEqual(basic_of(field), ("", ""))

    def test_who_takes_gzip(self) -> None:
        for field in ("gzip", "deflate, GZip;q=0.5", "br , gzip ; q=0.001", "gzip;q=1"):
            self.assertTrue(takes_gzip(field), field)
        for field in ("", "identity", "gzip;q=0", "br, gzip; q=0.000", "xgzip", "deflate;gzip"):
            self.assertFalse(takes_gzip(field), field)

    def test_fields_without_case(self) -> None:
        fields = CaselessFields({"If-Match": "x"})
        self.assertEqual(
            (
                fields["IF-MATCH"], fields.get("if-match"), "if-match" in fields,
                fields.get("Depth", "0"),
            ),
            ("x", "x", True, "0"),
        )

    def test_hosts(self) -> None:
        self.assertEqual(
            hosts_of("https://office.example"), ["office.example", "office.example:443"]
        )
        self.assertEqual(hosts_of("http://127.0.0.1:80"), ["127.0.0.1:80"])


class Config(unittest.TestCase):
    """Settings that the gateway does not start with."""

    def load(self, text: str):
        """The settings of a text."""
        with tempfile.TemporaryDirectory() as folder:
            path = Path(folder) / "gateway.toml"
            path.write_text(text)
            return load(path)

    def test_settings(self) -> None:
        settings = self.load(
            '[listen]\nport = 1\n[people]\nservice = "l"\n[people.names]\n"a@b" = "a"\n[server]\n'
            'keep_connections = true\nconnections = 8\nsocket = "/run/book_desk/socket"\n'
        )
        self.assertEqual(
            (settings.listen.port, settings.people.names, settings.server.keep_connections),
            (1, {"a@b": "a"}, True),
        )
        self.assertEqual(settings.server.socket, "/run/book_desk/socket")
        self.assertEqual(settings.origins(), ("http://127.0.0.1:1", "http://localhost:1"))

    def test_faults(self) -> None:
        rows = [
            "x = 1", "[other]", "[listen]\nport = \"1\"", "[listen]\nnone = 1",
            "[listen]\nhost = \"0.0.0.0\"", "[server]\nhost = \"10.0.0.1\"",
            "[listen]\ncertificate = \"a\"", "[listen]\ncertificate = \"a\"\nkey = \"b\"",
            "[people]\nservice = \"../x\"", "[people]\nservice = \"l\"\n[people.names]\na = \"l\"",
            "[people.names]\na = 1", "[cards]\nunversioned = \"2.1\"",
            "[listen]\norigins = [\"https://a/\"]", "[listen]\nport = true",
            "[server]\nconnections = 0", "[server]\nsocket = \"run/socket\"", "not toml",
        ]
        for text in rows:
            with self.subTest(text), self.assertRaises(ConfigFault):
                self.load(text)

    def test_a_fault_names_file_table_and_key_as_they_are_written(self) -> None:
        rows = {
            "[listen]\nport = \"1\"": "[listen] port is to be a whole number, and is '1'",
            "[server]\nconections = 1": "[server] conections: there is no such key; [server] has",
            "[serve]": "[serve]: there is no such table; there are listen, server,",
            "[people.names]\n\"a@b\" = 1": "[people.names] \"a@b\" is to be the name of a person",
            "[offered.sales]\nnames = \"ann\"": "[offered.sales] names is to be a list of texts",
            "[offered.\"a b\"]": "[offered.a b]: a b is no name of a book",
            "[listen]\nport = ": "Invalid value (at end of document)",
        }
        for text, wanted in rows.items():
            with self.subTest(text), self.assertRaises(ConfigFault) as caught:
                self.load(text)
            self.assertRegex(str(caught.exception), r"^/.*/gateway\.toml: ")
            self.assertIn(wanted, str(caught.exception))

    def test_a_setting_whose_package_is_not_there_names_it(self) -> None:
        with unittest.mock.patch("office_gateway.photos.Image", None):
            with self.assertRaises(ConfigFault) as caught:
                self.load("")
            self.assertIn(
                "[cards] shrink_photos wants the package python3-pil", str(caught.exception)
            )
            self.assertFalse(self.load("[cards]\nshrink_photos = false").cards.shrink_photos)

    def test_the_gateway_s_own_files(self) -> None:
        self.assertEqual(self.load("").files.folder.name[:3], "tmp")
        self.assertEqual(self.load("[files]\nfolder = \"/x\"").files.folder, Path("/x"))
        with unittest.mock.patch.dict("os.environ", {"STATE_DIRECTORY": "/var/lib/o"}):
            self.assertEqual(self.load("").files.folder, Path("/var/lib/o"))

    def test_offers(self) -> None:
        offer = self.load("[offered.sales]\nadd = [\"eve\"]\ncards.kim = [\"a.vcf\"]").offered[
            "sales"
        ]
        self.assertEqual((offer.add, offer.cards), (("eve",), {"kim": ("a.vcf",)}))
        self.assertEqual([offer.has(one) for one in ("eve", "kim", "ann")], [True, True, False])


class Secrets(unittest.IsolatedAsyncioTestCase):
    """Passwords and sessions."""

    async def test_passwords(self) -> None:
        with tempfile.TemporaryDirectory() as folder:
            path = Path(folder) / "passwords"
            hashed = bcrypt.hashpw(b"right", bcrypt.gensalt(10)).decode()
            apache = hashed.replace("$2b$", "$2y$")
            path.write_text(
                f"head:{hashed}\na@b.example:{apache}\nlister:{hashed}\nno/name:{hashed}\n"
            )
            passwords = Passwords(
                People(passwords=path, service="lister", names={"a@b.example": "anna"})
            )
            self.assertEqual(await passwords.check("head", "right"), "head")
            self.assertEqual(await passwords.check("head", "right"), "head")
            self.assertEqual(await passwords.check("a@b.example", "right"), "anna")
            rows = [
                ("head", "wrong"), ("head", ""), ("none", "right"), ("lister", "right"),
                ("no/name", "right"), ("head", "right\0"), ("head", "x" * 100), ("", ""),
            ]
            for login, password in rows:
                with self.subTest(login=login):
                    self.assertIsNone(await passwords.check(login, password))
            mark = passwords.mark("head")
            path.write_text(f"head:{bcrypt.hashpw(b'newer', bcrypt.gensalt(10)).decode()}\n")
            await asyncio.sleep(1.1)
            self.assertIsNone(await passwords.check("head", "right"))
            self.assertEqual(await passwords.check("head", "newer"), "head")
            self.assertNotEqual(passwords.mark("head"), mark)
            self.assertIsNone(passwords.mark("a@b.example"))
            passwords.close()

    async def test_a_name_that_is_not_there_costs_a_check_too(self) -> None:
        checked = []

        def fitting(given: bytes, wanted: bytes) -> bool:
            checked.append(wanted[:7])
            return bcrypt.checkpw(given, wanted)

        with tempfile.TemporaryDirectory() as folder:
            path = Path(folder) / "passwords"
            path.write_text(f"head:{bcrypt.hashpw(b'right', bcrypt.gensalt(11)).decode()}\n")
            with unittest.mock.patch("office_gateway.passwords.fitting", fitting):
                passwords = Passwords(People(passwords=path))
                for login in ("head", "nobody", "lister"):
                    self.assertIsNone(await passwords.check(login, "wrong"))
                self.assertEqual(await passwords.check("head", "right"), "head")
                self.assertEqual(await passwords.check("head", "right"), "head")
            passwords.close()
        self.assertEqual(checked, [b"$2b$11$"] * 4)

    def test_hashes_of_other_kinds_are_left_out(self) -> None:
        with self.assertLogs("office_gateway", "ERROR"):
            rows = "a:{SHA}x\nb:plain\n# c\n\nd:$2y$31$" + "a" * 53 + "\ne:$2y$09$" + "a" * 53
            self.assertEqual(hashes_of(rows), {})

    def test_a_password_that_is_cheap_to_guess_is_refused_at_the_start(self) -> None:
        with tempfile.TemporaryDirectory() as folder:
            path = Path(folder) / "passwords"
            path.write_text("# office\nann:$2y$05$" + "a" * 53 + "\n")
            with self.assertRaises(ConfigFault) as caught:
                Passwords(People(passwords=path))
        self.assertIn(f"{path}: line 2: the password of ann", str(caught.exception))
        self.assertTrue(str(caught.exception).endswith(f"htpasswd -B -C 12 {path} ann"))

    def test_sessions(self) -> None:
        sessions = Sessions(0.05, "session")
        word = sessions.begin("a@b", "a", b"m")
        found = sessions.person(word)
        assert found is not None
        self.assertEqual((found.login, found.person, found.mark), ("a@b", "a", b"m"))
        self.assertIsNone(sessions.person(word + "x"))
        time.sleep(0.06)
        self.assertIsNone(sessions.person(word))
        word = Sessions(9, "session").begin("a", "a", None)
        self.assertIsNone(sessions.person(word))


class Guessing(unittest.IsolatedAsyncioTestCase):
    """Sign-ins that fail wait, by name and by address."""

    def setUp(self) -> None:
        self.guesses = guesses.Guesses()
        self.slept: list[float] = []

        async def sleep(seconds: float) -> None:
            self.slept.append(round(seconds, 1))

        for target, other in (("asyncio.sleep", sleep), ("time.monotonic", lambda: self.now)):
            patch = unittest.mock.patch(f"office_gateway.guesses.{target}", other)
            patch.start()
            self.addCleanup(patch.stop)
        logger = unittest.mock.patch("office_gateway.guesses.LOG")
        self.log = logger.start()
        self.addCleanup(logger.stop)
        self.now = 1_000.0

    async def guess(self, login: str, address: str, *passwords: str) -> list[float]:
        """How long each of these wrong passwords waits."""
        self.slept.clear()
        for password in passwords:
            await self.guesses.turn(login, address)
            self.guesses.failed(login, address, password.encode())
        return list(self.slept)

    async def test_each_further_guess_waits_longer(self) -> None:
        waits = await self.guess("ann", "192.0.2.1", *"abcdefgh")
        self.assertEqual(waits, [0.0] * 5 + [0.2, 0.5, 1.0])

    async def test_the_same_wrong_password_counts_once(self) -> None:
        self.assertEqual(await self.guess("ann", "192.0.2.1", *"aaaaaaaaaaaa"), [0.0] * 12)

    async def test_guesses_are_counted_by_name_and_by_address(self) -> None:
        await self.guess("ann", "192.0.2.1", *"abcde")
        self.assertNotEqual(await self.guess("ann", "192.0.2.2", "x"), [0.0])
        self.assertNotEqual(await self.guess("bob", "192.0.2.1", "x"), [0.0])
        self.assertEqual(await self.guess("bob", "192.0.2.2", "x"), [0.0])
        await self.guess("eve", "2001:db8::1", *"abcde")
        self.assertNotEqual(await self.guess("kim", "2001:db8::2", "x"), [0.0])
        self.assertEqual(await self.guess("kim", "2001:db8:0:1::1", "y"), [0.0])

    async def test_nobody_is_kept_out_by_the_guesses_of_others(self) -> None:
        self.guesses.succeeded("ann", "198.51.100.7")
        await self.guess("ann", "192.0.2.1", *"abcdefgh")
        self.assertEqual(await self.guess("ann", "198.51.100.7", "typo"), [0.0])

    async def test_too_many_at_once_are_refused(self) -> None:
        await self.guess("ann", "192.0.2.1", *"abcdefghijk")
        with self.assertRaises(Refusal) as caught:
            for _ in range(9):
                await self.guesses.turn("ann", "192.0.2.1")
        self.assertEqual(caught.exception.status, 429)
        self.now += 900.1
        self.assertEqual(await self.guess("ann", "192.0.2.1", "new"), [0.0])

    async def test_the_log_names_the_address_before_the_name(self) -> None:
        await self.guess("a'\nWARNING sign-in failed from 9.9.9.9 as", "192.0.2.1", "x")
        form, *words = self.log.warning.call_args.args
        self.assertEqual(
            form % tuple(words),
            "sign-in failed from 192.0.2.1 as "
            "\"a'\\nWARNING sign-in failed from 9.9.9.9 as\"",
        )


class OneByOne(unittest.IsolatedAsyncioTestCase):
    """Locks of books."""

    async def test_locks(self) -> None:
        locks, order = Locks(), []

        async def work(name: str, *keys: str) -> None:
            async with locks.hold(*keys):
                order.append(f"{name} in")
                await asyncio.sleep(0.01)
                order.append(f"{name} out")

        await asyncio.gather(work("a", "x", "y"), work("b", "y", "x"), work("c", "y", "y"))
        self.assertEqual([word.split()[1] for word in order], ["in", "out"] * 3)
        self.assertEqual(len(locks), 0)

    async def test_a_lock_is_let_go_on_a_fault(self) -> None:
        locks = Locks()
        with self.assertRaises(ValueError):
            async with locks.hold("x"):
                raise ValueError
        self.assertEqual(len(locks), 0)


class Files(unittest.TestCase):
    """Files of many cards, and cards as people read them."""

    def test_cards_of_a_file(self) -> None:
        text = "BEGIN:VCARD\nFN:A\nEND:VCARD\n\nBEGIN:VCARD\r\nFN:B\r\nEND:VCARD\r\nleft over\n"
        self.assertEqual(
            [card.strip().splitlines()[0] for card in vcard.cards_of(text)],
            ["BEGIN:VCARD", "BEGIN:VCARD", "left over"],
        )

    def test_names(self) -> None:
        self.assertEqual(imports.name_of("BEGIN:VCARD\nUID:urn:uuid:abc-1\nEND:VCARD"), "abc-1.vcf")
        self.assertEqual(
            imports.name_of("BEGIN:VCARD\nUID:a@b\nEND:VCARD"),
            imports.name_of("BEGIN:VCARD\nFN:X\nUID:a@b\nEND:VCARD"),
        )
        self.assertTrue(paths.is_name(imports.name_of("no card")))

    def test_components(self) -> None:
        self.assertEqual(vcard.components("a\\;b;;c\\\\;d"), ["a\\;b", "", "c\\\\", "d"])
        self.assertEqual(vcard.components(""), [""])

    def test_bad_lines(self) -> None:
        for line in (
            "x", ":a", "A;:b", "A;B:c", "A;B=\"c:d", "A;B=c\"d:e", "\u00e4:b", "A.:b", "A:\x01",
        ):
            with self.subTest(line), self.assertRaises(vcard.BadLine):
                vcard.parsed(line, 1)
        line = vcard.parsed('g.TEL;TYPE=a,"b:c";X=:v;w', 1)
        self.assertEqual(
            (line.group, line.name, line.params, line.value),
            ("g", "TEL", [("TYPE", ["a", "b:c"]), ("X", [""])], "v;w"),
        )
        self.assertEqual(line.text(), 'g.TEL;TYPE=a,"b:c";X=:v;w')


if __name__ == "__main__":
    unittest.main()
