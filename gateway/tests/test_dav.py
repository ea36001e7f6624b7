"""A CardDAV conversation of each method, over the server's program."""
from __future__ import annotations

import unittest
import uuid
from pathlib import Path
from xml.etree.ElementTree import Element, fromstring

from office_gateway import davxml
from tests.world import World, program

D, C = "{DAV:}", "{urn:ietf:params:xml:ns:carddav}"
CORPUS = Path(__file__).resolve().parent / "corpus"
SALES = "/dav/books/sales/"


def vcard(name: str, *lines: str, version: str = "4.0") -> str:
    """A card with this name, and a UID of it where the lines have none."""
    if not any(line.startswith("UID") for line in lines):
        lines = (*lines, f"UID:urn:uuid:{uuid.uuid5(uuid.NAMESPACE_OID, name)}")
    return "\r\n".join(["BEGIN:VCARD", f"VERSION:{version}", f"FN:{name}", *lines, "END:VCARD", ""])


def propfind(*names: str) -> str:
    """A body that asks for properties; those of CardDAV begin with c:."""
    inner = "".join(f"<{name}/>" if name.startswith("c:") else f"<d:{name}/>" for name in names)
    return (
        f'<d:propfind xmlns:d="DAV:" xmlns:c="urn:ietf:params:xml:ns:carddav">'
        f'<d:prop>{inner}</d:prop></d:propfind>'
    )


def sync(token: str = "", limit: int = 0) -> str:
    """A body that asks what changed since a token."""
    some = f"<d:limit><d:nresults>{limit}</d:nresults></d:limit>" if limit else ""
    return (
        f'<d:sync-collection xmlns:d="DAV:"><d:sync-token>{token}</d:sync-token>'
        f'<d:sync-level>1</d:sync-level>{some}<d:prop><d:getetag/></d:prop></d:sync-collection>'
    )


def multiget(*hrefs: str, data: str = "<c:address-data/>") -> str:
    """A body that asks for these cards."""
    inner = "".join(f"<d:href>{href}</d:href>" for href in hrefs)
    return (
        f'<c:addressbook-multiget xmlns:d="DAV:" xmlns:c="urn:ietf:params:xml:ns:carddav"><d:prop>'
        f'<d:getetag/>{data}</d:prop>{inner}</c:addressbook-multiget>'
    )


def responses(body: bytes) -> dict[str, Element]:
    """The responses of a multistatus by href."""
    return {
        response.findtext(f"{D}href") or "": response
        for response in fromstring(body).findall(f"{D}response")
    }


def status(response: Element) -> str:
    """The status of a response, or of its first properties."""
    line = response.findtext(f"{D}status") or response.findtext(f"{D}propstat/{D}status") or ""
    return line.split(" ")[1]


def prop(response: Element, name: str) -> Element | None:
    """A property that was found."""
    for told in response.findall(f"{D}propstat"):
        if (
            " 200 " in (told.findtext(f"{D}status") or "")
            and told.find(f"{D}prop/{name}") is not None
        ):
            return told.find(f"{D}prop/{name}")
    return None


def text_of(response: Element, name: str) -> str:
    """The text of a property that was found."""
    found = prop(response, name)
    return "" if found is None else found.text or ""


class Syncing:
    """A client that syncs a book as a person, with a limit where it is not 0."""

    def __init__(self, world: World, person: str, book: str, limit: int = 0):
        self.world, self.person, self.book, self.limit = world, person, book, limit
        self.token = ""
        self.tags: dict[str, str] = {}
        self.heard: list[str] = []
        self.statuses: list[int] = []

    def sync(self) -> None:
        """A sync to its end. What was told is in `heard`, the statuses in `statuses`."""
        self.heard, self.statuses = [], []
        while len(self.statuses) < 50:
            told = self.world.say(self.person, "REPORT", self.book, sync(self.token, self.limit))
            self.statuses.append(told.status)
            if told.status != 207:
                return
            found = responses(told.body)
            more = found.pop(self.book, None) is not None
            assert not self.limit or len(found) <= self.limit
            for href, response in found.items():
                self.heard.append(href)
                self.tags.pop(href, None)
                if status(response) == "200":
                    self.tags[href] = text_of(response, f"{D}getetag")
            self.token = fromstring(told.body).findtext(f"{D}sync-token") or ""
            if not more:
                return

    def listed(self) -> dict[str, str]:
        """The tags of the cards as a listing has them."""
        told = self.world.say(self.person, "PROPFIND", self.book, propfind("getetag"), Depth="1")
        found = responses(told.body)
        return {href: text_of(found[href], f"{D}getetag") for href in found if href != self.book}


@unittest.skipUnless(program(), "the server's program is named in BOOK_DESK, or made by make build")
class Conversation(unittest.TestCase):
    """One server and one gateway for all; before each test the books are empty, and as the policy
    has them."""

    world: World

    @classmethod
    def setUpClass(cls) -> None:
        cls.world = World()
        acl = cls.world.say("head", "PROPFIND", "/books", {"prop": ["acl"]}).json()["responses"][0][
            "prop"
        ]["acl"]
        cls.list = [
            entry for entry in acl if not entry.get("protected") and "inherited" not in entry
        ]

    @classmethod
    def tearDownClass(cls) -> None:
        logged = cls.world.logged()
        cls.world.close()
        if "Traceback" in logged:
            raise AssertionError(logged[logged.index("Traceback") :][:3000])

    def setUp(self) -> None:
        self.say = self.world.say
        for book in ("sales", "law"):
            told = self.say(
                "head", "REPORT", f"/books/{book}", {"report": "sync-collection", "sync-token": ""}
            ).json()
            for response in told["responses"]:
                self.say("head", "DELETE", response["href"])

    def tearDown(self) -> None:
        self.say("head", "PROPPATCH", "/books/sales", {"set": {"displayname": "Verkauf"}})
        for book in ("new", "again"):
            self.say("head", "DELETE", f"/books/{book}")
        self.assertEqual(self.say("head", "ACL", "/books", {"acl": self.list}).status, 200)

    def test_discovery(self) -> None:
        found = self.say("", "GET", "/.well-known/carddav")
        self.assertEqual((found.status, found.fields["Location"]), (301, "/dav/"))
        for target in ("/dav/", "/"):
            told = self.say(
                "guest", "PROPFIND", target, propfind("current-user-principal"),
                Content_Type="application/xml",
            )
            [response] = responses(told.body).values()
            self.assertEqual(
                response.findtext(f".//{D}current-user-principal/{D}href"), "/dav/people/guest/"
            )
        told = self.say(
            "guest", "PROPFIND", "/dav/people/guest/",
            propfind("c:addressbook-home-set", "resourcetype", "displayname"),
        )
        [response] = responses(told.body).values()
        self.assertEqual(response.findtext(f".//{C}addressbook-home-set/{D}href"), "/dav/books/")
        self.assertIsNotNone(response.find(f".//{D}resourcetype/{D}principal"))
        told = self.say(
            "guest", "PROPFIND", "/dav/books/",
            propfind("resourcetype", "displayname", "sync-token"), Depth="1",
        )
        self.assertEqual(sorted(responses(told.body)), ["/dav/books/", SALES])
        self.assertEqual(text_of(responses(told.body)[SALES], f"{D}displayname"), "Verkauf")
        told = self.say("head", "PROPFIND", "/dav/books/", propfind("resourcetype"), Depth="1")
        self.assertEqual(sorted(responses(told.body)), ["/dav/books/", "/dav/books/law/", SALES])
        options = self.say("head", "OPTIONS", SALES)
        classes = options.fields["DAV"].split(", ")
        self.assertEqual((options.status, "addressbook" in classes), (200, True))
        self.assertNotIn("access-control", classes)
        self.assertEqual(
            self.say("guest", "PROPFIND", "/dav/people/head/", propfind("displayname")).status, 403
        )
        refused = self.say("guest", "PROPFIND", "/dav/", propfind("displayname"), Depth="infinity")
        self.assertEqual(refused.status, 403)
        self.assertIsNotNone(fromstring(refused.body).find(f"{D}propfind-finite-depth"))

    def test_rights_are_told_as_the_server_tells_them(self) -> None:
        told = self.say(
            "assistant", "PROPFIND", SALES,
            propfind("current-user-privilege-set", "owner", "c:supported-address-data"),
        )
        [response] = responses(told.body).values()
        found = prop(response, f"{D}current-user-privilege-set")
        assert found is not None
        self.assertEqual(
            [element.tag for privilege in found for element in privilege],
            [
                D + "read", davxml.o("x-read-texts"),
                *(
                    D + name
                    for name in (
                        "write-content", "write-properties", "bind", "read-acl",
                        "read-current-user-privilege-set",
                    )
                ),
                davxml.o("x-read-names"),
            ],
        )
        self.assertEqual(response.findtext(f".//{D}owner/{D}href"), "/dav/people/head/")
        told = self.say(
            "guest", "PROPFIND", SALES, propfind("current-user-privilege-set", "displayname")
        )
        [response] = responses(told.body).values()
        self.assertEqual([line.text for line in response.iter(f"{D}status")], ["HTTP/1.1 200 OK"])
        found = prop(response, f"{D}current-user-privilege-set")
        assert found is not None
        self.assertEqual([one.tag for privilege in found for one in privilege], [D + "read"])

    def test_put_get_delete_under_tags(self) -> None:
        card = vcard("Bo")
        put = self.say(
            "assistant", "PUT", SALES + "b.vcf", card, If_None_Match="*", Content_Type="text/vcard"
        )
        self.assertEqual(put.status, 201)
        got = self.say("guest", "GET", SALES + "b.vcf")
        self.assertEqual(
            (got.status, got.text, got.fields["ETag"]), (200, card, put.fields["ETag"])
        )
        head = self.say("guest", "HEAD", SALES + "b.vcf")
        self.assertEqual(
            (head.status, head.body, head.fields["Content-Length"]), (200, b"", str(len(card)))
        )
        self.assertEqual(
            self.say("guest", "GET", SALES + "b.vcf", If_None_Match=got.fields["ETag"]).status, 304
        )
        self.assertEqual(
            self.say("assistant", "PUT", SALES + "b.vcf", card, If_None_Match="*").status, 412
        )
        newer = self.say("head", "PUT", SALES + "b.vcf", vcard("Bob"), If_Match=put.fields["ETag"])
        self.assertEqual(newer.status, 204)
        stale = self.say(
            "assistant", "PUT", SALES + "b.vcf", vcard("Robert"), If_Match=put.fields["ETag"]
        )
        self.assertEqual(stale.status, 412)
        self.assertEqual(self.say("guest", "GET", SALES + "b.vcf").text, vcard("Bob"))
        self.assertEqual(
            self.say("head", "DELETE", SALES + "b.vcf", If_Match=put.fields["ETag"]).status, 412
        )
        refused = self.say("assistant", "DELETE", SALES + "b.vcf", If_Match=newer.fields["ETag"])
        self.assertEqual(refused.status, 403)
        self.assertIn("You lack the privilege unbind at /books/sales", refused.text)
        self.assertEqual(
            self.say("head", "DELETE", SALES + "b.vcf", If_Match=newer.fields["ETag"]).status, 204
        )
        self.assertEqual(self.say("head", "GET", SALES + "b.vcf").status, 404)
        self.assertEqual(self.say("head", "PUT", SALES + "b.vcf", card, If_Match="*").status, 412)
        self.assertEqual(self.say("guest", "PUT", SALES + "g.vcf", card).status, 403)

    def test_a_book_made_again_has_other_tags(self) -> None:
        tags = []
        for name in ("Eins", "Zwei"):
            self.assertEqual(self.say("head", "MKCOL", "/dav/books/new/").status, 201)
            put = self.say("head", "PUT", "/dav/books/new/a.vcf", vcard(name))
            self.assertEqual(put.status, 201)
            tags.append(put.fields["ETag"])
            self.assertEqual(self.say("head", "DELETE", "/dav/books/new/").status, 204)
        self.assertNotEqual(tags[0], tags[1])

    def test_a_client_follows_a_book_that_is_made_again(self) -> None:
        book, rounds = "/dav/books/new/", (
            {"a": "A", "b": "B", "c": "C"}, {"a": "Z", "b": "B", "d": "D"},
        )
        client = Syncing(self.world, "head", book)
        for texts in rounds:
            self.assertEqual(self.say("head", "MKCOL", book).status, 201)
            for name, text in texts.items():
                self.say("head", "PUT", book + name, vcard(text))
            client.sync()
            self.assertEqual(client.tags, client.listed())
            self.say("head", "DELETE", book)
        self.assertEqual(sorted(client.heard), [book + name for name in "acd"])

    def test_the_denied_card_is_never_told(self) -> None:
        self.say("head", "PUT", SALES + "open.vcf", vcard("Offen"))
        self.say("head", "PUT", SALES + "shut.vcf", vcard("Geheim"))
        deny = {"acl": [{"deny": ["read"], "principal": "/people/guest"}]}
        before = self.say("guest", "REPORT", SALES, sync())
        self.assertEqual(self.say("head", "ACL", "/books/sales/shut.vcf", deny).status, 200)
        token = fromstring(before.body).findtext(f"{D}sync-token")
        later = self.say("guest", "REPORT", SALES, sync(token or ""))
        self.assertEqual(later.status, 207)
        told = responses(later.body)
        self.assertEqual({href: status(told[href]) for href in told}, {SALES + "shut.vcf": "404"})
        self.assertNotIn("Geheim", later.text)
        hrefs = (SALES + "open.vcf", SALES + "shut.vcf")
        query = (
            '<c:addressbook-query xmlns:d="DAV:" xmlns:c="urn:ietf:params:xml:ns:carddav"><d:prop>'
            '<c:address-data/></d:prop></c:addressbook-query>'
        )
        for body, method in (
            (sync(), "REPORT"), (multiget(*hrefs), "REPORT"), (query, "REPORT"),
            (propfind("getetag"), "PROPFIND"),
        ):
            told = self.say("guest", method, SALES, body, Depth="1")
            self.assertEqual(told.status, 207)
            self.assertNotIn("Geheim", told.text)
            found = responses(told.body)
            self.assertEqual(status(found[hrefs[0]]), "200")
            self.assertIn(status(found[hrefs[1]]) if hrefs[1] in found else "404", ("404",))
        denied = self.say("guest", "GET", hrefs[1])
        self.assertEqual(denied.status, 403)
        self.assertIn("which stands at /books/sales/shut.vcf, denies it", denied.text)
        self.assertEqual(
            self.say("guest", "PUT", hrefs[1], vcard("X"), If_None_Match="*").status, 412
        )

    def test_a_change_of_access_elsewhere_ends_no_sync(self) -> None:
        for name in ("a.vcf", "b.vcf", "c.vcf"):
            self.say("head", "PUT", SALES + name, vcard(name))
        self.say("head", "PUT", "/dav/books/law/one.vcf", vcard("One"))
        clients = [
            Syncing(self.world, person, SALES, limit)
            for person in ("guest", "head")
            for limit in (0, 2)
        ]
        for client in clients:
            client.sync()
            self.assertEqual(client.tags, client.listed())
        share = {"acl": [{"grant": ["read"], "principal": "/people/guest"}]}
        self.assertEqual(self.say("head", "ACL", "/books/law/one.vcf", share).status, 200)
        for client in clients:
            client.sync()
            self.assertEqual((client.heard, client.statuses), ([], [207]))
        self.say("head", "PUT", SALES + "d.vcf", vcard("D"))
        self.say("head", "DELETE", SALES + "a.vcf")
        for client in clients:
            client.sync()
            self.assertEqual(sorted(client.heard), [SALES + "a.vcf", SALES + "d.vcf"])
            self.assertEqual(client.tags, client.listed())

    def test_what_access_takes_and_gives_is_told(self) -> None:
        names = [f"{SALES}{number}.vcf" for number in range(6)]
        for name in names:
            self.say("head", "PUT", name, vcard(name))
        clients = [Syncing(self.world, "guest", SALES, limit) for limit in (0, 2)]
        for client in clients:
            client.sync()
        deny = {"acl": [{"deny": ["read"], "principal": "/people/guest"}]}
        for name in names[:3]:
            self.say("head", "ACL", name.removeprefix("/dav"), deny)
        self.say("head", "PUT", names[4], vcard("Neu"))
        for client in clients:
            client.sync()
            self.assertEqual(sorted(client.heard), [*names[:3], names[4]])
            self.assertEqual(client.tags, client.listed())
        for name in names[:3]:
            self.say("head", "ACL", name.removeprefix("/dav"), {"acl": []})
        for client in clients:
            client.sync()
            self.assertEqual(sorted(client.heard), names[:3])
            self.assertEqual(client.tags, client.listed())

    def test_a_token_of_a_listing_is_remembered(self) -> None:
        self.say("head", "PUT", SALES + "a.vcf", vcard("A"))
        listed = self.say("guest", "PROPFIND", SALES, propfind("getetag"), Depth="1")
        self.assertEqual(listed.status, 207)
        told = self.say(
            "guest", "PROPFIND", SALES, propfind("displayname", "sync-token"), Depth="0"
        )
        token = text_of(responses(told.body)[SALES], f"{D}sync-token")
        self.assertEqual(self.say("head", "ACL", "/books", {"acl": self.list}).status, 200)
        later = self.say("guest", "REPORT", SALES, sync(token))
        self.assertEqual((later.status, responses(later.body)), (207, {}))

    def test_a_token_that_nobody_gave_is_refused(self) -> None:
        for token in (
            "data:,sales/1/999", "data:,law/1/0", "data:,sales/0/0", "x", "data:,sales/1/0/7",
        ):
            refused = self.say("guest", "REPORT", SALES, sync(token))
            with self.subTest(token):
                self.assertEqual(refused.status, 400)
                self.assertIsNotNone(fromstring(refused.body).find(f"{D}valid-sync-token"))

    def test_what_is_remembered_outlasts_the_gateway(self) -> None:
        self.say("head", "PUT", SALES + "a.vcf", vcard("A"))
        client = Syncing(self.world, "guest", SALES)
        client.sync()
        self.world.gateway.terminate()
        self.world.gateway.wait(15)
        self.assertTrue((self.world.path / "told.db").exists())
        self.world.start_gateway()
        self.assertEqual(self.say("head", "ACL", "/books", {"acl": self.list}).status, 200)
        client.sync()
        self.assertEqual((client.heard, client.statuses), ([], [207]))

    def test_reports(self) -> None:
        for name in ("anna", "bert", "cem"):
            self.say(
                "head", "PUT", f"{SALES}{name}.vcf",
                vcard(name.title(), f"EMAIL;TYPE=work:{name}@a.example"),
            )
        told = self.say(
            "head", "REPORT", SALES,
            multiget(
                SALES + "anna.vcf", f"http://127.0.0.1:{self.world.port}{SALES}cem.vcf",
                SALES + "no.vcf", "/other",
            ),
        )
        found = responses(told.body)
        self.assertEqual(
            {href: status(found[href]) for href in found},
            {
                SALES + "anna.vcf": "200", SALES + "cem.vcf": "200", SALES + "no.vcf": "404",
                "/other": "404",
            },
        )
        self.assertIn("VERSION:3.0", text_of(found[SALES + "anna.vcf"], f"{C}address-data"))
        told = self.say(
            "head", "REPORT", SALES,
            multiget(
                SALES + "anna.vcf", data='<c:address-data content-type="text/vcard" version="4.0"/>'
            ),
        )
        self.assertEqual(
            text_of(responses(told.body)[SALES + "anna.vcf"], f"{C}address-data"),
            vcard("Anna", "EMAIL;TYPE=work:anna@a.example"),
        )
        query = (
            '<c:addressbook-query xmlns:d="DAV:" xmlns:c="urn:ietf:params:xml:ns:carddav"><d:prop>'
            '<d:getetag/></d:prop><c:filter><c:prop-filter name="EMAIL"><c:text-match '
            'match-type="starts-with">{}</c:text-match></c:prop-filter>'
            '</c:filter>{}</c:addressbook-query>'
        )
        told = self.say("head", "REPORT", SALES, query.format("bert@", ""))
        self.assertEqual(list(responses(told.body)), [SALES + "bert.vcf"])
        told = self.say(
            "head", "REPORT", SALES,
            query.format("", "<c:limit><c:nresults>2</c:nresults></c:limit>"),
        )
        self.assertEqual(
            {href: status(node) for href, node in responses(told.body).items()},
            {SALES + "anna.vcf": "200", SALES + "bert.vcf": "200", SALES: "507"},
        )
        other = multiget("x", data='<c:address-data version="2.1"/>')
        deep = sync().replace(">1<", ">infinite<")
        rows = [
            (other, f"{C}supported-address-data"),
            ('<d:expand-property xmlns:d="DAV:"/>', f"{D}supported-report"),
            (deep, f"{D}sync-traversal-supported"),
        ]
        for body, name in rows:
            refused = self.say("head", "REPORT", SALES, body)
            self.assertEqual(refused.status, 403)
            self.assertIsNotNone(fromstring(refused.body).find(name))

    def test_sync_with_a_limit_tells_all_in_turn(self) -> None:
        names = [f"c{number}.vcf" for number in range(7)]
        for name in names:
            self.say("head", "PUT", SALES + name, vcard(name))
        known = (
            fromstring(self.say("head", "REPORT", SALES, sync()).body).findtext(f"{D}sync-token")
            or ""
        )
        for name in names[:4]:
            self.say("head", "DELETE", SALES + name)
        start = self.say("head", "REPORT", SALES, sync())
        token = fromstring(start.body).findtext(f"{D}sync-token") or ""
        self.assertEqual(sorted(responses(start.body)), [SALES + name for name in names[4:]])
        copy, token, rounds = {SALES + name for name in names}, known, 0
        while rounds < 20:
            told = self.say("head", "REPORT", SALES, sync(token, 2))
            self.assertEqual(told.status, 207)
            rounds += 1
            changed = {href: node for href, node in responses(told.body).items() if href != SALES}
            self.assertLessEqual(len(changed), 2)
            copy = {href for href in copy if href not in changed} | {
                href for href, node in changed.items() if status(node) == "200"
            }
            token = fromstring(told.body).findtext(f"{D}sync-token") or ""
            if SALES not in responses(told.body):
                break
        self.assertEqual((sorted(copy), rounds), ([SALES + name for name in names[4:]], 2))
        seen: set[str] = set()
        token = ""
        for _ in range(10):
            told = self.say("head", "REPORT", SALES, sync(token, 1))
            seen |= {href for href, node in responses(told.body).items() if status(node) == "200"}
            token = fromstring(told.body).findtext(f"{D}sync-token") or ""
            if SALES not in responses(told.body):
                break
        self.assertEqual(sorted(seen), [SALES + name for name in names[4:]])

    def test_books_are_made_and_labelled(self) -> None:
        body = (
            '<d:mkcol xmlns:d="DAV:" xmlns:c="urn:ietf:params:xml:ns:carddav"><d:set><d:prop>'
            '<d:resourcetype><d:collection/>{}</d:resourcetype><d:displayname>Neue '
            'Kunden</d:displayname></d:prop></d:set></d:mkcol>'
        )
        made = self.say("head", "MKCOL", "/dav/books/new/", body.format("<c:addressbook/>"))
        self.assertEqual(made.status, 201)
        self.assertIn("You lack the privilege write-properties at /books/new", made.text)
        self.assertEqual(self.say("head", "MKCOL", "/dav/books/new/").status, 405)
        self.assertEqual(
            self.say("head", "MKCOL", "/dav/books/other/", body.format("")).status, 403
        )
        described = body.replace(
            "</d:prop>", "<c:addressbook-description>x</c:addressbook-description></d:prop>"
        )
        refused = self.say(
            "head", "MKCOL", "/dav/books/other/", described.format("<c:addressbook/>")
        )
        self.assertEqual(refused.status, 403)
        lines = [line.text for line in fromstring(refused.body).iter(f"{D}status")]
        self.assertEqual(lines, ["HTTP/1.1 403 Forbidden", "HTTP/1.1 424 Failed Dependency"])
        self.assertEqual(
            self.say("head", "PROPFIND", "/dav/books/other/", propfind("displayname")).status, 404
        )
        self.assertEqual(self.say("head", "MKCOL", "/dav/books/other/", "no XML").status, 415)
        self.assertEqual(self.say("guest", "MKCOL", "/dav/books/mine/").status, 403)
        update = (
            '<d:propertyupdate xmlns:d="DAV:"><d:set><d:prop>'
            '<d:displayname>{}</d:displayname>{}</d:prop></d:set></d:propertyupdate>'
        )
        told = self.say("assistant", "PROPPATCH", SALES, update.format("Vertrieb", ""))
        self.assertEqual((told.status, status(responses(told.body)[SALES])), (207, "200"))
        told = self.say(
            "head", "PROPPATCH", SALES, update.format("Anders", "<d:getetag>x</d:getetag>")
        )
        self.assertEqual(
            [line.text for line in fromstring(told.body).iter(f"{D}status")],
            ["HTTP/1.1 403 Forbidden", "HTTP/1.1 424 Failed Dependency"],
        )
        told = self.say("guest", "PROPPATCH", SALES, update.format("Nein", ""))
        self.assertIn("You lack the privilege write-properties", told.text)
        told = self.say("guest", "PROPFIND", SALES, propfind("displayname"))
        self.assertEqual(text_of(responses(told.body)[SALES], f"{D}displayname"), "Vertrieb")
        entry = {"grant": ["all"], "principal": "owner"}
        self.assertEqual(
            self.say(
                "head", "ACL", "/books",
                {"acl": [entry, {"grant": ["all"], "principal": "/people/head"}]},
            ).status,
            200,
        )
        self.assertEqual(
            self.say("head", "MKCOL", "/dav/books/again/", body.format("<c:addressbook/>")).status,
            201,
        )
        told = self.say("head", "PROPFIND", "/dav/books/again/", propfind("displayname"))
        self.assertEqual(
            text_of(responses(told.body)["/dav/books/again/"], f"{D}displayname"), "Neue Kunden"
        )

    def test_copy_and_move(self) -> None:
        put = self.say("head", "PUT", SALES + "a.vcf", vcard("A"))
        host = f"http://127.0.0.1:{self.world.port}"
        self.assertEqual(
            self.say(
                "head", "COPY", SALES + "a.vcf", Destination=f"{host}/dav/books/law/a.vcf"
            ).status,
            201,
        )
        self.assertEqual(
            self.say(
                "head", "COPY", SALES + "a.vcf", Destination="/dav/books/law/a.vcf", Overwrite="F"
            ).status,
            412,
        )
        self.assertEqual(
            self.say(
                "head", "MOVE", SALES + "a.vcf", Destination="/dav/books/law/b.vcf",
                If_Match='"1-x"',
            ).status,
            412,
        )
        self.assertEqual(
            self.say(
                "head", "MOVE", SALES + "a.vcf", Destination="/dav/books/law/b.vcf",
                If_Match=put.fields["ETag"],
            ).status,
            201,
        )
        self.assertEqual(self.say("head", "GET", SALES + "a.vcf").status, 404)
        self.assertEqual(self.say("head", "GET", "/dav/books/law/b.vcf").text, vcard("A"))
        rows = [
            ("http://other.example/dav/books/law/c.vcf", 502), ("", 400),
            ("/dav/books/law/../x", 403), ("/dav/books/law/%2e", 403), ("/dav/people/head", 400),
        ]
        for destination, wanted in rows:
            with self.subTest(destination):
                fields = {"Destination": destination} if destination else {}
                self.assertEqual(
                    self.say("head", "MOVE", "/dav/books/law/b.vcf", **fields).status, wanted
                )

    def test_cards_of_phones(self) -> None:
        for path in sorted(CORPUS.glob("*.vcf")):
            with self.subTest(path.name):
                put = self.say(
                    "head", "PUT", SALES + path.name, path.read_bytes(),
                    Content_Type="text/vcard; charset=utf-8",
                )
                self.assertEqual((put.status, put.text), (201, ""))
                self.assertEqual("ETag" in put.fields, path.name.endswith("-4.vcf"))
                self.assertIn("VERSION:4.0", self.say("head", "GET", SALES + path.name).text)
                three = self.say("head", "GET", SALES + path.name, Accept="text/vcard; version=3.0")
                self.assertEqual(three.text.splitlines()[1], "VERSION:3.0")
        members = self.say(
            "head", "REPORT", "/books/sales/apple-group-3.vcf", {"report": "group-members"}
        )
        self.assertEqual(
            [member["uri"] for member in members.json()["members"]],
            ["urn:uuid:6F1C0D9E-8B1A-4A55-9D0E-3A6F2B1C7E41"],
        )

    def test_requests_of_the_server_pass_unchanged(self) -> None:
        self.assertEqual(self.say("head", "PUT", "/books/sales/a.vcf", vcard("A")).status, 201)
        self.assertEqual(self.say("head", "GET", "/books/sales/a.vcf").text, vcard("A"))
        head = self.say("head", "HEAD", "/books/sales/a.vcf")
        self.assertEqual((head.status, head.fields["Content-Length"]), (200, str(len(vcard("A")))))
        told = self.say("head", "PROPFIND", "/books/sales", {"prop": ["resourcetype"]}, Depth="1")
        self.assertEqual(
            [response["href"] for response in told.json()["responses"]],
            ["/books/sales", "/books/sales/a.vcf"],
        )
        refused = self.say("guest", "DELETE", "/books/sales/a.vcf")
        self.assertEqual(
            (refused.status, refused.json()),
            (
                403,
                {
                    "entry": None, "error": "need-privileges", "privilege": "unbind",
                    "resource": "/books/sales",
                },
            ),
        )
        wrong = self.say("head", "POST", "/books/sales")
        self.assertEqual((wrong.status, wrong.json()), (501, {"error": "not-implemented"}))
        allowed = self.say("head", "DELETE", "/people")
        self.assertEqual(
            (allowed.status, allowed.fields["Allow"]), (405, "ACL, OPTIONS, PROPFIND, REPORT")
        )
        moved = self.say("head", "MOVE", "/books/sales/a.vcf", Destination="/books/law/a.vcf")
        self.assertEqual(moved.status, 201)

    def test_the_server_may_end_and_begin_again(self) -> None:
        self.say("head", "PUT", SALES + "a.vcf", vcard("A"))
        self.world.stop_server()
        gone = self.say("head", "GET", SALES + "a.vcf")
        self.assertEqual((gone.status, gone.fields["Retry-After"]), (503, "5"))
        self.world.start_server()
        self.assertEqual(self.say("head", "GET", SALES + "a.vcf").status, 200)


if __name__ == "__main__":
    unittest.main()
