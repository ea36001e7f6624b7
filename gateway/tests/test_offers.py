"""Books that persons find although the server does not list them: names, single cards, adding."""
from __future__ import annotations

import unittest
from pathlib import Path

from office_gateway import uids
from tests.test_dav import C, D, SALES, multiget, prop, propfind, responses, status, sync, text_of
from tests.test_dav import vcard
from tests.world import World, program

POLICY = Path(__file__).resolve().parent / "offers.toml"
LAW = "/dav/books/law/"
OFFERS = """
[offered.sales]
names = ["assistant"]
cards = { guest = ["one.vcf", "none.vcf"] }

[offered.law]
add = ["guest"]

[cards]
names_as_cards = true
"""


def token_in(text: str) -> str:
    """The sync token of a report's answer."""
    return text.partition("sync-token>")[2].partition("<")[0]


@unittest.skipUnless(program(), "the server's program is not there: see tests/world.py")
class Offered(unittest.TestCase):
    """A reception desk with names, and a guest with one card who may add to another book."""

    def setUp(self) -> None:
        self.world = World(OFFERS, POLICY)
        self.addCleanup(self.world.close)
        for name in ("one", "two"):
            card = vcard(f"{name}, \u00d6", "NOTE:secret", f"UID:urn:uuid:{name}")
            self.assertEqual(self.say("head", "PUT", f"{SALES}{name}.vcf", card).status, 201)
        acl = {"acl": [{"grant": ["read"], "principal": "/people/guest"}]}
        self.assertEqual(self.say("head", "ACL", "/books/sales/one.vcf", acl).status, 200)

    def say(self, who: str, method: str, target: str, body: str | dict = "", **fields: str):
        """A request as a person."""
        return self.world.say(who, method, target, body, **fields)

    def names(self, who: str, path: str) -> set[str]:
        """The hrefs that a listing tells beside its own."""
        told = self.say(who, "PROPFIND", path, propfind("getetag", "resourcetype"), Depth="1")
        self.assertEqual(told.status, 207, told.text)
        return set(responses(told.body)) - {path}

    def test_names_as_cards(self) -> None:
        self.assertEqual(self.names("assistant", "/dav/books/"), {SALES})
        asked = propfind("current-user-privilege-set", "sync-token", "owner")
        told = self.say("assistant", "PROPFIND", SALES, asked)
        book = responses(told.body)[SALES]
        shown = prop(book, f"{D}current-user-privilege-set")
        assert shown is not None
        self.assertEqual([child[0].tag for child in shown], [f"{D}read"])
        both = {SALES + "one.vcf", SALES + "two.vcf"}
        self.assertEqual(self.names("assistant", SALES), both)
        found = self.say("assistant", "REPORT", SALES, multiget(*both))
        text = text_of(responses(found.body)[SALES + "two.vcf"], f"{C}address-data")
        wanted = ["BEGIN:VCARD", "VERSION:3.0", "FN:two, \u00d6"]
        self.assertEqual(text.splitlines()[:3], wanted)
        self.assertIn(f"UID:{uids.made_of('/books/sales/two.vcf')}", text)
        self.assertNotIn("secret", found.body.decode())
        one = self.say("assistant", "GET", SALES + "two.vcf")
        self.assertEqual((one.status, "secret" in one.text), (200, False))
        put = self.say("assistant", "PUT", SALES + "two.vcf", one.body.decode())
        self.assertEqual(put.status, 403)
        self.assertEqual(self.say("assistant", "DELETE", SALES + "two.vcf").status, 403)
        self.assertEqual(self.say("assistant", "GET", SALES + "three.vcf").status, 404)

    def test_names_are_synced(self) -> None:
        first = self.say("assistant", "REPORT", SALES, sync())
        self.assertEqual(first.status, 207, first.text)
        again = self.say("assistant", "REPORT", SALES, sync(token_in(first.text)))
        self.assertEqual((again.status, responses(again.body)), (207, {}))
        self.say("head", "PUT", SALES + "three.vcf", vcard("three"))
        self.say("head", "DELETE", SALES + "two.vcf")
        later = self.say("assistant", "REPORT", SALES, sync(token_in(again.text)))
        told = {href: status(one) for href, one in responses(later.body).items()}
        self.assertEqual(told, {SALES + "three.vcf": "200", SALES + "two.vcf": "404"})
        other = self.say("assistant", "REPORT", SALES, sync("data:,sales/1/1"))
        self.assertEqual((other.status, "valid-sync-token" in other.text), (400, True))
        acl = {"acl": [{"deny": ["all"], "principal": "/people/assistant"}]}
        self.assertEqual(self.say("head", "ACL", "/books/sales", acl).status, 200)
        last = self.say("assistant", "REPORT", SALES, sync(token_in(later.text)))
        told = {href: status(one) for href, one in responses(last.body).items()}
        self.assertEqual(told, {SALES + "one.vcf": "404", SALES + "three.vcf": "404"})

    def test_one_card(self) -> None:
        self.assertEqual(self.names("guest", "/dav/books/"), {SALES, LAW})
        self.assertEqual(self.names("guest", SALES), {SALES + "one.vcf"})
        found = self.say("guest", "REPORT", SALES, sync())
        self.assertEqual(set(responses(found.body)), {SALES + "one.vcf"})
        self.assertIn("secret", self.say("guest", "GET", SALES + "one.vcf").text)
        self.assertEqual(self.say("guest", "GET", SALES + "two.vcf").status, 403)
        self.assertEqual(self.say("guest", "PROPFIND", SALES + "two.vcf").status, 403)

    def test_who_may_add_finds_the_book(self) -> None:
        asked = propfind("current-user-privilege-set")
        book = responses(self.say("guest", "PROPFIND", LAW, asked).body)[LAW]
        shown = prop(book, f"{D}current-user-privilege-set")
        assert shown is not None
        self.assertEqual([child[0].tag for child in shown], [f"{D}read", f"{D}bind"])
        self.assertEqual(self.names("guest", LAW), set())
        card = vcard("Neu")
        put = self.say("guest", "PUT", LAW + "new.vcf", card, If_None_Match="*")
        self.assertEqual(put.status, 201, put.text)
        self.assertEqual(self.names("guest", LAW), set())
        self.assertEqual(self.say("guest", "PUT", LAW + "new.vcf", card).status, 403)
        self.assertEqual(self.names("head", LAW), {LAW + "new.vcf"})

    def test_nobody_else_finds_them(self) -> None:
        self.assertEqual(self.say("assistant", "PROPFIND", LAW).status, 403)
        self.assertEqual(self.say("assistant", "REPORT", LAW, sync()).status, 403)
        settings = self.world.path / "gateway.toml"
        settings.write_text(settings.read_text().replace("names_as_cards = true", ""))
        self.world.gateway.terminate()
        self.world.gateway.wait(60)
        self.world.start_gateway()
        self.assertEqual(self.names("assistant", "/dav/books/"), set())
        self.assertEqual(self.say("assistant", "GET", SALES + "one.vcf").status, 403)


if __name__ == "__main__":
    unittest.main()
