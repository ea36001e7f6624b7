"""Cards as clients send them: their names, UIDs, versions and photos, over the server's program."""
from __future__ import annotations

import base64
import io
import random
import unittest
from xml.etree.ElementTree import fromstring

from office_gateway import client_names, photos, uids
from tests.test_dav import C, D, SALES, multiget, prop, responses, status, sync, text_of, vcard
from tests.world import World, program

LONG = "040000008200E00074C5B7101A82E0080000000030B2B9BE4F5AD9010000000000000000100000001234ABCD"
NAMES = {
    "a@b.example.vcf": "a@b.example.vcf", "a%40c.vcf": "a@c.vcf", "x+y,z~1.vcf": "x+y,z~1.vcf",
    "J%C3%BCrgen%20%C3%96z.vcf": "J%C3%BCrgen%20%C3%96z.vcf", LONG + ".vcf": LONG + ".vcf",
    "_x_a_40b": "_x_a_40b", "m" * 120 + "@office.example.vcf": "m" * 120 + "@office.example.vcf",
}


def card(*lines: str, version: str = "4.0") -> str:
    """A card of these lines."""
    return "\r\n".join(["BEGIN:VCARD", f"VERSION:{version}", *lines, "END:VCARD", ""])


@unittest.skipUnless(program(), "the server's program is not there: see tests/world.py")
class Sent(unittest.TestCase):
    """A client that sends cards, and reads them back."""

    world: World

    @classmethod
    def setUpClass(cls) -> None:
        cls.world = World()

    @classmethod
    def tearDownClass(cls) -> None:
        cls.world.close()

    def put(self, name: str, text: str | bytes, wanted: int = 201, **fields: str) -> str | None:
        """PUT of a card as the head; the tag of the reply."""
        reply = self.world.say("head", "PUT", SALES + name, text, **fields)
        self.assertEqual(reply.status, wanted, reply.text)
        return reply.fields["ETag"]

    def get(self, name: str, who: str = "head") -> str:
        """GET of a card."""
        reply = self.world.say(who, "GET", SALES + name)
        self.assertEqual(reply.status, 200, reply.text)
        return reply.body.decode()

    def of_server(self, path: str) -> str:
        """The text that the server keeps."""
        return self.world.say("head", "GET", path).body.decode()


class Names(Sent):
    """Names that clients choose."""

    def test_cards_are_found_under_the_names_that_they_were_sent_to(self) -> None:
        for number, name in enumerate(NAMES):
            with self.subTest(name):
                tag = self.put(name, vcard(f"Nr {number}", f"UID:urn:uuid:n{number}"))
                self.assertIsNotNone(tag)
                self.assertIn(f"FN:Nr {number}", self.get(name))
                again = self.world.say("head", "PUT", SALES + name, vcard("X"), If_None_Match="*")
                self.assertEqual(again.status, 412)
        told = responses(self.world.say("head", "REPORT", SALES, sync()).body)
        for name in NAMES.values():
            self.assertIn(SALES + name, told)
        hrefs = [SALES + name for name in NAMES]
        found = responses(self.world.say("head", "REPORT", SALES, multiget(*hrefs)).body)
        self.assertEqual(set(found), {SALES + name for name in NAMES.values()})
        self.assertEqual({status(one) for one in found.values()}, {"200"})
        listed = self.world.say("head", "PROPFIND", SALES, Depth="1")
        self.assertLessEqual({SALES + name for name in NAMES.values()}, set(responses(listed.body)))

    def test_a_long_name_outlasts_a_restart_and_a_removal(self) -> None:
        name = "r" * 99 + "+1.vcf"
        self.put(name, vcard("Dauer", "UID:urn:uuid:r"))
        token = self.world.say("head", "REPORT", SALES, sync()).text
        token = token.partition("sync-token>")[2].partition("<")[0]
        self.world.gateway.terminate()
        self.world.gateway.wait(15)
        self.world.start_gateway()
        self.assertEqual(self.world.say("head", "DELETE", SALES + name).status, 204)
        told = responses(self.world.say("head", "REPORT", SALES, sync(token)).body)
        self.assertEqual(status(told[SALES + name]), "404")

    def test_a_card_is_moved_to_a_long_name(self) -> None:
        name, there = "m@1.vcf", "n" * 99 + ".vcf"
        self.put(name, vcard("Zug", "UID:urn:uuid:m"))
        to = f"http://127.0.0.1:{self.world.port}{SALES}{there}"
        self.assertEqual(self.world.say("head", "MOVE", SALES + name, Destination=to).status, 201)
        self.assertEqual(self.world.say("head", "GET", SALES + name).status, 404)
        told = responses(self.world.say("head", "REPORT", SALES, sync()).body)
        self.assertIn(SALES + there, told)

    def test_without_the_table_cards_are_there_under_digests(self) -> None:
        name = "t" * 99 + ".vcf"
        self.put(name, vcard("Tafel", "UID:urn:uuid:t"))
        self.world.gateway.terminate()
        self.world.gateway.wait(15)
        (self.world.path / "card-names").unlink()
        self.world.start_gateway()
        digest = client_names.digest_of(name)
        told = responses(self.world.say("head", "REPORT", SALES, sync()).body)
        self.assertIn(SALES + digest, told)
        self.assertIn("FN:Tafel", self.get(digest))
        self.assertIn("FN:Tafel", self.get(name))
        told = responses(self.world.say("head", "REPORT", SALES, sync()).body)
        self.assertIn(SALES + name, told)

    def test_names_that_none_may_have(self) -> None:
        for name in ("%2e%2e", "a%00", "a%0d%0ab", "x" * 513, "%ff", "%", "a?b", "a/b"):
            with self.subTest(name[:20]):
                put = self.world.say("head", "PUT", SALES + name, vcard("X"))
                self.assertIn(put.status, (403, 400, 409))
                self.assertIn(self.world.say("head", "GET", SALES + name).status, (404, 400))


class Uids(Sent):
    """UIDs of cards without one."""

    def test_a_card_that_is_sent_without_a_uid_gets_one_and_keeps_it(self) -> None:
        self.assertIsNone(self.put("u1.vcf", card("FN:Ohne")))
        uid = uids.uid_in(self.of_server("/books/sales/u1.vcf"))
        self.assertRegex(uid, "^urn:uuid:[0-9a-f-]{36}$")
        self.assertIn(f"UID:{uid}", self.get("u1.vcf"))
        self.assertIsNone(self.put("u1.vcf", card("FN:Ohne zwei"), 204))
        self.assertEqual(uids.uid_in(self.of_server("/books/sales/u1.vcf")), uid)
        self.assertIsNone(self.put("u1.vcf", card("FN:Ohne drei", "UID:", version="3.0"), 204))
        self.assertEqual(uids.uid_in(self.of_server("/books/sales/u1.vcf")), uid)
        self.assertIsNone(self.put("u2.vcf", card("FN:Auch ohne")))
        self.assertNotEqual(uids.uid_in(self.of_server("/books/sales/u2.vcf")), uid)

    def test_a_card_of_the_server_without_a_uid_is_told_with_one_of_its_path(self) -> None:
        path = "/books/sales/u3.vcf"
        self.assertEqual(self.world.say("head", "PUT", path, card("FN:Vom Server")).status, 201)
        self.assertEqual(uids.uid_in(self.of_server(path)), "")
        uid = uids.made_of(path)
        for who in ("head", "guest"):
            self.assertIn(f"\r\nUID:{uid}\r\nEND:VCARD", self.get("u3.vcf", who))
        three = self.world.say("head", "GET", SALES + "u3.vcf", Accept="text/vcard; version=3.0")
        self.assertIn(f"UID:{uid}", three.text)
        reply = self.world.say("head", "REPORT", SALES, multiget(SALES + "u3.vcf"))
        told = responses(reply.body)[SALES + "u3.vcf"]
        self.assertIn(f"UID:{uid}", text_of(told, f"{C}address-data"))
        tag = text_of(told, f"{D}getetag")
        self.assertIsNotNone(prop(told, f"{D}getetag"))
        text = self.get("u3.vcf").replace("Vom Server", "Von hier")
        self.assertIsNotNone(self.put("u3.vcf", text, 204, If_Match=tag))
        self.assertEqual(uids.uid_in(self.of_server(path)), uid)


class Versions(Sent):
    """Old versions, faults and photos."""

    def test_a_card_of_an_old_phone_is_kept_and_told(self) -> None:
        text = (
            b"BEGIN:VCARD\r\nVERSION:2.1\r\nN;CHARSET=ISO-8859-1:\xd6z;J\xfcrgen;;;\r\n"
            b"TEL;CELL;PREF:+49 170\r\nPHOTO;JPEG;BASE64:/9j/\r\n AAAA\r\n\r\nX-IRMC-LUID:7\r\n"
            b"END:VCARD\r\n"
        )
        self.assertIsNone(self.put("old.vcf", text, Content_Type="text/x-vcard"))
        kept = self.of_server("/books/sales/old.vcf")
        for line in ("VERSION:4.0", "FN:J\u00fcrgen \u00d6z", "TEL;TYPE=CELL;PREF=1:+49 170"):
            self.assertIn(f"{line}\r\n", kept)
        self.assertIn("PHOTO:data:image/jpeg;base64,/9j/AAAA\r\n", kept)
        log = self.world.logged()
        noted = "head PUT /books/sales/old.vcf: it is of version 2.1; a card without FN;"
        self.assertIn(noted, log)

    def test_a_large_photo_is_made_smaller_and_one_of_no_picture_is_refused(self) -> None:
        if not photos.is_there():
            self.skipTest("the package python3-pil is not there")
        picture = io.BytesIO()
        noise = random.Random(7).randbytes(600 * 600 * 3)
        photos.Image.frombytes("RGB", (600, 600), noise).save(picture, "JPEG", quality=95)
        value = base64.b64encode(picture.getvalue()).decode()
        self.assertGreater(len(value), 262_144)
        for version, line in (
            ("4.0", f"PHOTO:data:image/jpeg;base64,{value}"),
            ("3.0", f"PHOTO;ENCODING=b;TYPE=JPEG:{value}"),
        ):
            text = card("FN:Bild", "UID:urn:uuid:p", line, version=version)
            self.assertIsNone(self.put(f"p{version}.vcf", text))
            told = self.get(f"p{version}.vcf")
            self.assertLessEqual(len(told), 65_536)
            self.assertIn("FN:Bild", told)
        self.assertIn("p4.0.vcf: the photo was made smaller", self.world.logged())
        text = card("FN:Lang", "UID:a", "NOTE:" + "x" * 70_000)
        reply = self.world.say("head", "PUT", SALES + "long.vcf", text)
        self.assertEqual(reply.status, 403)
        self.assertIsNotNone(fromstring(reply.body).find(f"{C}max-resource-size"))
        reply = self.world.say("head", "PUT", SALES + "huge.vcf", b"x" * 4_194_305)
        self.assertEqual(reply.status, 413)

    def test_faults_of_cards_have_the_line_that_was_sent(self) -> None:
        rows = [
            ("BEGIN:VCARD\r\nFN:A\r\nno line\r\nVERSION:3.0\r\nEND:VCARD\r\n", "bad-line", 3),
            (card("X-A:b", "", "NOTE:c"), "no-fn", 6),
            (card("N:A", "UID:a", "X_A:", " b", "no line", version="3.0"), "bad-line", 6),
            ("BEGIN:VCARD\r\nVERSION:3.0\r\nFN:A\r\n", "no-end", 4),
            (card("FN:A", version="3.0") + "X:y\r\n", "after-end", 5),
            (card("FN:A", version="2.2"), "other-version", 2),
            ("BEGIN:VCARD\nVERSION:2.1\nN:A\nno line\nEND:VCARD\n", "bad-line", 4),
            (card("FN:A", "MEMBER:urn:a"), "member-without-group", 4),
            ("", "no-begin", 1), ("VERSION:3.0", "no-begin", 1),
        ]
        for text, fault, line in rows:
            with self.subTest(text):
                refused = self.world.say("head", "PUT", SALES + "x.vcf", text, x_office_page="1")
                wanted = {"error": "bad-card", "fault": fault, "line": line}
                self.assertEqual((refused.status, refused.json()), (400, wanted))
        refused = self.world.say("head", "PUT", SALES + "x.vcf", rows[0][0])
        self.assertIsNotNone(fromstring(refused.body).find(f"{C}valid-address-data"))
        other = self.world.say("head", "PUT", SALES + "x.vcf", "x", Content_Type="text/calendar")
        self.assertEqual(other.status, 415)
        none = self.world.say("head", "PUT", SALES + "x.vcf", b"\xff\xfe")
        self.assertEqual(none.status, 400)


if __name__ == "__main__":
    unittest.main()
