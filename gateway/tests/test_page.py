"""Cards at the page: shown and edited as persons' entries, made, grouped, and kept byte for
byte."""
from __future__ import annotations

import shutil
import subprocess
import unittest
from pathlib import Path

from tests.browser import By, Keys, Office, card, needed

LONG = "Donaudampfschifffahrtsgesellschaftskapitänsmützenabteilung"
PICTURE = (
    "PHOTO:data:image/png;base64,"
    "iVBORw0KGgoAAAANSUhEUgAAAAEAAAABCAYAAAAfFcSJAAAADUlEQVR42mNkYPj"
    "/HwADBwIAMCbHYQAAAABJRU5ErkJggg=="
)
NADIA = card(
    "FN:Nadia Rahman", "N:Rahman;Nadia;;;", "ORG:Linden Office;Sales", "TITLE:Account manager",
    "item1.TEL;TYPE=work:+49 30 5550 123", "item1.X-ABLabel:Front",
    "TEL;VALUE=uri;TYPE=\"cell,voice\":tel:+49-170-5550", "EMAIL;TYPE=work:nadia@linden.example",
    "ADR;TYPE=work:;;Lindenstr. 5;Berlin;;10115;Germany", "URL:https://linden.example/",
    "BDAY:19850412", "NOTE:Calls back\\, in the\r\n  afternoon.", "CATEGORIES:customer,fair",
    "X-OWN;X-PARAM=1:kept as it\r\n  stands", PICTURE, uid="n-1",
)
HOSTILE = card(
    "FN:<script>document.title='taken'</script><img src=x onerror=alert(2)>",
    "URL:javascript:alert(3)", "NOTE:<b>bold</b>",
    "PHOTO:data:image/svg+xml;base64,PHN2ZyB4bWxucz0iaHR0cDovL3d3dy53My5vcmcvMjAwMC9zdmciLz4=",
    "TEL:tel:javascript:alert(4)", "EMAIL:a@b.example?body=x", uid="h-1",
)
SALES = "/books/sales/"
# Gives the form a picture that cannot be made small by compressing it, and tells its bytes.
NOISE = """
const done = arguments[0];
const canvas = document.createElement("canvas");
canvas.width = 1600;
canvas.height = 1200;
const context = canvas.getContext("2d");
const data = context.createImageData(1600, 1200);
for (let at = 0; at < data.data.length; at += 1) {
  data.data[at] = at % 4 === 3 ? 255 : Math.imul(at, 2654435761) >>> 24;
}
context.putImageData(data, 0, 0);
canvas.toBlob((blob) => {
  const input = document.querySelector("input[type=file]");
  const items = new DataTransfer();
  items.items.add(new File([blob], "a.png", { type: "image/png" }));
  input.files = items.files;
  input.dispatchEvent(new Event("change"));
  done(blob.size);
});
"""


class Model(unittest.TestCase):
    """The page's modules without a browser."""

    @unittest.skipUnless(shutil.which("node"), "the package nodejs is not there")
    def test_what_nobody_changes_keeps_its_bytes(self) -> None:
        tests = sorted(str(path) for path in Path(__file__).parent.glob("*.test.mjs"))
        done = subprocess.run(
            ["node", "--test", *tests], capture_output=True, text=True, timeout=600, check=False
        )
        self.assertEqual(done.returncode, 0, done.stdout[-4000:] + done.stderr[-2000:])


@needed
class Cards(Office):
    """A head of department at the cards of a book."""

    @classmethod
    def furnish(cls) -> None:
        for name, text in {"bo": card("FN:Bo", uid="b-1"), "hostile": HOSTILE}.items():
            cls.world.say("hanna", "PUT", f"/dav{SALES}{name}.vcf", text, Content_Type="text/vcard")

    def put(self, name: str, text: str) -> None:
        """Puts a card as the head of department."""
        self.assertIn(
            self.world.say(
                "hanna", "PUT", f"/dav{SALES}{name}.vcf", text, Content_Type="text/vcard"
            ).status,
            (201, 204),
        )

    def test_a_card_is_a_persons_entry(self) -> None:
        self.put("nadia", NADIA)
        self.sign_in("hanna")
        self.picture("books")
        self.press("Sales")
        self.heading("Sales")
        self.picture("book")
        self.one("//a[.='Nadia Rahman']").send_keys(Keys.ENTER)
        self.heading("Nadia Rahman")
        self.assertEqual(
            self.text("//dl[@id='said']").split("\n"),
            [
                "Telephone (Front)", "+49 30 5550 123", "Telephone (mobile)", "+49-170-5550",
                "Mail (work)", "nadia@linden.example", "Address (work)", "Lindenstr. 5",
                "Berlin 10115", "Germany", "Web page", "https://linden.example/", "Birthday",
                "April 12, 1985", "Categories", "customer, fair", "Note",
                "Calls back, in the afternoon.",
            ],
        )
        links = {one.text: one.get_attribute("href") for one in self.all("//dl[@id='said']//a")}
        self.assertEqual(links["+49 30 5550 123"], "tel:+49305550123")
        self.assertEqual(links["nadia@linden.example"], "mailto:nadia@linden.example")
        self.assertEqual(links["https://linden.example/"], "https://linden.example/")
        self.assertTrue(
            any(
                href.startswith("https://www.openstreetmap.org/search?query=Lindenstr.")
                for href in links.values()
            )
        )
        self.until(
            lambda: self.driver.execute_script(
                "return document.querySelector('img.picture').naturalWidth"
            )
            == 1
        )
        self.press("More")
        self.assertEqual(
            self.text("//dl[@id='others']").split("\n"),
            ["Identifier", "urn:uuid:n-1", "X-OWN", "kept as it stands"],
        )
        self.picture("card")
        self.nothing_was_blocked()

    def test_what_is_not_changed_keeps_its_bytes(self) -> None:
        self.put("nadia", NADIA)
        self.sign_in("hanna")
        self.open("/edit/books/sales/nadia.vcf")
        self.heading("Edit Nadia Rahman")
        self.press("Save")
        self.heading("Nadia Rahman")
        self.assertEqual(self.kept(SALES + "nadia.vcf"), NADIA)
        self.press("Edit")
        self.heading("Edit Nadia Rahman")
        self.fill("Telephone", "+49 30 999")
        self.picture("form")
        self.press("Save")
        self.told("The card is saved.")
        self.assertEqual(
            self.kept(SALES + "nadia.vcf"), NADIA.replace("+49 30 5550 123", "+49 30 999")
        )
        self.press("Edit")
        self.heading("Edit Nadia Rahman")
        self.fill("Town", "Köln, Deutz")
        self.press("Save")
        self.told("The card is saved.")
        self.assertEqual(
            self.kept(SALES + "nadia.vcf"),
            NADIA.replace("+49 30 5550 123", "+49 30 999").replace(";Berlin;", ";Köln\\, Deutz;"),
        )

    def test_fields_come_and_go(self) -> None:
        self.put(
            "fields",
            card("FN:Fay Old", "N:Old;Fay;;;", "TEL;TYPE=home:1", "BDAY:--0412", uid="f-1"),
        )
        self.sign_in("hanna")
        self.open("/edit/books/sales/fields.vcf")
        self.heading("Edit Fay Old")
        self.fill("Family name", "New")
        self.assertEqual(self.labelled("Name as shown").get_attribute("value"), "Fay New")
        self.one("//button[@aria-label='Take away: Telephone']").click()
        self.press("Add a mail address")
        self.fill("Mail", "fay@new.example", 1)
        self.one("//input[@aria-label='Year']").send_keys("1990")
        self.press("Save")
        self.told("The card is saved.")
        self.assertEqual(
            self.kept(SALES + "fields.vcf"),
            card(
                "FN:Fay New", "N:New;Fay;;;", "BDAY:19900412", "EMAIL;TYPE=work:fay@new.example",
                uid="f-1",
            ),
        )
        self.assertIn("April 12, 1990", self.text("//dl[@id='said']"))

    def test_a_new_card_has_a_uuid_and_a_picture_that_fits(self) -> None:
        self.sign_in("hanna")
        self.open("/books/sales")
        self.press("New card")
        self.heading("New card in Sales")
        self.fill("First name", "Pia")
        self.fill("Family name", "Neu; Alt")
        made = self.driver.execute_async_script(NOISE)
        self.assertGreater(made, 65_536)
        self.until(
            lambda: self.driver.execute_script(
                "const one = document.querySelector('img.picture'); return !one.hidden && "
                "one.naturalWidth > 50"
            )
        )
        self.picture("new-card")
        self.press("Make the card")
        self.heading("Pia Neu; Alt")
        name = self.driver.execute_script("return location.hash").rsplit("/", 1)[1]
        self.assertRegex(
            name, r"^[0-9a-f]{8}-[0-9a-f]{4}-4[0-9a-f]{3}-[89ab][0-9a-f]{3}-[0-9a-f]{12}\.vcf$"
        )
        text = self.kept(SALES + name)
        self.assertIn(f"UID:urn:uuid:{name[:-4]}\r\n", text)
        self.assertIn("N:Neu\\; Alt;Pia;;;\r\n", text)
        self.assertIn("FN:Pia Neu\\; Alt\r\n", text)
        self.assertLess(len(text), 65_536)
        self.assertLess(max(len(line) for line in text.encode().split(b"\r\n")), 76)
        self.nothing_was_blocked()

    def test_a_group_is_made_by_picking_cards(self) -> None:
        self.put("nadia", NADIA)
        self.sign_in("hanna")
        self.open("/newgroup/books/sales")
        self.heading("New group in Sales")
        self.fill("Name of the group", "Team")
        for word in ("nad", "bo"):
            self.fill("Add a card of this book", word)
            self.until(lambda: self.all("//ul[@id='candidates']//button"))
            self.labelled("Add a card of this book").send_keys(Keys.ENTER)
            self.until(lambda: not self.all("//ul[@id='candidates']//button"))
        self.assertEqual(
            [one.text for one in self.all("//ul[@id='members']/li/span")], ["Nadia Rahman", "Bo"]
        )
        self.picture("new-group")
        self.press("Make the group")
        self.heading("Team")
        self.assertEqual(self.text("//ul[@id='members']").split("\n"), ["Nadia Rahman", "Bo"])
        name = self.driver.execute_script("return location.hash").rsplit("/", 1)[1]
        self.assertIn(
            "KIND:group\r\nFN:Team\r\nMEMBER:urn:uuid:n-1\r\nMEMBER:urn:uuid:b-1\r\nEND:VCARD",
            self.kept(SALES + name),
        )
        told = self.world.say("hanna", "REPORT", SALES + name, {"report": "group-members"}).json()
        self.assertEqual(told["reached"], [SALES + "bo.vcf", SALES + "nadia.vcf"])
        self.one("//ul[@id='members']//a[.='Bo']").click()
        self.heading("Bo")
        self.assertIn("In groups\nTeam", self.text())
        self.open(f"/members{SALES}{name}")
        self.one("//button[@aria-label='Take away: Nadia Rahman']").click()
        self.press("Save")
        self.told("The card is saved.")
        self.assertNotIn("n-1", self.kept(SALES + name))

    def test_the_text_is_there_for_who_asks(self) -> None:
        self.put("text", card("FN:Text", uid="t-1"))
        self.sign_in("hanna")
        self.open("/text/books/sales/text.vcf")
        area = self.labelled("Lines of vCard 4.0")
        self.assertEqual(
            area.get_attribute("value"), card("FN:Text", uid="t-1").replace("\r\n", "\n")
        )
        area.clear()
        area.send_keys("BEGIN:VCARD\nVERSION:4.0\nno line\nEND:VCARD\n")
        self.press("Save")
        self.told("Line 3 of the card is refused: it is no line of a card.")
        self.picture("text")
        area.clear()
        area.send_keys("BEGIN:VCARD\nVERSION:4.0\nFN:Other\nEND:VCARD\n")
        self.press("Save")
        self.heading("Other")
        self.assertEqual(
            self.kept(SALES + "text.vcf").count("\r\n"), self.kept(SALES + "text.vcf").count("\n")
        )

    def test_a_script_in_a_name_is_shown_as_text(self) -> None:
        self.sign_in("hanna")
        self.open("/books/sales/hostile.vcf")
        self.heading("<script>document.title='taken'</script><img src=x onerror=alert(2)>")
        self.assertIn("<b>bold</b>", self.text("//dl[@id='said']"))
        self.assertEqual(self.all("//main//img | //main//script | //main//b"), [])
        self.assertNotIn("taken", self.driver.title.replace("='taken'", ""))
        self.picture("hostile")
        self.open("/edit/books/sales/hostile.vcf")
        self.one("//form")
        self.assertEqual(self.all("//main//script"), [])
        self.open("/books/sales")
        self.one("//a[contains(., '<script>')]")
        self.assertEqual(self.all("//main//img | //main//script"), [])
        self.nothing_was_blocked()

    def test_a_script_in_an_address_is_no_link(self) -> None:
        self.sign_in("hanna")
        self.open("/books/sales/hostile.vcf")
        said = self.text("//dl[@id='said']")
        for shown in ("javascript:alert(3)", "javascript:alert(4)", "a@b.example?body=x"):
            self.assertIn(shown, said)
        self.assertEqual(self.all("//main//dl//a"), [])
        self.nothing_was_blocked()

    def test_a_picture_that_is_a_document_is_not_shown(self) -> None:
        self.sign_in("hanna")
        self.open("/books/sales/hostile.vcf")
        self.press("More")
        self.assertIn("Picture\ndata, 1 KB", self.text("//dl[@id='others']"))
        self.assertEqual(self.driver.find_elements(By.TAG_NAME, "img"), [])
        # What says that it is a picture, and is none, is not shown either.
        broken = "PHOTO:data:image/png;base64,PHN2ZyBvbmxvYWQ9ImFsZXJ0KDUpIi8+"
        self.put("broken", card("FN:Broken picture", broken, uid="bp-1"))
        self.open("/books/sales/broken.vcf")
        self.heading("Broken picture")
        self.until(lambda: self.driver.find_elements(By.TAG_NAME, "img") == [])
        self.nothing_was_blocked()

    def test_on_a_phone_with_long_words(self) -> None:
        for number in range(2):
            self.put(
                f"{'lang' * 12}{number}",
                card(
                    f"FN:{LONG} {number}", f"NOTE:{LONG * 2}",
                    f"EMAIL;TYPE=work:{LONG.lower()}@linden.example", uid=f"l-{number}",
                ),
            )
        self.narrow()
        self.sign_in("hanna")
        self.fits()
        self.open("/books/sales")
        self.one(f"//a[.='{LONG} 1']")
        self.fits()
        self.picture("phone-book")
        self.one(f"//a[.='{LONG} 1']").click()
        self.heading(f"{LONG} 1")
        self.fits()
        self.picture("phone-card")
        self.press("Edit")
        self.heading(f"Edit {LONG} 1")
        self.fits()
        self.open(f"/access{SALES}{'lang' * 12}1.vcf")
        self.one("//table[@id='list']")
        self.press("Edit the list that stands here")
        self.press("Add an entry")
        self.fits()
        self.picture("phone-list")
        self.nothing_was_blocked()


if __name__ == "__main__":
    unittest.main()
