"""Work at the page: moving, copying, removing, exporting and importing; conflicts; sessions and
accounts; German; accessibility."""
from __future__ import annotations

import time
import unittest

from tests.browser import By, Keys, Office, WORDS, card, needed
from tests.test_page import NADIA
from tests.world import basic

SALES, FAIR = "/books/sales/", "/books/fair/"
VIEWS = (
    "/", "/books/sales", "/books/sales/nadia.vcf", "/edit/books/sales/nadia.vcf",
    "/text/books/sales/nadia.vcf", "/newgroup/books/sales", "/access/books/sales",
    "/import/books/sales", "/account", "/search", "/people", "/groups/desk", "/books/law",
)
FILE = (
    "BEGIN:VCARD\nVERSION:3.0\nUID:i-1\nN:Import;Ida;;;\nFN:Ida Import\nTEL;TYPE=CELL:1\n"
    "END:VCARD\n"
    + card("FN:Bo", uid="b-1")
    + card("FN:Nadia Changed", uid="n-1")
    + "BEGIN:VCARD\nVERSION:4.0\nFN:Broken\nno line\nEND:VCARD\n"
)


class Work(Office):
    """What the tests below find."""

    @classmethod
    def furnish(cls) -> None:
        cls.put("nadia", NADIA)
        cls.put("bo", card("FN:Bo", uid="b-1"))

    @classmethod
    def put(cls, name: str, text: str, who: str = "hanna") -> None:
        """Puts a card into the book of sales."""
        assert cls.world.say(
            who, "PUT", f"/dav{SALES}{name}.vcf", text, Content_Type="text/vcard"
        ).status in (201, 204)

    def status(self, path: str, who: str = "ada") -> int:
        """The status of a card."""
        return self.world.say(who, "GET", "/dav" + path).status


@needed
class Moving(Work):
    """A head of department at work."""

    def select(self, *names: str) -> None:
        """Selects cards of the book that is open."""
        self.one("//label[normalize-space()='Select several']").click()
        for name in names:
            self.one(f"//input[@aria-label='Choose {name}']").click()

    def test_several_are_copied_removed_and_put_back(self) -> None:
        for name in ("eins", "zwei"):
            self.put(name, card(f"FN:Card {name}", uid=f"u-{name}"))
        self.sign_in("hanna")
        self.open("/books/sales")
        self.one("//a[.='Card eins']")
        self.select("Card eins", "Card zwei")
        self.one("//*[.='2 chosen']")
        self.picture("selected")
        self.press("Copy")
        self.one("//dialog//select").send_keys("Spring fair")
        self.one("//dialog//button[.='Copy']").click()
        self.told("2 cards are copied to Spring fair.")
        self.assertEqual(
            [self.status(f"{FAIR}{name}.vcf") for name in ("eins", "zwei")], [200, 200]
        )
        self.select("Card eins", "Card zwei")
        self.press("Remove")
        self.one("//dialog//button[.='Remove']").click()
        self.assertIn(
            "You own it then, and its list begins empty.", self.told("2 cards are removed.")
        )
        self.picture("removed")
        self.assertEqual(self.status(f"{SALES}eins.vcf"), 404)
        self.one("//button[.='Put back']").click()
        self.told("2 cards are there again.")
        self.assertEqual(self.kept(f"{SALES}zwei.vcf"), card("FN:Card zwei", uid="u-zwei"))
        self.one("//a[.='Card zwei']")
        self.nothing_was_blocked()

    def test_one_is_moved(self) -> None:
        self.put("moved", card("FN:Moved", uid="mv-1"))
        self.sign_in("hanna")
        self.open("/books/sales/moved.vcf")
        self.heading("Moved")
        self.press("Move")
        self.one("//dialog//button[.='Move']").click()
        self.told("The card is in Spring fair now.")
        self.assertEqual(
            (self.status(f"{SALES}moved.vcf"), self.status(f"{FAIR}moved.vcf")), (404, 200)
        )

    def test_a_book_is_exported(self) -> None:
        self.sign_in("hanna")
        self.open("/books/sales")
        self.press("Export")
        self.told("The file is made.")
        file = self.world.path / "sales.vcf"
        self.until(file.exists)
        time.sleep(0.5)
        self.assertIn(card("FN:Bo", uid="b-1"), file.read_bytes().decode())

    def test_an_import_is_told_before_it_is_done(self) -> None:
        self.put("nadia", NADIA)
        (self.world.path / "contacts.vcf").write_bytes(FILE.encode())
        self.sign_in("hanna")
        self.open("/import/books/sales")
        self.labelled("File of vCards").send_keys(str(self.world.path / "contacts.vcf"))
        self.one("//ul[@id='counts']")
        self.assertEqual(
            self.text("//ul[@id='counts']").split("\n"),
            [
                "1 card is new", "1 card is there and says something else",
                "1 card is there already", "1 card is refused",
            ],
        )
        self.assertIn("Ida Import\nnew", self.text("//ul[@id='imported']"))
        self.assertIn(
            "Broken\nLine 4 of the card is refused: it is no line of a card.",
            self.text("//ul[@id='imported']"),
        )
        self.picture("import")
        self.press("Import")
        self.assertIn("1 card is refused.", self.told("1 card is imported."))
        self.assertIn("FN:Ida Import\r\n", self.kept(f"{SALES}i-1.vcf"))
        self.assertEqual(self.kept(f"{SALES}nadia.vcf"), NADIA)
        self.nothing_was_blocked()

    def test_two_who_edit_choose_field_by_field(self) -> None:
        self.put("both", card("FN:Both", "TEL:1", "NOTE:old", "X-OWN:kept", uid="bo-1"))
        self.sign_in("hanna")
        self.open("/edit/books/sales/both.vcf")
        self.heading("Edit Both")
        self.put("both", card("FN:Both New", "TEL:1", "NOTE:theirs", "X-OWN:kept", uid="bo-1"))
        self.fill("Telephone", "2")
        self.fill("Note", "mine")
        self.press("Save")
        self.heading("Both New has changed meanwhile")
        self.assertEqual(
            [one.text for one in self.all("//fieldset[@class='sides']/legend")],
            ["Name as shown", "Telephone", "Note"],
        )
        self.assertIn("Yours\nmine", self.text())
        self.assertIn("Saved meanwhile\ntheirs", self.text())
        self.picture("conflict")
        self.one("//fieldset[legend='Note']//label[contains(., 'Saved meanwhile')]").click()
        self.press("Save what is chosen")
        self.told("The card is saved.")
        self.assertEqual(
            self.kept(f"{SALES}both.vcf"),
            card("FN:Both New", "TEL:2", "NOTE:theirs", "X-OWN:kept", uid="bo-1"),
        )
        self.nothing_was_blocked()

    def test_a_session_that_ends_asks_over_the_view(self) -> None:
        self.put("typing", card("FN:Typing", uid="ty-1"))
        self.driver.get(f"http://127.0.0.1:{self.world.port}/")
        self.one("//h1[.='Sign in']")
        self.assertEqual(self.all("//nav//a"), [])
        self.sign_in("hanna")
        self.open("/edit/books/sales/typing.vcf")
        self.heading("Edit Typing")
        self.fill("Name as shown", "Typed")
        self.driver.delete_all_cookies()
        self.press("Save")
        self.one("//dialog//h2[.='Your session has ended']")
        self.picture("session")
        self.one("//dialog//input[@type='password']").send_keys("wrong", Keys.ENTER)
        self.one("//dialog//*[.='Name and password do not fit.']")
        self.one("//dialog//input[@type='password']").send_keys(WORDS["hanna"], Keys.ENTER)
        self.told("The card is saved.")
        self.assertIn("FN:Typed\r\n", self.kept(f"{SALES}typing.vcf"))

    def test_what_a_script_sees_of_accessibility(self) -> None:
        self.driver.get(f"http://127.0.0.1:{self.world.port}/")
        self.one("//h1[.='Sign in']")
        self.accessible()
        self.picture("sign-in")
        self.sign_in("hanna")
        for scheme, width in (("light", 1100), ("dark", 640)):
            self.driver.execute_cdp_cmd(
                "Emulation.setEmulatedMedia",
                {"features": [{"name": "prefers-color-scheme", "value": scheme}]},
            )
            self.driver.execute_cdp_cmd(
                "Emulation.setDeviceMetricsOverride",
                {"width": width, "height": 800, "deviceScaleFactor": 1, "mobile": False},
            )
            self.addCleanup(self.driver.execute_cdp_cmd, "Emulation.clearDeviceMetricsOverride", {})
            self.addCleanup(
                self.driver.execute_cdp_cmd, "Emulation.setEmulatedMedia", {"features": []}
            )
            for view in VIEWS:
                with self.subTest(view=view, scheme=scheme):
                    self.open(view)
                    self.driver.execute_script(
                        "for (const one of document.querySelectorAll('main details')) one.open = "
                        "true"
                    )
                    self.accessible()
        self.nothing_was_blocked()

    def test_the_keyboard_alone_reaches_everything_and_is_seen(self) -> None:
        self.sign_in("hanna")
        self.open("/books/sales")
        self.one("//a[.='Bo']")
        self.driver.find_element(By.TAG_NAME, "body").click()
        reached = []
        for _ in range(60):
            self.driver.switch_to.active_element.send_keys(Keys.TAB)
            one = self.driver.switch_to.active_element
            reached.append(one.get_attribute("aria-label") or one.text or one.get_attribute("id"))
            style = self.driver.execute_script(
                "const style = getComputedStyle(document.activeElement); return style.outlineStyle "
                "+ style.outlineWidth"
            )
            if one.tag_name != "body":
                self.assertIn("solid", style, reached[-1])
            if reached[-1] == "Bo":
                break
        for wanted in ("New card", "Find in this book", "Sorted by", "Bo"):
            self.assertIn(wanted, reached)


@needed
class Accounts(Work):
    """Passwords of devices, the own password, and a name that a proxy gives."""

    def test_a_device_and_the_own_password(self) -> None:
        self.sign_in("omar")
        self.one("//a[.='Omar Haddad']").click()
        self.heading("Your account")
        self.fill("Name of the device", "Phone")
        self.press("Make a password for the device")
        self.told("The password for Phone:")
        word = self.one("//code").text
        self.assertRegex(word, "^[a-z2-7]{6}(-[a-z2-7]{6}){3}$")
        self.picture("account")
        field = basic("omar", word)
        self.assertEqual(
            self.world.say("", "GET", f"/dav{SALES}bo.vcf", Authorization=field).status, 200
        )
        self.assertEqual(
            self.world.say("", "GET", "/page/books", Authorization=field, x_office_page="1").status,
            403,
        )
        body = {"name": "omar", "password": word}
        self.assertEqual(
            self.world.say("", "POST", "/page/session", body, x_office_page="1").status, 401
        )
        self.one("//button[@aria-label='Take away: Phone']").click()
        self.told("The password of Phone is taken away.")
        self.assertEqual(
            self.world.say("", "GET", f"/dav{SALES}bo.vcf", Authorization=field).status, 401
        )
        self.fill("Old password", WORDS["omar"])
        self.fill("New password", "ten-letters-more")
        self.fill("New password again", "ten-letters-more")
        self.press("Set the password")
        self.told("The password is set.")
        self.open("/books/sales")
        self.heading("Sales")
        self.assertEqual(self.world.say("omar", "GET", f"/dav{SALES}bo.vcf").status, 401)
        self.assertEqual(
            self.world.say(
                "", "GET", f"/dav{SALES}bo.vcf", Authorization=basic("omar", "ten-letters-more")
            ).status,
            200,
        )
        self.nothing_was_blocked()

    def test_sessions_outlast_a_restart_and_a_proxy_names_who_asks(self) -> None:
        self.sign_in("hanna")
        file = self.world.path / "gateway.toml"
        settings = file.read_text()
        file.write_text(
            settings.replace(
                'service = "lister"',
                'service = "lister"\nname_field = "X-Office-Name"\nask = "Ada Moor"',
            )
        )
        self.world.gateway.terminate()
        self.world.gateway.wait(15)
        self.world.start_gateway()
        self.driver.refresh()
        self.heading("Books")
        self.one("//a[.='Hanna Kopf']")
        told = self.world.say(
            "", "GET", "/page/session", x_office_name="ivy", x_office_page="1"
        ).json()
        self.assertEqual(told, {"ask": "Ada Moor", "login": "ivy", "named": True, "person": "ivy"})
        self.assertEqual(
            self.world.say("", "GET", f"/dav{SALES}bo.vcf", x_office_name="hanna").status, 200
        )
        self.assertEqual(
            self.world.say(
                "", "GET", "/page/session", x_office_name="lister", x_office_page="1"
            ).status,
            403,
        )
        self.assertEqual(self.world.say("", "GET", "/page/session", x_office_page="1").status, 401)
        names = [one["name"] for one in self.driver.get_cookies()]
        self.assertEqual(names, [f"office_session_{self.world.port}"])


@needed
class German(Work):
    """The page in a browser whose language is German."""

    language = "de"

    def test_the_page_is_in_german(self) -> None:
        self.sign_in("hanna", "Bücher")
        self.open("/books/sales/nadia.vcf")
        self.heading("Nadia Rahman")
        said = self.text("//dl[@id='said']")
        self.assertIn("Geburtstag\n12. April 1985", said)
        self.assertIn("Anschrift (Arbeit)\nLindenstr. 5\n10115 Berlin\nGermany", said)
        self.assertEqual(self.driver.execute_script("return document.documentElement.lang"), "de")
        self.open("/edit/books/sales/nadia.vcf")
        self.heading("Nadia Rahman bearbeiten")
        self.accessible()
        self.picture("german")
        self.nothing_was_blocked()


if __name__ == "__main__":
    unittest.main()
