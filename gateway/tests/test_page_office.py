"""Six kinds of person at the page: what each finds and is offered, refusals, sharing, searching,
moving, importing."""
from __future__ import annotations

import unittest
from typing import Any

from tests.browser import By, Keys, Office, Select, card, needed

SALES = "/books/sales/"
OFFERED = """
[offered.fair]
add = ["eve"]
[offered.sales.cards]
gus = ["nadia.vcf"]
"""
NADIA = card(
    "FN:Nadia Rahman", "N:Rahman;Nadia;;;", "ORG:Linden Office", "TEL:+49 30 5550 123", "NOTE:old",
    uid="n-1",
)


def entry(principal: str, **what: Any) -> dict[str, Any]:
    """An entry of a list."""
    return {"principal": principal, **what}


@needed
class Persons(Office):
    """Administrator, head of department, assistant, receptionist, guest with one card, external;
    and one without a right."""

    more = OFFERED

    @classmethod
    def furnish(cls) -> None:
        put = {
            ("hanna", "sales/nadia"): NADIA,
            ("hanna", "sales/secret"): card("FN:Secret", uid="s-1"),
            ("hanna", "sales/mueller"): card(
                "FN:Dr. Karin Müller", "N:Müller;Karin;;Dr.;", "ORG:Acme GmbH", uid="m-1"
            ),
            ("ada", "law/contract"): card("FN:Contract Person", uid="c-1"),
            ("omar", "fair/greta"): card("FN:Greta Fair", uid="g-1"),
        }
        for (who, path), text in put.items():
            assert (
                cls.world.say(
                    who, "PUT", f"/dav/books/{path}.vcf", text, Content_Type="text/vcard"
                ).status
                == 201
            ), path
        cls.world.say(
            "hanna", "ACL", SALES + "secret.vcf", {"acl": [entry("/people/omar", deny=["read"])]}
        )
        cls.world.say(
            "hanna", "ACL", SALES + "nadia.vcf", {"acl": [entry("/people/gus", grant=["read"])]}
        )

    def own_list(self, path: str, who: str = "ada") -> list[dict[str, Any]]:
        """The own list of a place."""
        acl = self.world.say(who, "PROPFIND", path, {"prop": ["acl"]}).json()["responses"][0][
            "prop"
        ]["acl"]
        return [one for one in acl if "inherited" not in one and "protected" not in one]

    def test_each_finds_what_may_be_used(self) -> None:
        books = {
            "ada": ["Law your book", "Sales of Hanna Kopf", "Spring fair of Omar Haddad"],
            "hanna": ["Sales your book", "Spring fair of Omar Haddad"],
            "omar": ["Law of Ada Moor", "Sales of Hanna Kopf", "Spring fair your book"],
            "ivy": ["sales names only"], "eve": ["fair you may add cards"],
        }
        for who, wanted in books.items():
            self.driver.delete_all_cookies()
            self.sign_in(who)
            self.one("//ul[@id='books']")
            self.assertEqual(
                [one.text.replace("\n", " ") for one in self.all("//ul[@id='books']/li")], wanted,
                who,
            )
            self.picture(f"books-{who}")
        self.driver.delete_all_cookies()
        self.sign_in("gus")
        self.one("//ul[@id='sharedcards']//a[.='Nadia Rahman']").click()
        self.heading("Nadia Rahman")
        self.assertIn("+49 30 5550 123", self.text("//dl[@id='said']"))
        self.picture("card-gus")
        self.driver.delete_all_cookies()
        self.sign_in("nora")
        self.assertIn(
            "The office knows you, and you have no right in any book.",
            self.text("//*[@id='nobook']"),
        )
        self.picture("books-nora")
        self.nothing_was_blocked()

    def test_an_administrator_makes_a_book_and_hands_it_on(self) -> None:
        self.sign_in("ada")
        self.press("New book")
        self.fill("Name of the book", "Messe Zürich")
        self.press("Make the book")
        self.heading("Messe Zürich")
        self.addCleanup(self.world.say, "ada", "DELETE", "/books/messe-zurich")
        self.assertEqual(self.text("//main/p[@class='soft']"), "your book · 0 cards")
        self.press("Rename the book")
        self.fill("Name of the book", "Fair of Zurich")
        self.press("Save")
        self.told("The name is saved.")
        self.press("New card")
        self.fill("Name as shown", "First of the fair")
        self.press("Make the card")
        self.heading("First of the fair")
        self.press("Label of the card")
        self.fill("Label of the card", "hall 3")
        self.press("Save")
        self.told("The name is saved.")
        self.open("/access/books/messe-zurich")
        self.heading("Who may do what: Fair of Zurich")
        self.choose("With", "Office (group)")
        self.choose("Who", "changes and shares")
        self.press("Share")
        told = self.told("It is shared.")
        for name in ("Hanna Kopf", "Omar Haddad", "Ivy Cole"):
            self.assertIn(f"{name} reads, changes and shares now.", told)
        self.picture("administrator")
        self.driver.delete_all_cookies()
        self.sign_in("ivy")
        self.press("Fair of Zurich")
        self.heading("Fair of Zurich")
        self.assertIn("First of the fair\nhall 3", self.text("//ul[@id='cards']"))
        self.press("First of the fair")
        self.press("Remove")
        self.one("//dialog//button[.='Remove']").click()
        self.told("The card is removed.")
        self.nothing_was_blocked()

    def test_only_what_may_be_done_is_offered(self) -> None:
        self.sign_in("hanna")
        self.open("/books/sales")
        self.heading("Sales")
        self.assertEqual(
            self.offered(),
            ["New card", "New group", "Import a file", "Export", "Share, and who may do what"],
        )
        self.driver.delete_all_cookies()
        self.sign_in("omar")
        self.open("/books/sales")
        self.heading("Sales")
        self.assertEqual(
            self.offered(), ["New card", "New group", "Import a file", "Export", "Who may do what"]
        )
        self.assertIn(
            "1 card that you may not read\nsecret.vcf\nYou may not read this card. Hanna Kopf owns "
            "this book.",
            self.text("//div[@id='denied']"),
        )
        self.picture("book-omar")
        # What may be done in the book of law cannot be asked: it is offered to who wants to try,
        # until a try is refused.
        self.open("/books/law/contract.vcf")
        self.heading("Contract Person")
        trying = "What you may do here cannot be asked: offer what can be tried"
        self.assertEqual(
            self.offered(), ["Back to Law", "Who may do what", "Copy", "Export", trying]
        )
        self.press(trying)
        self.until(lambda: "Edit" in self.offered())
        self.press("Edit")
        self.fill("Name as shown", "Other")
        self.press("Save")
        self.told("You may not change this card. Ada Moor owns this book.")
        self.open("/books/law/contract.vcf")
        self.heading("Contract Person")
        self.assertNotIn("Edit", self.offered())
        self.driver.delete_all_cookies()
        self.sign_in("ivy")
        self.open("/books/sales")
        self.one("//ul[@id='cards']")
        self.assertEqual(self.offered(), [])
        self.assertEqual(
            [one.text for one in self.all("//ul[@id='cards']/li")],
            ["Dr. Karin Müller", "Nadia Rahman", "Secret"],
        )
        self.assertEqual(self.all("//ul[@id='cards']//a"), [])
        self.picture("book-ivy")
        self.driver.delete_all_cookies()
        self.sign_in("eve")
        self.open("/books/fair")
        self.heading("fair")
        self.assertEqual(self.offered(), ["New card", "Import a file"])
        self.press("New card")
        self.fill("Name as shown", "From outside")
        self.press("Make the card")
        self.told("The card is made. You may add cards to this book, and not read them.")
        self.picture("book-eve")
        file = self.world.path / "outside.vcf"
        file.write_text(card("FN:One of a file", uid="of-1") + card("FN:Another", uid="of-2"))
        self.press("Import a file")
        self.labelled("File of vCards").send_keys(str(file))
        self.assertEqual(self.text("//ul[@id='counts']"), "2 cards are new")
        self.press("Import")
        self.told("2 cards are imported.")
        self.assertIn("FN:Another\r\n", self.kept("/books/fair/of-2.vcf"))
        self.nothing_was_blocked()

    def test_refusals_are_in_a_persons_words_first(self) -> None:
        self.sign_in("hanna")
        self.open("/edit/books/fair/greta.vcf")
        self.heading("Edit Greta Fair")
        self.fill("Name as shown", "Greta Other")
        self.press("Save")
        told = self.told("You may not change this card. Omar Haddad owns this book.")
        self.assertTrue(
            told.startswith("You may not change this card. Omar Haddad owns this book.\n")
        )
        self.told("Own entry 4 at /books/fair denies it: everything, for everybody.")
        self.picture("refusal")
        self.driver.delete_all_cookies()
        self.sign_in("omar")
        self.open(f"{SALES}secret.vcf".replace("//", "/"))
        self.heading("This is not shown")
        self.assertEqual(
            self.text("//*[@id='cause']").split("\n"),
            [
                "You may not read this card. Hanna Kopf owns this book.",
                "Wanted: read (read) at /books/sales/secret.vcf. Entry 4 of the whole list denies "
                "it, which stands at /books/sales/secret.vcf.",
            ],
        )
        self.picture("refusal-card")
        self.driver.delete_all_cookies()
        self.sign_in("gus")
        self.open("/books/sales/mueller.vcf")
        self.heading("This is not shown")
        self.assertNotIn("Hanna", self.text())
        self.nothing_was_blocked()

    def test_sharing_a_book_and_a_card(self) -> None:
        before = self.own_list("/books/sales")
        self.sign_in("hanna")
        self.open("/access/books/sales")
        self.choose("With", "Gus Orr")
        self.choose("Who", "reads")
        self.press("Share")
        self.assertIn("Gus Orr reads now.", self.told("It is shared."))
        self.picture("sharing")
        now = self.own_list("/books/sales")
        self.assertEqual(
            [one["principal"] for one in now],
            ["owner", "/people/omar", "/groups/desk", "/people/gus", "all"],
        )
        self.press("Take it back")
        self.told("It is as it was before.")
        self.assertEqual(self.own_list("/books/sales"), before)
        # The server takes no entry that says the opposite of a protected one, and the list stays.
        self.choose("With", "lister")
        self.press("Share")
        self.told("A protected entry says the opposite of one of these entries.")
        self.assertEqual(self.own_list("/books/sales"), before)
        # An entry that an earlier one still denies is told as such.
        self.open(f"/access{SALES}secret.vcf")
        self.heading("Who may do what: Secret")
        self.choose("With", "Omar Haddad")
        self.press("Share")
        told = self.told("It is shared.")
        self.assertIn(
            "Omar Haddad may still not read. Still denied: read what cards say, see names. "
            "Own entry 1 at /books/sales/secret.vcf denies it: read, for Omar Haddad.", told,
        )
        self.press("Take it back")
        self.told("It is as it was before.")
        self.assertEqual(
            self.own_list(SALES + "secret.vcf"), [entry("/people/omar", deny=["read"])]
        )
        self.open(f"/access{SALES}mueller.vcf")
        self.heading("Who may do what: Dr. Karin Müller")
        self.choose("With", "Front desk (group)")
        self.press("Share")
        self.assertIn("Ivy Cole reads now.", self.told("It is shared."))
        self.press("Back")
        self.heading("Dr. Karin Müller")
        self.assertEqual(
            self.text("//*[@id='sharedwith']"), "Shared with Front desk (group) (reads)"
        )
        self.nothing_was_blocked()

    def test_the_list_for_who_knows_lists(self) -> None:
        self.sign_in("hanna")
        self.open(f"/access{SALES}secret.vcf")
        self.press("Edit the list that stands here")
        self.press("Add an entry")
        rows = self.all("//fieldset[contains(@class, 'entryrow')]")
        self.assertEqual(len(rows), 2)
        Select(rows[1].find_element(By.CLASS_NAME, "whom")).select_by_visible_text("Ivy Cole")
        Select(rows[1].find_element(By.CLASS_NAME, "action")).select_by_visible_text("denies")
        rows[1].find_element(By.XPATH, ".//label[normalize-space()='change']").click()
        self.picture("list-editor")
        self.press("Save the list")
        self.told("The list is saved.")
        self.assertEqual(
            self.own_list(SALES + "secret.vcf"),
            [entry("/people/omar", deny=["read"]), entry("/people/ivy", deny=["read", "write"])],
        )
        Select(self.labelled("Person")).select_by_visible_text("Ivy Cole")
        self.press("Show")
        self.assertIn("see names (x-read-names)", self.text("//table[@id='leaves']"))
        self.assertIn("which stands at /books/sales/secret.vcf", self.text("//table[@id='leaves']"))
        self.picture("who-may-do-what")
        self.press("Edit the list that stands here")
        self.all("//fieldset[contains(@class, 'entryrow')]//button[.='Take the entry away']")[
            1
        ].click()
        self.press("Save the list")
        self.told("The list is saved.")
        self.assertEqual(
            self.own_list(SALES + "secret.vcf"), [entry("/people/omar", deny=["read"])]
        )
        self.nothing_was_blocked()

    def test_searching_all_books(self) -> None:
        self.sign_in("omar")
        for words, wanted in {
            "mull": ["Dr. Karin Müller"], "mueller kar": ["Dr. Karin Müller"],
            "030 5550": ["Nadia Rahman"], "linden": ["Nadia Rahman"],
            "a": ["Greta Fair", "Nadia Rahman"],
        }.items():
            find = self.driver.find_element(By.ID, "find")
            find.send_keys(Keys.CONTROL, "a")
            find.send_keys(words)
            self.until(
                lambda: set(wanted) <= {one.text for one in self.all("//ul[@id='found']//a")}
            )
            if words != "a":
                self.until(lambda: [one.text for one in self.all("//ul[@id='found']//a")] == wanted)
        self.assertNotIn("Secret", self.text())
        self.picture("search")
        self.driver.delete_all_cookies()
        self.sign_in("ivy")
        self.driver.find_element(By.ID, "find").send_keys("rahman")
        self.until(lambda: "Nadia Rahman" in self.text("//ul[@id='found']"))
        self.assertEqual(self.all("//ul[@id='found']//a"), [])
        self.assertNotIn("5550", self.text())
        self.nothing_was_blocked()

    def test_groups_of_persons(self) -> None:
        self.sign_in("hanna")
        self.open("/groups/desk")
        self.heading("Front desk")
        self.choose("New member", "Omar Haddad")
        self.press("Add")
        self.told("Omar Haddad is a member now.")
        self.one("//button[@aria-label='Take away: Omar Haddad']").click()
        self.told("Omar Haddad is a member no more.")
        self.open("/people")
        self.heading("Persons")
        self.one("//a[.='Omar Haddad']")
        self.nothing_was_blocked()


if __name__ == "__main__":
    unittest.main()
