"""What the page asks for, without a server: rows and their search, previews of imports, devices,
passwords, sessions."""
from __future__ import annotations

import asyncio
import tempfile
import unittest
from pathlib import Path
from types import SimpleNamespace
from typing import Any

import bcrypt

from office_gateway.accounts import Changed, Devices
from office_gateway.config import People
from office_gateway.page import files_of
from office_gateway.passwords import Passwords
from office_gateway.preview import preview
from office_gateway.refusals import Refusal
from office_gateway.rows import Index, Row, Rows, found, row_of, words_of
from office_gateway.sessions import Sessions, cookie_name, word_of
from office_gateway.texts import tag_of

CARDS = {
    "a": (
        "FN:Dr. Karin Müller", "N:Müller;Karin;;Dr.;", "ORG:Acme GmbH;Einkauf",
        "EMAIL:k@acme.example",
    ),
    "b": ("FN:José Núñez", "ORG:Alvarez y Hijos", "item1.TEL;TYPE=\"a:b\",c:+34 (91) 555-12"),
    "c": ("FN:Bo\\, the", " second", "UID:urn:uuid:bo", "TEL;VALUE=uri:tel:+49-30-1"),
    "d": ("KIND:group", "FN:Team", "MEMBER:urn:uuid:bo", "UID:t"),
    "e": ("FN:Łukasz Straße", "NICKNAME:Øle"),
}


def text_of(lines: tuple[str, ...]) -> str:
    """The text of a card."""
    return "\r\n".join(("BEGIN:VCARD", "VERSION:4.0", *lines, "END:VCARD", ""))


ROWS = [row_of(f"/books/x/{name}", text_of(lines)) for name, lines in CARDS.items()]


class Searching(unittest.TestCase):
    """Rows of cards, found by words and put in order."""

    def names(self, words: str) -> list[str]:
        """The last parts of the paths of what is found."""
        return [row.path[-1] for row in found(ROWS, words_of(words))]

    def test_rows_say_what_cards_say(self) -> None:
        self.assertEqual(
            [row.shown for row in ROWS],
            ["Dr. Karin Müller", "José Núñez", "Bo, thesecond", "Team", "Łukasz Straße"],
        )
        self.assertEqual(
            (ROWS[0].family, ROWS[1].family, ROWS[0].organisation), ("Müller", "Núñez", "Acme GmbH")
        )
        self.assertEqual(
            (ROWS[1].phones, ROWS[2].phones, ROWS[0].mails),
            (("+34 (91) 555-12",), ("+49-30-1",), ("k@acme.example",)),
        )
        self.assertEqual(
            (ROWS[3].group, ROWS[3].members, ROWS[2].uid), (True, ("urn:uuid:bo",), "urn:uuid:bo")
        )
        index = Index(None, {row.path: row for row in ROWS})
        self.assertEqual([row.path[-1] for row in index.groups_of("urn:uuid:bo")], ["d"])

    def test_words_are_found_without_accents(self) -> None:
        for words in ("muller", "MÜLLER", "mueller", "mull kar", "einkauf", "acme.example"):
            self.assertEqual(self.names(words), ["a"], words)
        self.assertEqual(
            (
                self.names("nunez"), self.names("lukasz strasse"), self.names("ole"),
                self.names("nobody"),
            ),
            (["b"], ["e"], ["e"], []),
        )

    def test_numbers_are_found_by_their_digits(self) -> None:
        for words in ("91 555", "(91)55512", "+34 91", "0034 91", "555-1"):
            self.assertEqual(self.names(words), ["b"], words)
        self.assertEqual((self.names("030 1"), words_of("0"), words_of("+")), (["c"], [], ["+"]))

    def test_what_begins_with_the_word_is_first(self) -> None:
        rows = [
            Row("/1", "Nora Anna", words="nora anna"), Row("/2", "Hanna", words="hanna"),
            Row("/3", "Anna", words="anna"),
        ]
        self.assertEqual([row.path for row in found(rows, ["anna"])], ["/1", "/3", "/2"])

    def test_two_orders(self) -> None:
        index = Index(None, {row.path: row for row in ROWS})
        self.assertEqual(
            [row.path[-1] for row in index.ordered("family")], ["a", "b", "e", "d", "c"]
        )
        self.assertEqual(
            [row.path[-1] for row in index.ordered("organisation")], ["a", "b", "e", "d", "c"]
        )

    def test_rows_are_made_anew_only_of_what_changed(self) -> None:
        held = {name: held_of(text_of(lines)) for name, lines in CARDS.items()}
        rows = Rows(SimpleNamespace(), SimpleNamespace())  # type: ignore[arg-type]
        first = asyncio.run(rows._made("x", held, {}))  # pylint: disable=protected-access
        held["a"] = held_of(text_of(("FN:Other",)))
        second = asyncio.run(rows._made("x", held, first))  # pylint: disable=protected-access
        self.assertEqual([name for name in held if first[name] is not second[name]], ["a"])


def held_of(text: str) -> Any:
    """What a copy has of a card."""
    return SimpleNamespace(text=text, tag=tag_of(text), label="")


class Previews(unittest.TestCase):
    """What an import would do."""

    def test_new_same_other_and_refused(self) -> None:
        own = text_of(("UID:urn:uuid:bo", "FN:Bo"))
        held = {"bo.vcf": held_of(own)}
        index = Index(held, {"bo.vcf": row_of("/books/x/bo.vcf", own)})
        texts = [
            own, own.replace("FN:Bo", "FN:Else"), text_of(("UID:n", "FN:New")),
            "BEGIN:VCARD\r\nVERSION:4.0\r\nFN:a\r\nno line\r\nEND:VCARD\r\n",
        ]
        told = preview("/books/x", texts, index)
        self.assertEqual([one["state"] for one in told], ["same", "other", "new", "refused"])
        self.assertEqual(told[1]["path"], "/books/x/bo.vcf")
        self.assertEqual((told[3]["fault"], told[3]["line"]), ("bad-line", 4))


class Accounts(unittest.TestCase):
    """Passwords of devices and of persons, and sessions, in files of their own."""

    def setUp(self) -> None:
        folder = tempfile.TemporaryDirectory()
        self.addCleanup(folder.cleanup)
        self.folder = Path(folder.name)

    def test_a_device_has_a_password_until_it_is_taken_away(self) -> None:
        devices = Devices(self.folder / "devices.json")
        word, other = devices.make("ann", "Phone"), devices.make("ann", "Tablet")
        self.assertNotEqual(word, other)
        self.assertNotIn(word, (self.folder / "devices.json").read_text())
        self.assertEqual((self.folder / "devices.json").stat().st_mode & 0o777, 0o600)
        again = Devices(self.folder / "devices.json")
        self.assertTrue(
            again.has("ann", word)
            and again.has("ann", word.upper().replace("-", " "))
            and again.has("ann", other)
        )
        self.assertFalse(
            again.has("bob", word) or again.has("ann", word[:-1]) or again.has("ann", "")
        )
        again.take_away("ann", again.listed("ann")[0]["id"])
        self.assertEqual(
            (
                again.has("ann", word), again.has("ann", other),
                [one["name"] for one in again.listed("ann")],
            ),
            (False, True, ["Tablet"]),
        )
        with self.assertRaises(Refusal):
            again.take_away("ann", "none")

    def test_a_password_that_is_set_stands_until_it_is_filed_anew(self) -> None:
        async def tried() -> None:
            file = self.folder / "passwords"
            file.write_text(f"ann:{bcrypt.hashpw(b'first-word', bcrypt.gensalt(10)).decode()}\n")
            passwords = Passwords(People(passwords=file), Changed(self.folder / "changed.json"))
            mark = passwords.mark("ann")
            with self.assertRaises(Refusal):
                await passwords.change("ann", "short")
            await passwords.change("ann", "second-word")
            self.assertEqual(
                [await passwords.check("ann", word) for word in ("first-word", "second-word")],
                [None, "ann"],
            )
            self.assertNotEqual(passwords.mark("ann"), mark)
            passwords.close()
            again = Passwords(People(passwords=file), Changed(self.folder / "changed.json"))
            self.assertEqual(await again.check("ann", "second-word"), "ann")
            again.close()
            file.write_text(f"ann:{bcrypt.hashpw(b'third-word!', bcrypt.gensalt(10)).decode()}\n")
            anew = Passwords(People(passwords=file), Changed(self.folder / "changed.json"))
            self.assertEqual(
                [await anew.check("ann", word) for word in ("third-word!", "second-word")],
                ["ann", None],
            )
            anew.close()

        asyncio.run(tried())

    def test_sessions_outlast_a_restart(self) -> None:
        file = self.folder / "sessions.json"
        word = Sessions(60, "one", file).begin("ann@x", "ann", b"m")
        self.assertNotIn(word, file.read_text())
        again = Sessions(60, "one", file)
        session = again.person(word)
        self.assertTrue(
            session and (session.login, session.person, session.mark) == ("ann@x", "ann", b"m")
        )
        again.end(word)
        self.assertIsNone(Sessions(60, "one", file).person(word))
        self.assertEqual(word_of("a=b; one=x", "one"), "x")
        self.assertNotEqual(cookie_name(1, False), cookie_name(2, False))
        file.write_text('{"zz": [], "00": ["a", "b", null, "x"]}')
        Sessions(60, "one", file)

    def test_the_files_of_the_page(self) -> None:
        files = files_of(Path(__file__).resolve().parent.parent / "page")
        self.assertEqual(files["languages.js"][1], b'export default ["de", "en"];\n')
        self.assertEqual(files[""][0], "text/html")
        for name, (_, body) in files.items():
            if name.endswith(".js"):
                most = 800 if name.startswith("texts.") else 400
                self.assertLess(body.count(b"\n"), most, name)
        self.assertNotRegex(files[""][1].decode(), r"<style| style=| on\w+=|https?://")


if __name__ == "__main__":
    unittest.main()
