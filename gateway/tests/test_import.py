"""Whole books in one file, by gateway/import and gateway/export."""
from __future__ import annotations

import os
import subprocess
import unittest
from pathlib import Path

from tests.world import GATEWAY, PASSWORDS, World, program

CORPUS = Path(__file__).resolve().parent / "corpus"


def told_by(done: subprocess.CompletedProcess[bytes]) -> str:
    """What a command printed."""
    return (done.stdout + done.stderr).decode("utf-8", "replace")


class Commands(unittest.TestCase):
    """The two commands as persons, over a world of each class."""

    def run_as(self, person: str, *words: str) -> subprocess.CompletedProcess[bytes]:
        """Runs a command with a person's password."""
        login = "guest@office.example" if person == "guest" else person
        env = {**os.environ, "OFFICE_PASSWORD": PASSWORDS[login]}
        command, *rest = words
        address = f"http://127.0.0.1:{self.world.port}"
        return subprocess.run(
            [GATEWAY / command, address, "sales", "--user", login, *rest], capture_output=True,
            timeout=120, check=False, env=env,
        )

    world: World

    @classmethod
    def setUpClass(cls) -> None:
        cls.world = World()

    @classmethod
    def tearDownClass(cls) -> None:
        cls.world.close()


THERE = unittest.skipUnless(program(), "the server's program is not there: see tests/world.py")


@THERE
class Whole(Commands):
    """A whole book into a file and back."""

    def test_import_and_export(self) -> None:
        file = self.world.path / "all.vcf"
        bad = b"BEGIN:VCARD\r\nVERSION:3.0\r\nFN:Schlecht\r\nno line\r\nEND:VCARD\r\n"
        none = b"BEGIN:VCARD\nVERSION:4.0\nFN:\xff\nEND:VCARD\n"
        good = sorted(CORPUS.glob("*.vcf"))
        file.write_bytes(b"".join(path.read_bytes() for path in good) + bad + none)
        tried = self.run_as("head", "import", str(file), "--dry-run")
        self.assertIn(f"{len(good)} would be put, 2 refused", told_by(tried))
        put = self.run_as("head", "import", str(file))
        self.assertEqual(put.returncode, 1, told_by(put))
        self.assertIn(f"{len(good)} put, 2 refused", told_by(put))
        line = "(Schlecht): refused. Line 4 of the card is refused (bad-line)"
        self.assertIn(line, told_by(put))
        self.assertIn(line, told_by(tried))
        tried = self.run_as("head", "import", str(file), "--dry-run")
        self.assertIn(f"0 would be put, {len(good) + 2} refused", told_by(tried))
        again = self.run_as("head", "import", str(file))
        self.assertIn(f"0 put, {len(good) + 2} refused", told_by(again))
        replaced = self.run_as("head", "import", str(file), "--replace")
        self.assertIn(f"{len(good)} put, 2 refused", told_by(replaced))
        for version in ("4.0", "3.0"):
            whole = self.run_as("guest", "export", "--version", version)
            self.assertEqual(whole.returncode, 0, whole.stderr.decode())
            self.assertEqual(whole.stdout.count(b"BEGIN:VCARD\r\n"), len(good))
            self.assertEqual(whole.stdout.count(f"VERSION:{version}\r\n".encode()), len(good))
        file.write_bytes(whole.stdout)
        back = self.run_as("head", "import", str(file), "--replace")
        self.assertEqual(back.returncode, 0, told_by(back))
        self.assertIn(f"{len(good)} put, 0 refused", told_by(back))


@THERE
class Some(Commands):
    """Cards of all kinds."""

    def test_refused_cards_are_corrected_and_imported_again(self) -> None:
        file, left = self.world.path / "some.vcf", self.world.path / "left.vcf"
        one = b"BEGIN:VCARD\r\nVERSION:4.0\r\nUID:left-1\r\nFN:Gut\r\nEND:VCARD\r\n"
        two = b"BEGIN:VCARD\r\nVERSION:2.1\r\nN:\xd6z;J\xfcrgen\r\nno line\r\nEND:VCARD\r\n"
        file.write_bytes(one + two)
        put = self.run_as("head", "import", str(file), "--refused", str(left))
        self.assertEqual((put.returncode, left.read_bytes()), (1, two), told_by(put))
        self.assertIn(f"It is card 1 of {left}.", told_by(put))
        left.write_bytes(two.replace(b"no line\r\n", b"NOTE:a line\r\n"))
        put = self.run_as("head", "import", str(left))
        self.assertEqual(put.returncode, 0, told_by(put))
        self.assertIn("card 1 (J\u00fcrgen \u00d6z):", told_by(put))
        self.assertIn("(mended: it is of version 2.1; a card without FN)", told_by(put))

    def test_two_different_cards_with_one_uid_never_overwrite_each_other(self) -> None:
        file = self.world.path / "two.vcf"
        text = "BEGIN:VCARD\nVERSION:4.0\nUID:same\nFN:{}\nEND:VCARD\n"
        file.write_text(text.format("Eins") + text.format("Zwei") + text.format("Eins"))
        for words in (["--dry-run"], [], ["--replace"]):
            put = self.run_as("head", "import", str(file), *words)
            self.assertEqual(put.returncode, 1)
            self.assertIn("card 2 (Zwei): refused. it has the UID of card 1", told_by(put))
            self.assertIn("card 3 (Eins): same.vcf is there: it is card 1", told_by(put))
        self.assertIn("FN:Eins", self.world.say("head", "GET", "/books/sales/same.vcf").text)

    def test_a_card_that_a_client_named_otherwise_is_replaced_where_it_is(self) -> None:
        file = self.world.path / "there.vcf"
        text = "BEGIN:VCARD\nVERSION:4.0\nUID:there\nFN:{}\nEND:VCARD\n"
        there = "/dav/books/sales/" + "t" * 99 + "@x.vcf"
        self.assertEqual(self.world.say("head", "PUT", there, text.format("Alt")).status, 201)
        file.write_text(text.format("Neu"))
        put = self.run_as("head", "import", str(file))
        self.assertIn("a card of that name is there", told_by(put))
        put = self.run_as("head", "import", str(file), "--replace")
        self.assertIn("@x.vcf is replaced", told_by(put))
        self.assertIn("FN:Neu", self.world.say("head", "GET", there).text)

    def test_a_set_of_characters(self) -> None:
        file = self.world.path / "latin.vcf"
        text = "BEGIN:VCARD\nVERSION:3.0\nUID:latin\nFN:J\u00fcrgen \u20ac\nN:J;;;;\nEND:VCARD\n"
        file.write_bytes(text.encode("windows-1252"))
        self.assertEqual(self.run_as("head", "import", str(file)).returncode, 1)
        put = self.run_as("head", "import", str(file), "--charset", "windows-1252")
        self.assertEqual(put.returncode, 0, told_by(put))
        kept = self.world.say("head", "GET", "/books/sales/latin.vcf").body.decode()
        self.assertIn("FN:J\u00fcrgen \u20ac", kept)
        put = self.run_as("head", "import", str(file), "--charset", "none-such")
        self.assertEqual((put.returncode, b"none-such" in put.stderr), (3, True))

    def test_a_terminal_is_told_how_far_it_has_come(self) -> None:
        file = self.world.path / "far.vcf"
        text = "BEGIN:VCARD\nVERSION:4.0\nUID:far-{0}\nFN:{0}\nEND:VCARD\n"
        file.write_text("".join(text.format(number) for number in range(9)))
        words = f"{GATEWAY}/import http://127.0.0.1:{self.world.port} sales --user head {file}"
        env = {**os.environ, "OFFICE_PASSWORD": PASSWORDS["head"]}
        done = subprocess.run(
            ["script", "-qec", words, "/dev/null"], capture_output=True, timeout=120, check=False,
            env=env, stdin=subprocess.DEVNULL,
        )
        self.assertIn(b"1 of 9", done.stdout)
        self.assertIn(b"9 put, 0 refused", done.stdout)

    def test_rights_are_the_server_s(self) -> None:
        file = self.world.path / "one.vcf"
        file.write_text("BEGIN:VCARD\nVERSION:4.0\nUID:of-the-guest\nFN:Gast\nEND:VCARD\n")
        refused = self.run_as("guest", "import", str(file))
        self.assertEqual(refused.returncode, 1)
        self.assertIn("You lack the privilege bind at /books/sales", refused.stdout.decode())
        env = {**os.environ, "OFFICE_PASSWORD": PASSWORDS["assistant"]}
        address = f"http://127.0.0.1:{self.world.port}"
        nowhere = subprocess.run(
            [GATEWAY / "export", address, "law", "--user", "assistant"],
            capture_output=True, timeout=60, check=False, env=env,
        )
        self.assertEqual((nowhere.returncode, nowhere.stdout), (1, b""))
        self.assertIn("You lack the privilege read at /books/law", nowhere.stderr.decode())
        wrong = subprocess.run(
            [GATEWAY / "export", "http://office.example", "sales", "--user", "head"],
            capture_output=True, timeout=60, check=False, env=env,
        )
        self.assertEqual(wrong.returncode, 3)


if __name__ == "__main__":
    unittest.main()
