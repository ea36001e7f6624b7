"""vCard 3.0 to 4.0 and back, by cards that the standards and phones write."""
from __future__ import annotations

import random
import re
import unittest
from pathlib import Path

from office_gateway import convert, dates
from office_gateway.vcard import folded, read, unfolded, unfolded_text

CORPUS = Path(__file__).resolve().parent / "corpus"
TYPES = (("PREF", "1"), ("TYPE", "home"), ("TYPE", "voice"))
KEPT = ("NOTE", "FN", "N", "EMAIL", "TEL", "ORG", "ADR", "UID", "CATEGORIES", "TITLE")


def card(*lines: str, version: str = "3.0") -> str:
    """A card of these lines."""
    return "\r\n".join(["BEGIN:VCARD", f"VERSION:{version}", *lines, "END:VCARD", ""])


def four(*lines: str) -> list[str]:
    """The lines of 4.0 that say what these of 3.0 say."""
    made = convert.to_four(card(*lines))
    assert made is not None
    return unfolded(made.text)[2:-1]


def three(*lines: str) -> list[str]:
    """The lines of 3.0 that say what these of 4.0 say, but the name that is made."""
    made = unfolded(convert.to_three(card(*lines, version="4.0")))
    return [line for line in made[2:-1] if "X-MADE-OF" not in line]


def said(text: str) -> list[tuple]:
    """What a card says, without regard to the order of parameters and to how they are quoted."""
    lines = []
    for line in read(text):
        joined = [(name.upper(), ",".join(values).lower()) for name, values in line.params]
        params = sorted((name, word) for name, words in joined for word in words.split(","))
        lines.append((line.group, line.name.upper(), tuple(params), line.value))
    return sorted(lines)


class ToFour(unittest.TestCase):
    """Rows of the table of RFC 6350, appendix A, and of sections 5 and 6."""

    rows = {
        "EMAIL;TYPE=INTERNET,PREF:a@b.example": "EMAIL;PREF=1:a@b.example",
        "EMAIL;type=INTERNET;type=WORK:a@b.example": "EMAIL;type=WORK:a@b.example",
        "TEL;TYPE=home;TYPE=pref:+1": "TEL;TYPE=home;PREF=1:+1",
        "TEL;VALUE=phone-number:+1": "TEL:+1",
        "ADR;TYPE=dom,home,postal:;;a;;;;": "ADR;TYPE=home:;;a;;;;",
        "BDAY:1985-04-12": "BDAY:19850412",
        "BDAY;VALUE=date:1985-04-12": "BDAY:19850412",
        "BDAY:1953-10-15T23:10:00Z": "BDAY:19531015T231000Z",
        "BDAY:--05-17": "BDAY:--0517",
        "BDAY;X-APPLE-OMIT-YEAR=1604:1604-04-12": "BDAY:--0412",
        "BDAY:around 1900": "BDAY;VALUE=text:around 1900",
        "REV:1995-10-31T22:27:10.500-05:00": "REV:19951031T222710-0500",
        "GEO:37.386013;-122.082932": "GEO:geo:37.386013,-122.082932",
        "TZ:-05:00": "TZ;VALUE=utc-offset:-0500",
        "TZ;VALUE=text:Raleigh": "TZ:Raleigh",
        "UID:abc": "UID;VALUE=text:abc",
        "UID:urn:uuid:4fbe8971-0bc3-424c-9c26-36c3e1eff6b1":
            "UID:urn:uuid:4fbe8971-0bc3-424c-9c26-36c3e1eff6b1",
        "PHOTO;ENCODING=b;TYPE=JPEG:/9j/AA==": "PHOTO:data:image/jpeg;base64,/9j/AA==",
        "PHOTO;ENCODING=B:iVBORw==": "PHOTO:data:image/png;base64,iVBORw==",
        "PHOTO;VALUE=uri;TYPE=GIF:http://a.example/b":
            "PHOTO;MEDIATYPE=image/gif:http://a.example/b",
        "KEY;ENCODING=b;TYPE=PGP:AAAA": "KEY:data:application/pgp-keys;base64,AAAA",
        "CLASS:PUBLIC": "X-CLASS:PUBLIC",
        "MAILER:Pigeon": "X-MAILER:Pigeon",
        "AGENT;VALUE=uri:cid:a@b": "RELATED;VALUE=uri;TYPE=agent:cid:a@b",
        "AGENT:BEGIN:VCARD\\nFN:x": "X-AGENT:BEGIN:VCARD\\nFN:x",
        "NOTE;CHARSET=UTF-8:a": "NOTE:a",
        "X-GENDER:M": "GENDER:M",
        "X-GENDER:male": "X-GENDER:male",
        "X-ANNIVERSARY:1996-04-15": "ANNIVERSARY:19960415",
        "item1.X-ABLabel:_$!<Home>!$_": "item1.X-ABLabel:_$!<Home>!$_",
        "X-ADDRESSBOOKSERVER-MEMBER:urn:uuid:a": "X-ADDRESSBOOKSERVER-MEMBER:urn:uuid:a",
    }

    def test_rows(self) -> None:
        for line, wanted in self.rows.items():
            with self.subTest(line):
                self.assertEqual(four("FN:A", line), ["FN:A", wanted])

    def test_version_goes_to_line_two(self) -> None:
        made = convert.to_four("BEGIN:VCARD\nFN:A\nVERSION:3.0\nEND:VCARD\n")
        assert made is not None
        self.assertEqual(made.text, "BEGIN:VCARD\r\nVERSION:4.0\r\nFN:A\r\nEND:VCARD\r\n")
        self.assertEqual(made.origins, [1, 3, 2, 4])

    def test_a_label_goes_to_the_address_of_its_types(self) -> None:
        label = "LABEL;TYPE=home,parcel:one\\ntwo \\, \"three\""
        lines = four("FN:A", label, "ADR;TYPE=work:;;w;;;;", "ADR;TYPE=HOME:;;h;;;;")
        moved = "ADR;TYPE=HOME;LABEL=\"one^ntwo , ^'three^'\":;;h;;;;"
        self.assertEqual(lines, ["FN:A", "ADR;TYPE=work:;;w;;;;", moved])

    def test_a_label_without_its_address_stays(self) -> None:
        lines = four("FN:A", "ADR;TYPE=home:;;h;;;;", "LABEL;TYPE=work:w")
        self.assertEqual(lines[2], "X-LABEL;TYPE=work:w")

    def test_the_text_to_sort_by_goes_to_the_name(self) -> None:
        lines = four("FN:A", "SORT-STRING:Harten", "N:van der Harten;R;;;")
        self.assertEqual(lines, ["FN:A", "N;SORT-AS=Harten:van der Harten;R;;;"])

    def test_a_group_of_phones(self) -> None:
        start = "X-ADDRESSBOOKSERVER"
        lines = four("FN:G", f"{start}-KIND:group", f"{start}-MEMBER:urn:uuid:a")
        self.assertEqual(lines, ["FN:G", "KIND:group", "MEMBER:urn:uuid:a"])

    def test_other_versions_are_left(self) -> None:
        for text in (card("FN:A", version="4.0"), card("FN:A", version="2.1"), "", "FN:A"):
            self.assertIsNone(convert.to_four(text))

    def test_a_line_that_is_none_stays_and_keeps_its_number(self) -> None:
        made = convert.to_four("BEGIN:VCARD\r\nFN:A\r\nno line\r\nVERSION:3.0\r\nEND:VCARD\r\n")
        assert made is not None
        lines = unfolded(made.text)
        self.assertEqual(made.origin(lines.index("no line") + 1), 3)
        self.assertEqual(made.origin(len(lines) + 1), 6)
        self.assertEqual(made.origin(0), 0)

    def test_long_lines_are_folded_between_characters(self) -> None:
        made = convert.to_four(card("FN:A", "NOTE:" + "ä€😀" * 40))
        assert made is not None
        for line in made.text.split("\r\n"):
            self.assertLessEqual(len(line.encode()), 75)
        self.assertIn("NOTE:" + "ä€😀" * 40, unfolded(made.text))


class ToThree(unittest.TestCase):
    """The same back."""

    rows = {
        'TEL;VALUE=uri;TYPE="voice,home";PREF=1:tel:+1-5;ext=5':
            "TEL;TYPE=voice,home;TYPE=pref:+1-5\\;ext=5",
        "EMAIL;PREF=20:a@b.example": "EMAIL;X-PREF=20:a@b.example",
        "BDAY:19850412": "BDAY:1985-04-12",
        "BDAY:--0412": "BDAY;X-APPLE-OMIT-YEAR=1604:1604-04-12",
        "BDAY:1985": "X-BDAY:1985",
        "REV:20080424T195243Z": "REV:2008-04-24T19:52:43Z",
        "GEO:geo:46.7,-71.2": "GEO:46.7;-71.2",
        "TZ;VALUE=utc-offset:-0500": "TZ:-05:00",
        "TZ:Raleigh": "TZ;VALUE=text:Raleigh",
        "UID;VALUE=text:abc": "UID:abc",
        "PHOTO:data:image/jpeg;base64,AAAA": "PHOTO;ENCODING=b;TYPE=JPEG:AAAA",
        "PHOTO;MEDIATYPE=image/gif:http://a.example/b":
            "PHOTO;VALUE=uri;TYPE=GIF:http://a.example/b",
        "KIND:group": "X-ADDRESSBOOKSERVER-KIND:group",
        "MEMBER:urn:uuid:a": "X-ADDRESSBOOKSERVER-MEMBER:urn:uuid:a",
        "X-CLASS:PUBLIC": "CLASS:PUBLIC",
    }

    def test_rows(self) -> None:
        for line, wanted in self.rows.items():
            with self.subTest(line):
                self.assertEqual(three("FN:A", line), ["FN:A", wanted])

    def test_a_name_is_made_where_there_is_none(self) -> None:
        text = convert.to_three(card("FN:Anna\\, B", version="4.0"))
        self.assertIn("N;X-MADE-OF=FN:Anna\\, B;;;;", unfolded(text))
        back = convert.to_four(text)
        assert back is not None
        wanted = ["BEGIN:VCARD", "VERSION:4.0", "FN:Anna\\, B", "END:VCARD"]
        self.assertEqual(unfolded(back.text), wanted)

    def test_a_card_of_lines_that_stay_is_told_as_line_by_line(self) -> None:
        name = "N:a;b;;;"
        kept = [
            (name, "FN:Bo"), (name, "FN:Dr. Karin Müller", "ORG:Acme GmbH;Straße"),
            (name, "FN:日本", "TEL;TYPE=work;TYPE=cell:+49\\, 1"), (name, "NOTE:" + "a" * 70),
            ("N;TYPE=x:a", "UID:urn:uuid:1"),
        ]
        others = [
            (name, "NOTE:" + "a" * 71), (name, "NOTE:" + "ä" * 40), (name, "FN:日本" * 8), ("FN:Bo",),
            (name, "FN:a", " folded"), (name, "BDAY:19850412"), (name, "item1.TEL:1"), ("X:N:",),
            (name, "FN:a\x00b"), (name, ""), (name, "EMAIL;PREF=1:a"), (name, "TEL;TYPE=A:1"),
        ]
        for lines in kept + others:
            with self.subTest(lines):
                text = card(*lines, version="4.0")
                self.assertEqual(convert.to_three(text), convert.line_by_line_to_three(text))
                self.assertEqual(convert.SAME_CARD.fullmatch(text) is not None, (
                    lines in kept or lines == ("FN:Bo",)
                ))
        for path in sorted(CORPUS.glob("*-4.vcf")):
            text = path.read_bytes().decode()
            self.assertEqual(convert.to_three(text), convert.line_by_line_to_three(text))

    def test_cards_of_other_versions_stay(self) -> None:
        for text in (card("FN:A"), "", "no card"):
            self.assertEqual(convert.to_three(text), text)


class Folds(unittest.TestCase):
    """Folds of lines (RFC 6350, section 3.2)."""

    def test_unfolding_takes_each_line_end_before_a_space_or_a_tab(self) -> None:
        dice = random.Random(1)
        for _ in range(20_000):
            text = "".join(dice.choice("a\r\n \t") for _ in range(dice.randrange(12)))
            self.assertEqual(unfolded_text(text), re.sub(r"\r?\n[ \t]", "", text), repr(text))

    def test_a_folded_line_comes_back_and_no_part_is_too_long(self) -> None:
        for size in (0, 1, 74, 75, 76, 149, 150, 1_000):
            for line in ("a" * size, "ä" * size, "a😀" * size):
                text = folded(line)
                self.assertEqual(unfolded(text), [line])
                lengths = [len(part.encode()) for part in text.split("\r\n")]
                self.assertLessEqual(max(lengths), 75)
                full = [length for length in lengths[:-2] if length < 72]
                self.assertEqual(full, [])


class Corpus(unittest.TestCase):
    """Each card of the corpus."""

    def test_four_to_three_and_back_says_the_same(self) -> None:
        for path in sorted(CORPUS.glob("*-4.vcf")):
            with self.subTest(path.name):
                text = path.read_bytes().decode()
                made = convert.to_three(text)
                self.assertEqual(unfolded(made)[1], "VERSION:3.0")
                back = convert.to_four(made)
                assert back is not None
                wanted = [line for line in said(text)]
                if path.name == "whole-4.vcf":
                    # A telephone number is a text in 3.0, and stays one.
                    wanted = [
                        ("", "TEL", TYPES, "+1-555-555-5555\\;ext=5555")
                        if line[3].startswith("tel:") else line
                        for line in wanted
                    ]
                self.assertEqual(said(back.text), sorted(wanted))

    def test_three_to_four_and_back_and_again_is_steady(self) -> None:
        for path in sorted(CORPUS.glob("*-3.vcf")):
            with self.subTest(path.name):
                first = convert.to_four(path.read_bytes().decode())
                assert first is not None
                second = convert.to_four(convert.to_three(first.text))
                assert second is not None
                self.assertEqual(said(second.text), said(first.text))

    def test_every_value_of_a_card_of_three_is_kept(self) -> None:
        for path in sorted(CORPUS.glob("*-3.vcf")):
            text = path.read_bytes().decode()
            made = convert.to_four(text)
            assert made is not None
            for line in read(text):
                if line.is_named(*KEPT):
                    with self.subTest(f"{path.name} {line.name}"):
                        self.assertIn(line.value, [other.value for other in read(made.text)])


class Dates(unittest.TestCase):
    """Dates that the two versions write."""

    def test_none_where_there_is_no_date(self) -> None:
        for text in ("", "1985", "12 April", "1985-4-1"):
            self.assertIsNone(dates.to_four(text))
        for text in ("--0412", "1985", "x"):
            self.assertIsNone(dates.to_three(text))

    def test_partial(self) -> None:
        for text in ("1985", "1985-04", "--04", "---12", "T102200"):
            self.assertTrue(dates.is_partial(text))
        self.assertFalse(dates.is_partial("circa 1985"))


if __name__ == "__main__":
    unittest.main()
