"""Cards that clients send, in the form that the server takes: old versions, faults, photos."""
from __future__ import annotations

import base64
import io
import random
import unittest
import unittest.mock

try:
    from hypothesis import given, settings
    from hypothesis import strategies as some
except ImportError:
    some = None  # type: ignore[assignment]

from office_gateway import mending, old, photos, taking
from office_gateway.vcard import read, unfolded


def card(*lines: str, version: str = "4.0") -> str:
    """A card of these lines."""
    return "\r\n".join(["BEGIN:VCARD", f"VERSION:{version}", *lines, "END:VCARD", ""])


def kept(*lines: str, version: str = "4.0") -> list[str]:
    """The lines between VERSION and END of what is kept of a card."""
    return unfolded(taking.taken(card(*lines, version=version).encode()).data.decode())[2:-1]


class Old(unittest.TestCase):
    """Lines of 2.1 as they are kept."""

    rows = {
        "TEL;HOME;VOICE;PREF:+1 555": "TEL;TYPE=HOME,VOICE;PREF=1:+1 555",
        "EMAIL;INTERNET:a@b.example": "EMAIL:a@b.example",
        "TEL;TYPE=CELL:+2": "TEL;TYPE=CELL:+2",
        "N;CHARSET=UTF-8;ENCODING=QUOTED-PRINTABLE:=C3=96z;J=C3=BCrgen;;;": "N:Öz;Jürgen;;;",
        "N;CHARSET=ISO-8859-1;QUOTED-PRINTABLE:=D6z;J=FCrgen": "N:Öz;Jürgen",
        "NOTE;ENCODING=QUOTED-PRINTABLE:one=0D=0Atwo=3B, =\r\nthree": "NOTE:one\\ntwo\\;\\, three",
        "ADR;WORK;ENCODING=QUOTED-PRINTABLE:;;a=0Ab;Town, x;;;":
            "ADR;TYPE=WORK:;;a\\nb;Town\\, x;;;",
        "ORG:ABC, Inc.;R\\;D": "ORG:ABC\\, Inc.;R\\;D",
        "PHOTO;JPEG;BASE64:/9j/AAAA\r\n BBBB\r\n CC==\r\n":
            "PHOTO:data:image/jpeg;base64,/9j/AAAABBBBCC==",
        "PHOTO;TYPE=GIF;ENCODING=BASE64:\r\nR0lG\r\nAAAA\r\n":
            "PHOTO:data:image/gif;base64,R0lGAAAA",
        "PHOTO;VALUE=URL;TYPE=GIF:http://a.example/b":
            "PHOTO;MEDIATYPE=image/gif:http://a.example/b",
        "X-ANDROID_CUSTOM:vnd;1;;": "X-ANDROID-CUSTOM:vnd;1;;",
        "CATEGORIES:a,b": "CATEGORIES:a,b",
        "BDAY:1985-04-12": "BDAY:19850412",
        "LABEL;WORK;ENCODING=QUOTED-PRINTABLE:a=0D=0Ab": "X-LABEL;TYPE=WORK:a\\nb",
        "AGENT:\r\nBEGIN:VCARD\r\nVERSION:2.1\r\nN:F\r\nEND:VCARD":
            "X-AGENT:BEGIN:VCARD\\nVERSION:2.1\\nN:F\\nEND:VCARD",
        "SOUND;X-IRMC-N:yomi": "SOUND;VALUE=text;TYPE=X-IRMC-N:yomi",
        "item1.TEL;WORK:+3": "item1.TEL;TYPE=WORK:+3",
    }

    def test_rows(self) -> None:
        for line, wanted in self.rows.items():
            with self.subTest(line):
                self.assertEqual(kept("FN:A", line, version="2.1"), ["FN:A", wanted])

    def test_bytes_of_other_sets_of_characters(self) -> None:
        rows = {
            b"FN;CHARSET=ISO-8859-1:J\xfcrgen": "FN:Jürgen",
            b"FN;CHARSET=Shift_JIS:\x8e\x52\x93\x63": "FN:山田",
            b"FN:J\xfcrgen \x80": "FN:Jürgen €",
            "FN;CHARSET=ISO-8859-1:Jürgen".encode(): "FN:Jürgen",
            b"FN;CHARSET=none-such:J\xfcrgen": "FN:Jürgen",
        }
        for line, wanted in rows.items():
            with self.subTest(line):
                text = b"BEGIN:VCARD\r\nVERSION:2.1\r\n" + line + b"\r\nEND:VCARD\r\n"
                self.assertEqual(unfolded(taking.taken(text).data.decode())[2], wanted)

    def test_a_line_that_is_none_keeps_its_number(self) -> None:
        made = old.to_three("BEGIN:VCARD\nVERSION:2.1\nN:A\nno line\nEND:VCARD\n")
        self.assertEqual((unfolded(made.text)[3], made.origin(4)), ("no line", 4))


class Mending(unittest.TestCase):
    """Faults that are mended, and what is told of them."""

    rows = [
        (["FN:A", "X_PHONE_1:b"], ["FN:A", "X-PHONE-1:b"]),
        (["FN:A", "TEL;X_A=1:b"], ["FN:A", "TEL;X-A=1:b"]),
        (["FN:A", "item_1.TEL:b"], ["FN:A", "item-1.TEL:b"]),
        (["FN:A", "NOTE:a\x0bb\x7fc"], ["FN:A", "NOTE:abc"]),
        (["FN:A", 'ADR;LABEL="a "b" c":;;d;;;;'], ["FN:A", "ADR;LABEL=a ^'b^' c:;;d;;;;"]),
        (["FN:A", 'TEL;TYPE=a"b:1'], ["FN:A", "TEL;TYPE=ab:1"]),
        (["FN:A", "TEL;HOME:1"], ["FN:A", "TEL;TYPE=HOME:1"]),
        (["FN:A", "", "NOTE:b"], ["FN:A", "NOTE:b"]),
        (["FN:A", "UID:a", "UID:b"], ["FN:A", "UID:a", "X-UID:b"]),
        (["FN:A", "UID:a", "UID:a"], ["FN:A", "UID:a"]),
        (["FN:A", "KIND:org", "KIND:group"], ["FN:A", "KIND:org", "X-KIND:group"]),
        (["N:Bell;Ann;M.;Dr.;jr."], ["FN:Dr. Ann M. Bell jr.", "N:Bell;Ann;M.;Dr.;jr."]),
        (["N:;;;;", "ORG:ABC\\, Inc.;R"], ["FN:ABC\\, Inc.", "N:;;;;", "ORG:ABC\\, Inc.;R"]),
        (["FN:", "EMAIL:a@b.example"], ["FN:a@b.example", "EMAIL:a@b.example"]),
        (["TEL;VALUE=uri:tel:+1"], ["FN:+1", "TEL;VALUE=uri:tel:+1"]),
    ]

    def test_rows(self) -> None:
        for lines, wanted in self.rows:
            with self.subTest(lines):
                self.assertEqual(kept(*lines), wanted)
                self.assertTrue(taking.taken(card(*lines).encode()).notes)

    def test_three_is_mended_before_it_is_converted(self) -> None:
        self.assertEqual(
            kept("N:A;B;;;", "TEL;HOME;PREF:1", "X_Y:z", version="3.0"),
            ["FN:B A", "N:A;B;;;", "TEL;TYPE=HOME;PREF=1:1", "X-Y:z"],
        )

    def test_what_is_right_stays_byte_for_byte(self) -> None:
        text = "BEGIN:VCARD\nVERSION:4.0\nfn:A\nNOTE:b\n  c\nX-A;B=\"c:d\":e\nEND:VCARD\n\n"
        made = taking.taken(text.encode())
        self.assertEqual((made.data, made.notes, made.is_changed()), (text.encode(), (), False))

    def test_what_cannot_be_mended_stays(self) -> None:
        none = "BEGIN:VCARD\nFN:A\nEND:VCARD\n"
        for text in ("", "x", "BEGIN:VCARD\n", card("FN:A", version="5.0"), none, "VERSION:3.0"):
            with self.subTest(text):
                made = taking.taken(text.encode())
                self.assertEqual((made.data, made.notes), (text.encode(), ()))
        self.assertEqual(taking.taken(b"\xff\xfe").data, b"\xff\xfe")
        self.assertIsNone(mending.mended(card("FN:A", "no line", "\u00e4:b", "A;B")))

    def test_lines_lead_back(self) -> None:
        made = taking.taken(card("N:A", "UID:a", "", "UID:b", "no line").encode())
        lines = unfolded(made.data.decode())
        self.assertEqual(made.origin(lines.index("no line") + 1), 7)
        self.assertEqual(made.with_uid("urn:x").origin(lines.index("X-UID:b") + 1), 6)


@unittest.skipUnless(photos.is_there(), "the package python3-pil is not there")
class Photos(unittest.TestCase):
    """Photos that are too large."""

    def picture(self, side: int, kind: str = "JPEG", mode: str = "RGB") -> bytes:
        """A picture that does not pack well."""
        noise = random.Random(7).randbytes(side * side * len(mode))
        out = io.BytesIO()
        image = photos.Image.frombytes(mode, (side, side), noise)
        exif = photos.Image.Exif()
        exif[0x0112], exif[0x010F] = 6, "A camera"
        image.save(out, kind, exif=exif)
        return out.getvalue()

    def kept_picture(self, data: bytes, media: str) -> tuple[taking.Taken, photos.Image.Image]:
        """What is kept of a card with a photo."""
        value = base64.b64encode(data).decode()
        line = f"PHOTO;X-ABCROP-RECTANGLE=ABClipRect_1&1&2&3&4:data:{media};base64,{value}"
        made = taking.taken(card("FN:A", line, "UID:a").encode())
        photo = next(line for line in read(made.data.decode()) if line.is_named("PHOTO"))
        self.assertEqual(photo.params, [])
        picture = base64.b64decode(photo.value.removeprefix("data:image/jpeg;base64,"))
        return made, photos.Image.open(io.BytesIO(picture))

    def test_a_photo_is_made_smaller_until_the_card_fits(self) -> None:
        for kind, mode in (("JPEG", "RGB"), ("PNG", "RGBA"), ("PNG", "L")):
            with self.subTest(kind=kind, mode=mode):
                data = self.picture(900, kind, mode)
                made, picture = self.kept_picture(data, f"image/{kind.lower()}")
                self.assertLessEqual(len(made.data), 65_536)
                self.assertEqual(made.notes, ("the photo was made smaller",))
                self.assertEqual((picture.format, dict(picture.getexif())), ("JPEG", {}))
                self.assertLessEqual(max(picture.size), 720)
                self.assertGreaterEqual(max(picture.size), 128)

    def test_a_photo_of_three_is_made_smaller_too(self) -> None:
        value = base64.b64encode(self.picture(400)).decode()
        text = card("FN:A", f"PHOTO;ENCODING=b;TYPE=JPEG:{value}", version="3.0")
        made = taking.taken(text.encode())
        self.assertLess(len(made.data), 65_536)

    def test_what_is_no_picture_stays(self) -> None:
        noise = base64.b64encode(bytes(70_000)).decode()
        rows = [f"PHOTO:data:image/{kind};base64,{noise}" for kind in ("jpeg", "svg+xml")]
        for line in [*rows, "NOTE:" + "x" * 70_000]:
            with self.subTest(line[:20]):
                made = taking.taken(card("FN:A", line).encode())
                self.assertFalse(made.is_changed())

    def test_a_picture_of_too_many_points_is_not_read(self) -> None:
        out = io.BytesIO()
        photos.Image.new("L", (5_000, 4_000)).save(out, "PNG")
        with self.assertRaises(ValueError):
            photos.opened(out.getvalue())

    def test_a_setting_turns_it_off(self) -> None:
        value = base64.b64encode(self.picture(400)).decode()
        text = card("FN:A", f"PHOTO:data:image/jpeg;base64,{value}").encode()
        self.assertEqual(taking.taken(text, shrink_photos=False).data, text)


if some is not None:

    LINES = some.lists(
        some.one_of(
            some.sampled_from([
                "FN:A", "N:A;B", "", "AGENT:", "X_A:b", "UID:a", "UID:", " x", 'A;B="c"d":e',
                "NOTE;BASE64:AAAA", "NOTE;QUOTED-PRINTABLE:a=", "KIND:group", "VERSIONS:1",
                "PHOTO:data:image/png;base64,AAAA",
            ]),
            some.text(max_size=12),
        ),
        max_size=12,
    )
    MARKS = ["BEGIN:VCARD", "END:VCARD", "VERSION:2.1", "VERSION:3.0", "VERSION:4.0"]

    class Any(unittest.TestCase):
        """Properties of all bodies."""

        @settings(max_examples=200, deadline=None, database=None)
        @given(some.lists(some.one_of(some.sampled_from(MARKS), LINES.map("\n".join)), max_size=9))
        def test_each_body_is_taken(self, lines: list[str]) -> None:
            made = taking.taken("\r\n".join(lines).encode())
            self.assertGreaterEqual(made.origin(1), 0)
            made.with_uid("urn:x").origin(9)

        @settings(max_examples=200, deadline=None, database=None)
        @given(some.sampled_from(["2.1", "3.0", "4.0"]), LINES)
        def test_what_was_taken_is_taken_as_it_is(self, version: str, lines: list[str]) -> None:
            first = taking.taken(card(*lines, version=version).encode())
            again = taking.taken(first.data)
            self.assertEqual(again.data, first.data)


if __name__ == "__main__":
    unittest.main()
