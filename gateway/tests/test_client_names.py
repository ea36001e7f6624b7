"""Names that clients choose, as names of the server, and back."""
from __future__ import annotations

import tempfile
import unittest
from pathlib import Path

try:
    from hypothesis import example, given, settings
    from hypothesis import strategies as some
except ImportError:
    some = None  # type: ignore[assignment]

from office_gateway import client_names, paths
from office_gateway.client_names import LONG, chosen, of_client, of_server, segment_of

UID = "040000008200E00074C5B7101A82E0080000000030B2B9BE4F5AD901000000000000000010000000A1B2C3D4"


class Rows(unittest.TestCase):
    """Names that clients are known to choose."""

    def setUp(self) -> None:
        LONG.open(None)

    def test_names(self) -> None:
        rows = {
            "a.vcf": "a.vcf",
            "5f1c0d9e-8b1a-4a55-9d0e-3a6f2b1c7e41.vcf": "5f1c0d9e-8b1a-4a55-9d0e-3a6f2b1c7e41.vcf",
            "a@b.example.vcf": "_x_a_40b.example.vcf",
            "A1:ABPerson.vcf": "_x_A1_3aABPerson.vcf",
            "20230101T000000Z-12+3~x,y.vcf": "_x_20230101T000000Z-12_2b3_7ex_2cy.vcf",
            "Jürgen Öz.vcf": "_x_J_c3_bcrgen_20_c3_96z.vcf",
            ".hidden": "_x_.hidden",
            "a/b": "_x_a_2fb",
            "_x_abc": "_x_abc",
            "_x_a_40b": "_x__5fx_5fa_5f40b",
            "a" * 64: "a" * 64,
            "a" * 65: client_names.digest_of("a" * 65),
        }
        for name, wanted in rows.items():
            with self.subTest(name):
                self.assertEqual(of_server(name), wanted)
                self.assertTrue(paths.is_name(wanted))

    def test_segments(self) -> None:
        rows = {
            "a%40b.vcf": "a@b.vcf", "a@b.vcf": "a@b.vcf", "%61.vcf": "a.vcf", "a%2Fb": "a/b",
            "": None, ".": None, "..": None, "%2e%2E": None, "%": None, "%4": None, "%gg": None,
            "a%00": None, "a%0A": None, "%ff": None, "a%C2%85": None, "a" * 513: None,
            "a%7F": None, "%ed%a0%80": None, "a%E2%80%A8": None,
        }
        for segment, wanted in rows.items():
            with self.subTest(segment):
                self.assertEqual(chosen(segment), wanted)

    def test_paths(self) -> None:
        rows = {
            "/dav/books/sales/a%40b.vcf": "/books/sales/_x_a_40b.vcf",
            "/dav/books/sales/a+b": "/books/sales/_x_a_2bb",
            "/dav/books/s%61les/a": None,
            "/dav/books/sales/..": None,
            "/dav/books/sales/%2e%2e": None,
            "/dav/books/sales/a/b": None,
            "/dav/books/sales/a%3Fb": "/books/sales/_x_a_3fb",
            "/dav/books/sales/a?b": None,
            "/dav/books/sales/a#b": None,
        }
        for target, wanted in rows.items():
            with self.subTest(target):
                self.assertEqual(paths.dav_path(target), wanted)
        self.assertEqual(paths.href("/books/sales/_x_a_40b.vcf"), "/dav/books/sales/a@b.vcf")
        self.assertEqual(paths.href("/books/sales/_x_a_2fb"), "/dav/books/sales/a%2Fb")


class Table(unittest.TestCase):
    """The table of long names."""

    def setUp(self) -> None:
        folder = tempfile.TemporaryDirectory()
        self.addCleanup(folder.cleanup)
        self.addCleanup(LONG.open, None)
        self.file = Path(folder.name) / "card-names"
        LONG.open(self.file)

    def test_a_long_name_comes_back_after_a_restart(self) -> None:
        name = f"{UID}@office.example Ö.vcf"
        digest = of_server(name)
        self.assertEqual(of_client(digest), digest)
        LONG.remember(name)
        LONG.remember(name)
        LONG.remember("short.vcf")
        self.assertEqual(of_client(digest), name)
        self.assertEqual(self.file.read_text("ascii"), segment_of(name) + "\n")
        LONG.open(self.file)
        self.assertEqual(of_client(digest), name)

    def test_without_the_file_a_card_is_there_under_both_names(self) -> None:
        name = UID + ".vcf"
        LONG.remember(name)
        LONG.open(None)
        digest = of_server(name)
        self.assertEqual((of_client(digest), of_server(digest)), (digest, digest))

    def test_a_name_that_looks_like_a_known_digest_is_another(self) -> None:
        name = UID + ".vcf"
        LONG.remember(name)
        digest = of_server(name)
        other = of_server(digest)
        self.assertNotEqual(other, digest)
        self.assertEqual(of_client(other), digest)

    def test_lines_that_are_no_names_are_left_out(self) -> None:
        self.file.write_text("short\n%zz\n\n" + UID + "\n")
        with self.assertLogs("office_gateway", "ERROR") as told:
            LONG.open(self.file)
        self.assertEqual(len(told.output), 3)
        self.assertEqual(of_client(of_server(UID)), UID)


if some is not None:

    @some.composite
    def names(draw: some.DrawFn) -> str:
        """A name that a client may choose."""
        pieces = some.sampled_from(["_x_", "_d_", "_", "_40", "_5f", "@", ".", "a", "Z9", "%"])
        letters = some.text(some.characters(blacklist_categories=["Cs"]), max_size=9)
        name = "".join(draw(some.lists(some.one_of(pieces, letters), max_size=12)))
        longer = name + draw(some.sampled_from(["", UID]))
        return longer if chosen(segment_of(longer)) == longer else "x" + draw(some.text("a@+_"))

    class BothWays(unittest.TestCase):
        """Properties of all names."""

        def setUp(self) -> None:
            LONG.open(None)

        @settings(max_examples=300, deadline=None, database=None)
        @given(names())
        @example(UID * 2)
        @example("_x__5fx_5fa_5f40b")
        def test_a_client_s_name_leads_to_one_of_the_server_and_back(self, name: str) -> None:
            LONG.remember(name)
            there = of_server(name)
            self.assertTrue(paths.is_name(there))
            self.assertEqual(of_client(there), name)
            href = paths.href(f"/books/b/{there}")
            self.assertEqual(paths.dav_path(href), f"/books/b/{there}")
            self.assertEqual(paths.chosen_name(href), name)

        @settings(max_examples=300, deadline=None, database=None)
        @given(some.from_regex(r"(_x_|_d_|)[a-fZ0-9_-][a-f0-9._-]{0,60}", fullmatch=True))
        @example("_x_a_40b")
        @example("_x_a_4")
        @example("_x__ff")
        @example("_x__2e")
        def test_a_name_of_the_server_is_told_as_one_that_leads_back(self, name: str) -> None:
            self.assertEqual(of_server(of_client(name)), name)

        @settings(max_examples=200, deadline=None, database=None)
        @given(names(), names())
        def test_two_names_are_two_cards(self, one: str, other: str) -> None:
            LONG.remember(one)
            LONG.remember(other)
            self.assertEqual(one == other, of_server(one) == of_server(other))


if __name__ == "__main__":
    unittest.main()
