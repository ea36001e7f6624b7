"""SyncEvolution as it is: cards with long names and large photos, added, changed and removed."""
from __future__ import annotations

import base64
import io
import os
import random
import shutil
import subprocess
import unittest

from office_gateway import photos
from tests.test_dav import SALES, vcard
from tests.world import PASSWORDS, World, program

UID = "k" * 100 + "@x"


def card(*lines: str) -> str:
    """A card of 3.0 as an address book of a desktop has it."""
    return "\r\n".join(["BEGIN:VCARD", "VERSION:3.0", *lines, "END:VCARD", ""])


def photo_card() -> str:
    """A card of more than 65,536 bytes because of its photo."""
    picture = io.BytesIO()
    noise = random.Random(7).randbytes(300 * 300 * 3)
    photos.Image.frombytes("RGB", (300, 300), noise).save(picture, "JPEG", quality=90)
    value = base64.b64encode(picture.getvalue()).decode()
    return card("UID:photo-1", "FN:Bild", "N:Bild;;;;", f"PHOTO;ENCODING=b;TYPE=JPEG:{value}")


@unittest.skipUnless(program(), "the server's program is not there: see tests/world.py")
@unittest.skipUnless(photos.is_there(), "the package python3-pil is not there")
class Running(unittest.TestCase):
    """The program over one book."""

    def setUp(self) -> None:
        self.world = World()
        self.addCleanup(self.world.close)
        text = vcard("Anna", "UID:anna")
        self.assertEqual(self.world.say("head", "PUT", SALES + "anna.vcf", text).status, 201)

    def names(self) -> list[str]:
        """FN of the cards that the head may read, in order."""
        body = {"report": "sync-collection", "sync-token": ""}
        told = self.world.say("head", "REPORT", "/books/sales", body).json()
        texts = [response["text"] for response in told["responses"]]
        lines = [line for text in texts for line in text.split("\r\n")]
        return sorted(line[3:] for line in lines if line.startswith("FN:"))

    def run_as_head(self, *words: str) -> str:
        """What the program prints on a command."""
        home = self.world.path / "home"
        home.mkdir(exist_ok=True)
        folders = {name: str(home) for name in ("HOME", "XDG_CONFIG_HOME", "XDG_CACHE_HOME")}
        at = f"http://127.0.0.1:{self.world.port}{SALES}"
        given = ("backend=carddav", f"database={at}", "username=head")
        keywords = words.index("--luids") if "--luids" in words else len(words)
        done = subprocess.run(
            [
                "syncevolution", "--daemon=no", *words[:keywords], *given,
                f"password={PASSWORDS['head']}", *words[keywords:],
            ],
            env={**os.environ, **folders, "XDG_DATA_HOME": str(home)}, capture_output=True,
            text=True, timeout=300, check=False,
        )
        self.assertEqual(done.returncode, 0, done.stdout + done.stderr)
        return done.stdout

    @unittest.skipUnless(shutil.which("syncevolution"), "the package syncevolution is not there")
    def test_the_program_reads_and_writes_a_book(self) -> None:
        new, large, changed = (self.world.path / f"{name}.vcf" for name in ("new", "large", "b"))
        new.write_text(card(f"UID:{UID}", "FN:Neu", "N:Neu;;;;"))
        large.write_text(photo_card())
        changed.write_text(card("UID:anna", "FN:Anna B", "N:B;Anna;;;"))
        self.assertIn("anna%2evcf", self.run_as_head("--print-items"))
        self.run_as_head("--import", str(new))
        self.run_as_head("--import", str(large))
        self.run_as_head("--update", str(changed), "--luids", "anna%2evcf")
        self.assertEqual(self.names(), ["Anna B", "Bild", "Neu"])
        listed = self.run_as_head("--print-items")
        for name in ("anna%2evcf", UID.replace("@", "%40") + "%2evcf", "photo-1%2evcf"):
            self.assertIn(name, listed)
        self.run_as_head("--delete-items", "--luids", "anna%2evcf")
        self.assertEqual(self.names(), ["Bild", "Neu"])


if __name__ == "__main__":
    unittest.main()
