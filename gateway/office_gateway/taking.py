"""A card that a client sends, as it is given to the server.

The server takes cards of 4.0 that keep to the grammar, of at most 65,536 bytes. What clients send
beside these is brought into that form: other versions are converted, faults that clients' libraries
mend are mended, a card without FN gets one, a card without UID gets one, and the photo of a card
that is too large is made smaller. The log tells of all but the conversion of 3.0. A card that needs
none of this stays byte for byte.
"""
from __future__ import annotations

from dataclasses import dataclass

from . import convert, mending, old, photos, uids
from .config import CARD_BYTES
from .vcard import unfolded, version_of

# Room that is left for a UID beside a photo that is made smaller.
UID_BYTES = 100


@dataclass(frozen=True)
class Taken:
    """A card for the server.

    `steps` lead from its lines to those of the card that the client sent; there are none where it
    stays as it was sent. `notes` has in words what was mended.
    """

    data: bytes
    notes: tuple[str, ...] = ()
    steps: tuple[convert.Converted, ...] = ()

    def is_changed(self) -> bool:
        """Whether other bytes are kept than were sent."""
        return bool(self.steps)

    def origin(self, line: int) -> int:
        """The line of the card that the client sent, for a line of this one."""
        for step in reversed(self.steps):
            line = step.origin(line)
        return line

    def text(self) -> str | None:
        """Its text; None where it is no UTF-8."""
        try:
            return self.data.decode("utf-8")
        except UnicodeDecodeError:
            return None

    def after(self, step: convert.Converted | None, *notes: str) -> Taken:
        """The card after one more step, or this one where there is none."""
        if step is None:
            return self
        data = step.text.encode("utf-8", "surrogatepass")
        return Taken(data, (*self.notes, *notes), (*self.steps, step))

    def lacks_uid(self) -> bool:
        """Whether it is a card without a UID."""
        text = self.text()
        return text is not None and uids.uid_in(text) == "" and uids.with_uid(text, "") != text

    def with_uid(self, uid: str) -> Taken:
        """The card with this UID, before its end."""
        before = self.data.decode("utf-8")
        after = uids.with_uid(before, uid)
        lines = unfolded(before)
        step = convert.Converted(after, same_lines(lines, unfolded(after)), len(lines))
        return self.after(step, "a UID was made")


def taken(body: bytes, shrink_photos: bool = True) -> Taken:
    """The card of a body, without regard to its UID."""
    card = old_taken(body)
    text = card.text()
    if text is None or version_of(text) not in ("3.0", "4.0"):
        return card
    card = mended(card, mending.mended(text))
    card = card.after(convert.to_four(card.text() or ""))
    card = mended(card, mending.completed(card.text() or ""))
    if len(card.data) > CARD_BYTES and shrink_photos:
        small = photos.shrunk(card.text() or "", CARD_BYTES - UID_BYTES)
        card = card.after(small, "the photo was made smaller")
    return card


def old_taken(body: bytes) -> Taken:
    """The card of a body, as one of 3.0 where it is of 2.1."""
    text = body.decode("utf-8", "surrogateescape")
    if version_of(text) != "2.1":
        return Taken(body)
    return Taken(body).after(old.to_three(text), "it is of version 2.1")


def mended(card: Taken, done: mending.Mended | None) -> Taken:
    """The card after it was mended."""
    return card if done is None else card.after(done.step, *done.notes)


def same_lines(before: list[str], after: list[str]) -> list[int]:
    """For each line of the later list the number of the earlier one that it is, in their order.

    A new line has the number of the next one.
    """
    numbers, at = [], 0
    for line in after:
        here = at
        while here < len(before) and before[here] != line:
            here += 1
        if here < len(before):
            at = here + 1
            numbers.append(at)
        else:
            numbers.append(at + 1)
    return numbers
