"""What an import at the page would do with each card of a file, before anything is put."""
from __future__ import annotations

from typing import Any

from . import uids
from .faults import fault_of
from .imports import name_of
from .rows import Index
from .taking import taken
from .vcard import formatted


def preview(book: str, texts: list[str], index: Index) -> list[dict[str, Any]]:
    """For each text the name that its card gets in the book, and whether it is new, there already,
    another, or refused."""
    by_uid = {row.uid: row.path.rpartition("/")[2] for row in index.rows.values() if row.uid}
    return [one(book, text, index, by_uid) for text in texts]


def one(book: str, text: str, index: Index, by_uid: dict[str, str]) -> dict[str, Any]:
    """What would be done with one card."""
    card = taken(text.encode("utf-8", "surrogatepass"))
    kept = card.data.decode("utf-8", "replace")
    told: dict[str, Any] = {"name": formatted(kept), "notes": list(card.notes)}
    told |= {"path": "", "tag": ""}
    fault = fault_of(card.data)
    if fault is not None:
        line = card.origin(fault[1]) if fault[1] else 0
        return {**told, "fault": fault[0], "line": line, "state": "refused"}
    uid = uids.uid_in(kept)
    name = by_uid.get(uid) or name_of(kept)
    told["path"] = f"{book}/{name}"
    held = index.cards.get(name) if index.cards else None
    if held is None:
        return {**told, "state": "new"}
    return {**told, "state": "same" if held.text == kept else "other", "tag": held.tag}
