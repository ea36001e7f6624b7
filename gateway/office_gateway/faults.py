"""The fault of a card that the server would name, as far as it can be seen without the server.

It is for `import --dry-run`. What is kept the server decides.
"""
from __future__ import annotations

from .config import CARD_BYTES
from .vcard import BadLine, Line, parsed, unfolded


def fault_of(data: bytes) -> tuple[str, int] | None:
    """The name of a card's fault, and its line; None where none is seen."""
    if len(data) > CARD_BYTES:
        return "too-long", 0
    lines = unfolded(data.decode("utf-8", "surrogateescape"))
    read: list[Line] = []
    for number, text in enumerate(lines, 1):
        fault = line_fault(number, text, read)
        if fault:
            return fault, number
        read.append(parsed(text, number))
        if read[-1].is_named("END"):
            break
    return whole_fault(lines, read)


def line_fault(number: int, text: str, before: list[Line]) -> str:
    """The fault of a line after these, or an empty text."""
    if number == 1:
        return "" if text.upper() == "BEGIN:VCARD" else "no-begin"
    try:
        line = parsed(text, number)
        text.encode("utf-8")
    except (BadLine, UnicodeEncodeError):
        return "no-version" if number == 2 else "bad-line"
    if number == 2:
        version = text.upper()
        known = "" if version == "VERSION:4.0" else "other-version"
        return known if version.startswith("VERSION:") else "no-version"
    once = ("VERSION", "UID", "KIND")
    return "twice" if line.is_named(*once) and any(
        other.is_named(line.name.upper()) for other in before
    ) else ""


def whole_fault(lines: list[str], read: list[Line]) -> tuple[str, int] | None:
    """The fault of a card whose lines have none of their own."""
    if not read:
        return "no-begin", 1
    if not read[-1].is_named("END"):
        return ("no-version" if len(read) == 1 else "no-end"), len(lines) + 1
    after = [at for at, text in enumerate(lines, 1) if at > len(read) and text.strip()]
    if after:
        return "after-end", after[0]
    if not any(line.is_named("FN") for line in read):
        return "no-fn", len(read)
    kinds = [line.value.lower() for line in read if line.is_named("KIND")]
    member = next((line for line in read if line.is_named("MEMBER")), None)
    if member is not None and "group" not in kinds:
        return "member-without-group", member.number
    return None
