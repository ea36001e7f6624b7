"""Faults of cards that clients' libraries mend, mended as they do.

What is mended is told in words, for the log. A line that cannot be mended stays, so that the server
names its fault.
"""
from __future__ import annotations

import re
from collections.abc import Iterable
from dataclasses import dataclass

from .convert import Converted
from .vcard import CONTROL, BadLine, Line, components, escaped, folded, parsed, unescaped, unfolded

LOOSE_NAME = re.compile(r"(?:([\w-]+)\.)?([\w-]+)", re.ASCII)
LOOSE_PARAMETER = re.compile(r";[ \t]*([\w-]*)[ \t]*(=?)", re.ASCII)
# A quoted value ends with the quote that one of these follows.
QUOTED = re.compile(r'"(.*?)"(?=[;:,])')
PLAIN = re.compile(r"[^;:,]*")
ENCODINGS = {"QUOTED-PRINTABLE", "BASE64", "B", "8BIT", "7BIT"}
# What a card of 4.0 has once.
ONCE = ("UID", "KIND")
# Of which a name is made where there is none, in this order.
SOURCES = ("N", "ORG", "EMAIL", "TEL")


@dataclass(frozen=True)
class Mended:
    """A mended text, with the lines that it was made of, and what was mended, in words."""

    step: Converted
    notes: tuple[str, ...]


@dataclass(frozen=True)
class One:
    """A line as it is written, with the number of the line that it was made of."""

    text: str
    number: int


def mended(text: str) -> Mended | None:
    """The lines of a card mended one by one; None where there is nothing to mend."""
    source = unfolded(text)
    notes: dict[str, None] = {}
    lines = []
    for number, line in enumerate(source, 1):
        made, note = mended_line(line)
        if note:
            notes[note] = None
        lines += [One(made, number)] if made or note == "" else []
    return of_lines(lines, source, notes)


def of_lines(lines: list[One], source: list[str], notes: Iterable[str]) -> Mended | None:
    """What these lines are as a text; None without notes."""
    if not tuple(notes):
        return None
    text = "".join(folded(line.text) for line in lines)
    step = Converted(text, [line.number for line in lines], len(source))
    return Mended(step, tuple(notes))


def mended_line(text: str) -> tuple[str, str]:
    """A line with what was mended in it, in words, or an empty text."""
    clean = CONTROL.sub("", text)
    note = "control characters" if clean != text else ""
    try:
        parsed(clean, 0)
        return clean, note
    except BadLine:
        line = loose(clean)
    if line is None:
        return clean, note
    return line.text(), note or "a line that keeps to no grammar"


def loose(text: str) -> Line | None:
    """The line that was meant: `_` in names, types without TYPE, quotes within quotes."""
    head = LOOSE_NAME.match(text)
    if head is None:
        return None
    at = head.end()
    params: list[tuple[str, list[str]]] = []
    while text[at : at + 1] == ";":
        found = LOOSE_PARAMETER.match(text, at)
        if found is None:
            return None
        name, at = found[1].replace("_", "-"), found.end()
        if found[2]:
            values, at = loose_values(text, at)
            params += [(name or "TYPE", values)]
        elif name:
            params.append(("ENCODING" if name.upper() in ENCODINGS else "TYPE", [name]))
    if text[at : at + 1] != ":":
        return None
    group = (head[1] or "").replace("_", "-")
    return Line(head[2].replace("_", "-"), text[at + 1 :], group, params)


def loose_values(text: str, at: int) -> tuple[list[str], int]:
    """The values of a parameter from `at` on, and where they end."""
    values: list[str] = []
    while True:
        value = QUOTED.match(text, at) or PLAIN.match(text, at)
        assert value is not None
        values.append(value[1] if value.re is QUOTED else value[0].replace('"', ""))
        at = value.end()
        if text[at : at + 1] != ",":
            return values, at
        at += 1


def completed(text: str) -> Mended | None:
    """A card of 4.0 with what it has to have once, and a name; None where it has all that.

    VERSION goes to line 2. A second UID or KIND goes under a name with X-, and is left out where it
    says the same. A card without FN, or with an empty one, gets it from N, ORG, EMAIL or TEL.
    """
    source = unfolded(text)
    lines = [(One(line, number), read(line)) for number, line in enumerate(source, 1)]
    notes: dict[str, None] = {}
    kept = in_place(lines, notes)
    kept = once(kept, notes)
    kept = named(kept, notes)
    return of_lines([one for one, _ in kept], source, notes)


Read = tuple[One, "Line | None"]


def read(text: str) -> Line | None:
    """A content line, or None."""
    try:
        return parsed(text, 0)
    except BadLine:
        return None


def in_place(lines: list[Read], notes: dict[str, None]) -> list[Read]:
    """The lines without empty ones before END, with VERSION at line 2."""
    end = next((at for at, (_, line) in enumerate(lines) if line and line.is_named("END")), 0)
    kept = [one for at, one in enumerate(lines) if one[0].text.strip() or at > end]
    if len(kept) < len(lines):
        notes["empty lines"] = None
    at = next((at for at, (_, line) in enumerate(kept) if line and line.is_named("VERSION")), 0)
    if at > 1:
        notes["VERSION was not at line 2"] = None
        kept = [kept[0], kept[at], *kept[1:at], *kept[at + 1 :]]
    return kept


def once(lines: list[Read], notes: dict[str, None]) -> list[Read]:
    """The lines with each of ONCE at most once."""
    kept: list[Read] = []
    first: dict[str, str] = {}
    for one, line in lines:
        name = line.name.upper() if line else ""
        if line is None or name not in ONCE:
            kept.append((one, line))
        elif name not in first:
            first[name] = line.value
            kept.append((one, line))
        else:
            notes[f"a second {name}"] = None
            if line.value not in ("", first[name]):
                other = Line(f"X-{name}", line.value, line.group, line.params)
                kept.append((One(other.text(), one.number), other))
    return kept


def named(lines: list[Read], notes: dict[str, None]) -> list[Read]:
    """The lines with an FN that says something, where there is something to say."""
    said = [line for _, line in lines if line]
    if any(line.is_named("FN") and line.value.strip() for line in said):
        return lines
    name = next((text for text in map(lambda it: name_of(it, said), SOURCES) if text), "")
    if not name or not said[0].is_named("BEGIN"):
        return lines
    notes["a card without FN"] = None
    made = Line("FN", escaped(name))
    kept = [(one, line) for one, line in lines if line is None or not line.is_named("FN")]
    at = 2 if len(kept) > 1 else 1
    return [*kept[:at], (One(made.text(), kept[at - 1][0].number), made), *kept[at:]]


def name_of(source: str, lines: list[Line]) -> str:
    """The name that the first line of this property gives, or an empty text."""
    line = next((line for line in lines if line.is_named(source) and line.value.strip()), None)
    if line is None:
        return ""
    if source == "ORG":
        return unescaped(components(line.value)[0]).strip()
    if source == "N":
        parts = [*components(line.value), "", "", "", "", ""]
        family, given, more, before, after = (words_of(part) for part in parts[:5])
        return " ".join(part for part in (before, given, more, family, after) if part)
    return unescaped(line.value.removeprefix("tel:")).strip()


def words_of(part: str) -> str:
    """A part of a name as people read it: its values with blanks between them."""
    return " ".join(unescaped(word).strip() for word in components(part, ",") if word.strip())
