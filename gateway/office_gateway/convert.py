"""vCard 3.0 (RFC 2426) to 4.0 (RFC 6350, appendix A) and back.

What one version says and the other has no property for goes under a name that begins with X-, and
comes back under its own. A line that is no content line goes as it is, so that the server names its
fault.
"""
from __future__ import annotations

import re
from collections.abc import Iterable
from dataclasses import dataclass

from . import dates
from .vcard import (
    BadLine, Line, decoded_parameter, encoded_parameter, escaped, folded, parsed, unescaped,
    unfolded, version_in,
)

# What 4.0 has and 3.0 lacks, with the name that it has in 3.0. Kind and members have the names that
# phones know.
NEW = {
    "KIND": "X-ADDRESSBOOKSERVER-KIND",
    "MEMBER": "X-ADDRESSBOOKSERVER-MEMBER",
    "GENDER": "X-GENDER",
    "ANNIVERSARY": "X-ANNIVERSARY",
    "LANG": "X-LANG",
    "RELATED": "X-RELATED",
    "XML": "X-XML",
    "CLIENTPIDMAP": "X-CLIENTPIDMAP",
}
OLD_NAMES = {three: four for four, three in NEW.items()}
# Those of NEW that a card has at most once.
SINGLE = {"KIND", "GENDER", "ANNIVERSARY"}
# What 3.0 has and 4.0 lacks.
GONE = {"CLASS", "MAILER", "NAME", "LABEL", "AGENT", "SORT-STRING"}
# Values of 4.0 that 3.0 has no form for, of properties that both have.
ODD = {"X-BDAY": "BDAY", "X-GEO": "GEO", "X-TZ": "TZ"}
BINARY = {"PHOTO": "image", "LOGO": "image", "SOUND": "audio", "KEY": "application"}
MEDIA = {
    "PGP": "application/pgp-keys", "X509": "application/pkix-cert", "BASIC": "audio/basic",
    "JPG": "image/jpeg",
}
MEDIA_NAMES = {
    "application/pgp-keys": "PGP", "application/pkix-cert": "X509", "audio/basic": "BASIC",
}
BEGINNINGS = {
    "/9j/": "image/jpeg", "iVBOR": "image/png", "R0lG": "image/gif", "UklG": "image/webp",
}
DATA = re.compile(
    r"data:([A-Za-z0-9.+-]+/[A-Za-z0-9.+-]+)?((?:;[A-Za-z0-9.+-]+=[^;,]*)*);base64,(.*)", re.DOTALL
)
URI = re.compile(r"[A-Za-z][A-Za-z0-9+.-]*:\S+")
GENDER = re.compile(r"[MFONU]?(?:;.*)?")
MADE = "X-MADE-OF"
YEAR = "X-APPLE-OMIT-YEAR"
# Types and kinds of values that 4.0 has taken away.
POST = {"dom", "intl", "postal", "parcel"}
DROPPED = {"ADR": POST, "LABEL": POST, "EMAIL": {"internet"}}
OLD_KINDS = ("ptext", "phone-number", "binary")

# A line of 4.0 that says the same in 3.0 as it stands: most lines of most cards.
SAME_LINE = (
    r"(FN|N|ORG|TITLE|ROLE|NOTE|NICKNAME|CATEGORIES|EMAIL|TEL|ADR|URL|UID)(?:;TYPE=[a-z]+)*:"
    r"[^\x00-\x08\x0a-\x1f\x7f]*"
)
SAME = re.compile(SAME_LINE + r"\Z")
# A card of such lines, of which none is folded or is to be: each has at most 75 bytes.
SHORT = r"(?=[\t -~]{0,75}\r|[\t -~\x80-\u07ff]{0,37}\r|[^\r\n]{0,18}\r)"
SAME_CARD = re.compile(
    rf"BEGIN:VCARD\r\nVERSION:4\.0(\r\n(?:{SHORT}{SAME_LINE}\r\n)*END:VCARD\r\n)"
)


@dataclass(frozen=True)
class Converted:
    """A text, and for each of its lines, unfolded, the line of the text that it was made of."""

    text: str
    origins: list[int]
    count: int

    def origin(self, line: int) -> int:
        """The line of the first text for a line of this one, also for the one after its last."""
        if line < 1:
            return line
        return self.origins[line - 1] if line <= len(self.origins) else self.count + 1


def to_four(text: str) -> Converted | None:
    """The card of 3.0 as one of 4.0; None where the text does not say that it is of 3.0."""
    source = unfolded(text)
    if version_in(source) != "3.0":
        return None
    lines = [line_or_text(line, number) for number, line in enumerate(source, 1)]
    end = next((at for at, line in enumerate(lines) if is_end(line)), len(lines))
    body = [line for line in lines[1:end] if line != ""]
    said = [line for line in body if isinstance(line, Line)]
    version = next((line for line in said if line.is_named("VERSION")), None)
    if version is None:
        return None
    kept = [line for line in body if line is not version]
    made = four_of([line for line in kept if isinstance(line, Line)], said)
    merged = in_order(kept, made)
    result: list[tuple[str, int]] = [(source[0], 1), ("VERSION:4.0", version.number)]
    numbers = {id(line): number for number, line in enumerate(lines, 1)}
    for line in merged:
        number = line.number if isinstance(line, Line) else numbers[id(line)]
        result.append((line.text() if isinstance(line, Line) else str(line), number))
    result += [(source[at], at + 1) for at in range(end, len(source))]
    made = "".join(folded(line) for line, _ in result)
    return Converted(made, [number for _, number in result], len(source))


def to_three(text: str) -> str:
    """The card of 4.0 as one of 3.0. A text that is no card of 4.0 stays as it is."""
    found = SAME_CARD.fullmatch(text)
    if found is not None and ("\nN:" in text or "\nN;" in text):
        return f"BEGIN:VCARD\r\nVERSION:3.0{found[1]}"
    return line_by_line_to_three(text)


def line_by_line_to_three(text: str) -> str:
    """The same, of any card."""
    lines = unfolded(text)
    if version_in(lines) != "4.0":
        return text
    result, names = ["BEGIN:VCARD", "VERSION:3.0"], set()
    for number, source in enumerate(lines, 1):
        same = SAME.match(source)
        if same is not None:
            names.add(same[1])
            result.append(source)
            continue
        line = line_or_text(source, number) if source else None
        if isinstance(line, Text):
            return text
        if line is not None and not line.is_named("BEGIN", "VERSION", "END"):
            names.add(line.name.upper())
            result += [made.text() for made in three_of(line)]
    if "N" not in names:
        result.append(name_made_of(lines))
    return "".join(folded(line) for line in [*result, "END:VCARD"])


def name_made_of(lines: list[str]) -> str:
    """The N of a card that has none, made of its FN."""
    said = (line for line in map(line_or_text, lines, range(1, len(lines) + 1)) if line)
    name = next((line for line in said if isinstance(line, Line) and line.is_named("FN")), None)
    value = escaped(unescaped(name.value)) if name else ""
    return Line("N", f"{value};;;;", params=[(MADE, ["FN"])]).text()


class Text(str):
    """A line that is no content line. Each is an object of its own."""


def line_or_text(text: str, number: int) -> Line | Text:
    """The content line, or the text where it is none."""
    try:
        return parsed(text, number)
    except BadLine:
        return Text(text)


def is_end(line: Line | Text) -> bool:
    """Whether a card ends with this line."""
    return isinstance(line, Line) and line.is_named("END") and line.value.upper() == "VCARD"


def in_order(kept: list[Line | Text], made: dict[int, list[Line]]) -> list[Line | Text]:
    """Each line of `kept` as it was made, in their order; texts stay where they are."""
    result: list[Line | Text] = []
    for line in kept:
        if isinstance(line, Line):
            result += made[line.number]
        else:
            result.append(line)
    return result


# 3.0 to 4.0


def four_of(lines: list[Line], said: list[Line]) -> dict[int, list[Line]]:
    """For the number of each line of 3.0 the lines of 4.0 that say the same."""
    names = {line.name.upper() for line in said}
    kinds = [line.value for line in said if line.is_named("KIND", NEW["KIND"])]
    kind = kinds[0].strip().lower() if kinds else ""
    made = {line.number: [four_of_line(line, names, kind)] for line in lines}
    formatted = next((line for line in lines if line.is_named("FN")), None)
    for line in lines:
        is_profile = line.is_named("PROFILE") and line.value.strip().upper() == "VCARD"
        if is_profile or is_made(line, formatted):
            made[line.number] = []
    present = [line for several in made.values() for line in several]
    for line in lines:
        moved = line.is_named("LABEL") and moved_label(line, present)
        if moved or line.is_named("SORT-STRING") and moved_sort(line, present):
            made[line.number] = []
    return made


def is_made(line: Line, formatted: Line | None) -> bool:
    """Whether the gateway added this name when it wrote the card as 3.0."""
    if not line.is_named("N") or not line.values_of(MADE) or formatted is None:
        return False
    return line.value == escaped(unescaped(formatted.value)) + ";;;;"


def four_of_line(line: Line, names: set[str], kind: str) -> Line:
    """The line of 4.0 that says what this one of 3.0 says."""
    name = line.name.upper()
    made = Line(line.name, line.value, line.group, types_to_four(line), line.number)
    if name in OLD_NAMES and may_rename(line, OLD_NAMES[name], names, kind):
        made.name = name = OLD_NAMES[name]
    elif name in ODD and ODD[name] not in names:
        made.name = ODD[name]
        return made
    if name in BINARY:
        return binary_to_four(line, made, BINARY[name])
    if name in ("BDAY", "ANNIVERSARY", "REV"):
        return date_to_four(line, made)
    if name == "GEO":
        return geo_to_four(made)
    if name == "TZ":
        return zone_to_four(made)
    if name == "UID":
        made.params = line.without("VALUE")
        if not URI.fullmatch(line.value):
            made.params.append(("VALUE", ["text"]))
    elif name == "AGENT" and line.value_type() == "uri":
        made.name, made.params = "RELATED", [*made.without("TYPE"), ("TYPE", ["agent"])]
    elif name in GONE:
        made.name = f"X-{name}"
    return made


def may_rename(line: Line, name: str, names: set[str], kind: str) -> bool:
    """Whether a line with an X- name becomes a property of 4.0."""
    if name in SINGLE and name in names:
        return False
    if name == "MEMBER":
        return kind == "group" and bool(URI.fullmatch(line.value))
    if name == "GENDER":
        return bool(GENDER.fullmatch(line.value))
    return name != "KIND" or bool(re.fullmatch("[A-Za-z0-9-]+", line.value))


def types_to_four(line: Line) -> list[tuple[str, list[str]]]:
    """The parameters of a line of 4.0: PREF for the type pref, and nothing that 4.0 took away."""
    away = DROPPED.get(line.name.upper(), set()) | {"pref"}
    params: list[tuple[str, list[str]]] = []
    preferred = False
    for name, values in line.params:
        upper = name.upper()
        if upper == "TYPE":
            preferred = preferred or any(value.lower() == "pref" for value in values)
            left = [value for value in values if value.lower() not in away]
            if left:
                params.append((name, left))
        elif upper == "X-PREF":
            params.append(("PREF", values))
        elif upper == "VALUE" and values and values[0].lower() in OLD_KINDS:
            continue
        elif upper not in ("CHARSET", "CONTEXT", MADE):
            params.append((name, values))
    if preferred and not any(name.upper() == "PREF" for name, _ in params):
        params.append(("PREF", ["1"]))
    return params


def binary_to_four(line: Line, made: Line, family: str) -> Line:
    """A photo, logo, sound or key.

    In line, it becomes a URI with data; else its type becomes MEDIATYPE.
    """
    types = line.values_of("TYPE")
    media = [media_of(one, family) for one in types if one.lower() not in ("pref", "home", "work")]
    encoding = [value.lower() for value in line.values_of("ENCODING")]
    places = [value for value in types if value.lower() in ("home", "work")]
    made.params = made.without("TYPE", "ENCODING", "VALUE")
    if places:
        made.params.append(("TYPE", places))
    if "b" in encoding or "base64" in encoding:
        data = re.sub(r"\s", "", line.value)
        made.value = f"data:{media[0] if media else media_in(data)};base64,{data}"
    elif line.value_type() in ("uri", "url") or URI.fullmatch(line.value):
        if media:
            made.params.append(("MEDIATYPE", media[:1]))
    else:
        made.params.append(("VALUE", ["text"]))
        made.params += [("TYPE", line.values_of("TYPE"))] if media else []
    return made


def media_in(data: str) -> str:
    """The media type of data in base64, by how it begins."""
    found = (told for start, told in BEGINNINGS.items() if data.startswith(start))
    return next(found, "application/octet-stream")


def media_of(word: str, family: str) -> str:
    """The media type that a TYPE of 3.0 stands for."""
    return MEDIA.get(word.upper(), word.lower() if "/" in word else f"{family}/{word.lower()}")


def date_to_four(line: Line, made: Line) -> Line:
    """A date, also one whose year a phone says to leave out."""
    value = dates.to_four(line.value)
    year = line.values_of(YEAR)
    made.params = made.without("VALUE", YEAR)
    if value is None or line.value_type() == "text":
        partial = dates.is_partial(line.value) and line.value_type() != "text"
        made.params += [] if partial or line.is_named("REV") else [("VALUE", ["text"])]
        return made
    left_out = year and value.startswith(year[0]) and len(value) == 8
    made.value = f"--{value[4:]}" if left_out else value
    return made


def geo_to_four(made: Line) -> Line:
    """Degrees of latitude and longitude become a geo: URI."""
    found = re.fullmatch(r"\s*([+-]?[\d.]+)\s*\\?[;,]\s*([+-]?[\d.]+)\s*", made.value)
    if found:
        made.value = f"geo:{found[1].lstrip('+')},{found[2].lstrip('+')}"
    return made


def zone_to_four(made: Line) -> Line:
    """An offset from UTC is named as one; other texts are the default of 4.0."""
    offset = dates.offset_to_four(made.value) if made.value_type() in ("", "utc-offset") else None
    if offset is not None:
        made.params = [*made.without("VALUE"), ("VALUE", ["utc-offset"])]
        made.value = offset
    elif made.value_type() == "text":
        made.params = made.without("VALUE")
    return made


def types_of(line: Line) -> set[str]:
    """The types of a line in lower case, without pref and those of which 4.0 has none."""
    away = {"pref", "dom", "intl", "postal", "parcel"}
    return {word.lower() for value in line.values_of("TYPE") for word in value.split(",")} - away


def moved_label(label: Line, present: list[Line]) -> bool:
    """Puts a label to the first address of the same types and group that has none.

    It tells whether there was one.
    """
    for line in present:
        is_free = line.is_named("ADR") and not line.values_of("LABEL")
        if is_free and line.group == label.group and types_of(line) == types_of(label):
            line.params.append(("LABEL", [encoded_parameter(unescaped(label.value))]))
            return True
    return False


def moved_sort(line: Line, present: list[Line]) -> bool:
    """Puts the text to sort by to the name, or else to the organisation; whether there was one."""
    for name in ("N", "ORG"):
        for other in present:
            if other.is_named(name) and not other.values_of("SORT-AS"):
                other.params.append(("SORT-AS", [encoded_parameter(unescaped(line.value))]))
                return True
    return False


# 4.0 to 3.0


def three_of(line: Line) -> Iterable[Line]:
    """The lines of 3.0 that say what this one of 4.0 says."""
    name = line.name.upper()
    made = Line(line.name, line.value, line.group, types_to_three(line), line.number)
    if name in BINARY:
        return [binary_to_three(line, made)]
    if name in ("BDAY", "ANNIVERSARY", "REV"):
        return [date_to_three(line, made, name)]
    if name == "GEO":
        return [geo_to_three(made)]
    if name == "TZ":
        return [zone_to_three(made)]
    if name == "TEL" and line.value_type() == "uri" and line.value.lower().startswith("tel:"):
        made.params, made.value = made.without("VALUE"), escaped(line.value[4:])
    elif name == "UID":
        made.params = made.without("VALUE")
    elif name == "RELATED" and is_agent(line):
        made.name, made.params = "AGENT", [*made.without("TYPE", "VALUE"), ("VALUE", ["uri"])]
    elif name == "ADR" and line.values_of("LABEL"):
        return label_to_three(line, made)
    elif name == "N" and line.values_of("SORT-AS"):
        made.params = made.without("SORT-AS")
        text = ",".join(decoded_parameter(value) for value in line.values_of("SORT-AS"))
        return [made, Line("SORT-STRING", escaped(text))]
    elif name in NEW:
        made.name = NEW[name]
    elif name.startswith("X-") and name[2:] in GONE:
        made.name = name[2:]
    return [made]


def is_agent(line: Line) -> bool:
    """Whether a relation is an agent of which only a URI is told."""
    return line.values_of("TYPE") == ["agent"] and line.value_type() in ("", "uri")


def types_to_three(line: Line) -> list[tuple[str, list[str]]]:
    """The parameters of a line of 3.0: the type pref for PREF=1, and types one by one."""
    params: list[tuple[str, list[str]]] = []
    for name, values in line.params:
        upper = name.upper()
        if upper == "TYPE":
            params.append((name, [word for value in values for word in value.split(",")]))
        elif upper == "PREF" and values == ["1"]:
            params.append(("TYPE", ["pref"]))
        elif upper == "PREF":
            params.append(("X-PREF", values))
        else:
            params.append((name, values))
    return params


def binary_to_three(line: Line, made: Line) -> Line:
    """A URI with data becomes data in line; of another one the media type becomes TYPE."""
    found = DATA.fullmatch(line.value)
    made.params = made.without("MEDIATYPE", "VALUE")
    if found:
        media = (found[1] or "application/octet-stream").lower()
        made.params += [("ENCODING", ["b"]), ("TYPE", [type_of(media)])]
        made.value = found[3]
    elif line.value_type() == "text":
        made.params.append(("VALUE", ["text"]))
    else:
        media_types = [value.lower() for value in line.values_of("MEDIATYPE")]
        made.params.append(("VALUE", ["uri"]))
        made.params += [("TYPE", [type_of(media)]) for media in media_types]
    return made


def type_of(media: str) -> str:
    """The TYPE of 3.0 that stands for a media type."""
    return MEDIA_NAMES.get(media, media.partition("/")[2].upper())


def date_to_three(line: Line, made: Line, name: str) -> Line:
    """A date with its parts apart.

    One without a year has the one by which phones know it; others get an X- name.
    """
    three, four = (NEW.get(name, name), f"X-{name}")
    value = dates.to_three(line.value) if line.value_type() != "text" else None
    day = dates.without_year(line.value) if line.value_type() != "text" else None
    if value is not None:
        made.name, made.value, made.params = three, value, made.without("VALUE")
    elif day is not None:
        made.name, made.value = three, f"1604-{day[0]}-{day[1]}"
        made.params = [*made.without("VALUE"), (YEAR, ["1604"])]
    elif name != "REV":
        made.name = four
    return made


def geo_to_three(made: Line) -> Line:
    """A geo: URI becomes degrees of latitude and longitude."""
    found = re.fullmatch(r"geo:(-?[\d.]+),(-?[\d.]+)", made.value, re.IGNORECASE)
    if found is None:
        made.name = "X-GEO"
        return made
    made.value, made.params = f"{found[1]};{found[2]}", made.without("VALUE")
    return made


def zone_to_three(made: Line) -> Line:
    """An offset from UTC is the default of 3.0; a text is named as one."""
    if made.value_type() == "utc-offset":
        made.value, made.params = dates.offset_to_three(made.value), made.without("VALUE")
    elif made.value_type() == "uri":
        made.name = "X-TZ"
    else:
        made.params = [*made.without("VALUE"), ("VALUE", ["text"])]
    return made


def label_to_three(line: Line, made: Line) -> list[Line]:
    """The label of an address is a property of its own in 3.0."""
    made.params = made.without("LABEL")
    types = [param for param in made.params if param[0].upper() == "TYPE"]
    text = "\n".join(decoded_parameter(value) for value in line.values_of("LABEL"))
    return [made, Line("LABEL", escaped(text), line.group, types)]
