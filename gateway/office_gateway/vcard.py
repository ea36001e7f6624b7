"""The lines of vCards (RFC 2426 and RFC 6350): unfolded, taken apart, and written again."""
from __future__ import annotations

import re
from collections.abc import Iterable, Iterator
from dataclasses import dataclass, field

WORD = r"[A-Za-z0-9-]+"
NAME = re.compile(rf"(?:({WORD})\.)?({WORD})")
PARAMETER_NAME = re.compile(WORD)
PLAIN_VALUE = re.compile(r'[^";:,]*')
QUOTED_VALUE = re.compile(r'"([^"]*)"')
CONTROL = re.compile(r"[\x00-\x08\x0a-\x1f\x7f]")
VERSION = re.compile(r"version(?:;[^:]*)?:(.*)", re.IGNORECASE)
FORMATTED = re.compile(
    r"^(?:[A-Za-z0-9-]+\.)?FN(?:;[^:\n]*)?:(.*)$", re.IGNORECASE | re.MULTILINE
)


class BadLine(ValueError):
    """A line that is no content line. `line` is its number, from 1."""

    def __init__(self, line: int):
        super().__init__(f"bad line {line}")
        self.line = line


@dataclass
class Line:
    """A content line.

    `number` is the line of the text that it was made of, from 1; 0 where it was made of none.
    """

    name: str
    value: str
    group: str = ""
    params: list[tuple[str, list[str]]] = field(default_factory=list)
    number: int = 0

    def is_named(self, *names: str) -> bool:
        """Whether its name is one of these, which are in capitals."""
        return self.name.upper() in names

    def values_of(self, parameter: str) -> list[str]:
        """All values of the parameter, in order."""
        found = [values for name, values in self.params if name.upper() == parameter]
        return [value for values in found for value in values]

    def value_type(self) -> str:
        """The VALUE parameter in lower case, or an empty text."""
        values = self.values_of("VALUE")
        return values[0].lower() if values else ""

    def without(self, *parameters: str) -> list[tuple[str, list[str]]]:
        """Its parameters but these."""
        return [(name, values) for name, values in self.params if name.upper() not in parameters]

    def text(self) -> str:
        """The line as it is written, not folded."""
        head = f"{self.group}.{self.name}" if self.group else self.name
        for name, values in self.params:
            head += f";{name}={','.join(quoted(value) for value in values)}"
        return f"{head}:{self.value}"


def quoted(value: str) -> str:
    """A parameter's value, in double quotes where it needs them.

    A double quote in it is written as RFC 6868 has it.
    """
    value = value.replace('"', "^'").replace("\r\n", "^n").replace("\n", "^n")
    return f'"{value}"' if re.search(r"[;:,]", value) else value


def unfolded(text: str) -> list[str]:
    """The lines of the unfolded text.

    A line end is CRLF or LF; one that a space or a tab follows is no end.
    """
    *lines, last = unfolded_text(text).split("\n")
    lines = [line.removesuffix("\r") for line in lines]
    return [*lines, last] if last else lines


def unfolded_text(text: str) -> str:
    """The text without its folds. Line by line: a regular expression is slow over pictures."""
    if "\n " not in text and "\n\t" not in text:
        return text
    kept: list[str] = []
    for part in text.split("\n"):
        if kept and part[:1] in (" ", "\t"):
            kept[-1] = kept[-1].removesuffix("\r")
            kept.append(part[1:])
        else:
            kept += ["\n", part] if kept else [part]
    return "".join(kept)


def parsed(text: str, number: int) -> Line:
    """The content line of an unfolded line; BadLine where it is none."""
    if CONTROL.search(text):
        raise BadLine(number)
    head = NAME.match(text)
    if head is None:
        raise BadLine(number)
    at = head.end()
    params: list[tuple[str, list[str]]] = []
    while text[at : at + 1] == ";":
        name = PARAMETER_NAME.match(text, at + 1)
        if name is None or text[name.end() : name.end() + 1] != "=":
            raise BadLine(number)
        values, at = parameter_values(text, name.end())
        params.append((name.group(), values))
    if text[at : at + 1] != ":":
        raise BadLine(number)
    return Line(head.group(2), text[at + 1 :], head.group(1) or "", params, number)


def parameter_values(text: str, at: int) -> tuple[list[str], int]:
    """The values after the `=` or the comma at `at`, and where they end."""
    values: list[str] = []
    while text[at : at + 1] == ("," if values else "="):
        value = QUOTED_VALUE.match(text, at + 1) or PLAIN_VALUE.match(text, at + 1)
        assert value is not None
        values.append(value.group(1) if value.re is QUOTED_VALUE else value.group())
        at = value.end()
    return values, at


def read(text: str) -> list[Line]:
    """The content lines of a text, empty lines left out; BadLine at the first that is none."""
    return [parsed(line, number) for number, line in enumerate(unfolded(text), 1) if line]


def formatted(text: str) -> str:
    """The first FN as people read it, or an empty text."""
    found = FORMATTED.search(unfolded_text(text))
    return unescaped(found.group(1).rstrip("\r")) if found else ""


def folded(line: str, width: int = 75) -> str:
    """A line with its end, folded so that no part has more than `width` bytes.

    No fold is inside a character.
    """
    if line.isascii():
        starts = range(width, len(line), width - 1)
        return "\r\n ".join([line[:width], *(line[at : at + width - 1] for at in starts)]) + "\r\n"
    data = line.encode("utf-8", "surrogatepass")
    parts, at, size = [], 0, width
    while len(data) - at > size:
        end = at + size
        while data[end] & 0xC0 == 0x80:
            end -= 1
        parts.append(data[at:end])
        at, size = end, width - 1
    parts.append(data[at:])
    return b"\r\n ".join(parts).decode("utf-8", "surrogatepass") + "\r\n"


def written(lines: Iterable[Line]) -> str:
    """The text of these lines, folded."""
    return "".join(folded(line.text()) for line in lines)


def version_of(text: str) -> str:
    """The value of the first VERSION line, or an empty text."""
    return version_in(unfolded(text))


def version_in(lines: Iterable[str]) -> str:
    """The value of the first VERSION line of unfolded lines, or an empty text."""
    for line in lines:
        found = VERSION.fullmatch(line)
        if found:
            return found.group(1).strip()
    return ""


def unescaped(value: str) -> str:
    """A text value as people read it.

    Backslashes before comma, semicolon, backslash and n are taken away.
    """
    if "\\" not in value:
        return value
    return re.sub(r"\\([\\,;nN])", lambda it: "\n" if it[1] in "nN" else it[1], value)


def escaped(value: str) -> str:
    """The text value that says this."""
    value = re.sub(r"[\\,;]", lambda found: "\\" + found.group(), value)
    return value.replace("\r\n", "\n").replace("\n", "\\n")


def components(value: str, separator: str = ";") -> list[str]:
    """The parts of a value of several, still escaped."""
    if "\\" not in value:
        return value.split(separator)
    parts, at = [""], 0
    while at < len(value):
        if value[at] == "\\":
            parts[-1] += value[at : at + 2]
            at += 2
            continue
        if value[at] == separator:
            parts.append("")
        else:
            parts[-1] += value[at]
        at += 1
    return parts


def decoded_parameter(value: str) -> str:
    """A parameter's value as people read it.

    It is read by RFC 6868, and by the backslash with n that RFC 6350 shows for LABEL.
    """
    value = re.sub(r"\^([n'^])", lambda it: {"n": "\n", "'": '"', "^": "^"}[it[1]], value)
    return re.sub(r"\\[nN]", "\n", value)


def encoded_parameter(value: str) -> str:
    """The parameter's value that says this, by RFC 6868."""
    return value.replace("^", "^^").replace("\n", "^n").replace('"', "^'")


def cards_of(text: str) -> Iterator[str]:
    """The cards of a text of many, each from its BEGIN to its END.

    What stands between them is a card of its own.
    """
    kept: list[str] = []
    depth = 0
    for line in re.split(r"(?<=\n)", text):
        word = line.strip().upper()
        if word == "BEGIN:VCARD":
            if depth == 0 and "".join(kept).strip():
                yield "".join(kept)
            if depth == 0:
                kept = []
            depth += 1
        kept.append(line)
        if word == "END:VCARD" and depth:
            depth -= 1
            if depth == 0:
                yield "".join(kept)
                kept = []
    if "".join(kept).strip():
        yield "".join(kept)
