"""The filters of addressbook-query (RFC 6352, section 10.5)."""
from __future__ import annotations

import unicodedata
from collections.abc import Callable
from dataclasses import dataclass
from xml.etree.ElementTree import Element

from .davxml import c
from .refusals import Refusal
from .vcard import BadLine, Line, decoded_parameter, read, unescaped

KINDS = ("equals", "contains", "starts-with", "ends-with")
COLLATIONS = ("i;ascii-casemap", "i;octet", "i;unicode-casemap")
# Conditions in one filter.
CONDITIONS = 200

Test = Callable[[list[Line]], bool]


def ascii_fold(text: str) -> str:
    """A text with the letters a to z as capitals, by RFC 4790."""
    return "".join(chr(ord(letter) - 32) if "a" <= letter <= "z" else letter for letter in text)


def unicode_fold(text: str) -> str:
    """A text without regard to case and to how its characters are composed, by RFC 5051."""
    return unicodedata.normalize("NFKD", text.casefold())


FOLDS: dict[str, Callable[[str], str]] = {
    "i;ascii-casemap": ascii_fold,
    "i;unicode-casemap": unicode_fold,
    "default": unicode_fold,
    "i;octet": lambda text: text,
}


@dataclass(frozen=True)
class TextMatch:
    """A text that a value is to have."""

    text: str
    collation: str
    kind: str
    negate: bool

    def holds(self, value: str) -> bool:
        """Whether it holds of the value."""
        fold = FOLDS[self.collation]
        text, value = fold(self.text), fold(value)
        found = {
            "equals": value == text,
            "contains": text in value,
            "starts-with": value.startswith(text),
            "ends-with": value.endswith(text),
        }[self.kind]
        return found != self.negate


def text_match(element: Element) -> TextMatch:
    """The text-match of an element; Refusal 403 where its collation or match-type is not known."""
    collation = element.get("collation", "i;unicode-casemap")
    kind = element.get("match-type", "contains")
    negate = element.get("negate-condition", "no")
    if collation not in FOLDS:
        raise Refusal(403, "supported-collation")
    if kind not in KINDS or negate not in ("yes", "no"):
        raise Refusal(403, "supported-filter")
    return TextMatch(element.text or "", collation, kind, negate == "yes")


def of_all(element: Element) -> bool:
    """Whether all conditions of an element are to hold, and not any."""
    test = element.get("test", "anyof")
    if test not in ("anyof", "allof"):
        raise Refusal(403, "supported-filter")
    return test == "allof"


def is_named(line: Line, name: str) -> bool:
    """Whether a line has this name, which may have a group before a dot."""
    group, _, bare = name.rpartition(".")
    return line.name.upper() == bare.upper() and (not group or line.group.upper() == group.upper())


def parameter_test(element: Element) -> Callable[[Line], bool]:
    """What a param-filter says of a line."""
    name = (element.get("name") or "").upper()
    children = [child for child in element if isinstance(child.tag, str)]
    if not name or len(children) > 1:
        raise Refusal(403, "supported-filter")

    def present(line: Line) -> bool:
        return any(parameter.upper() == name for parameter, _ in line.params)

    if not children:
        return present
    if children[0].tag == c("is-not-defined"):
        return lambda line: not present(line)
    if children[0].tag != c("text-match"):
        raise Refusal(403, "supported-filter")
    match = text_match(children[0])
    return lambda line: any(
        match.holds(word) for value in line.values_of(name) for word in words(name, value)
    )


def words(name: str, value: str) -> list[str]:
    """The words of a parameter's value: types may stand in one value, separated by commas."""
    return value.split(",") if name == "TYPE" else [decoded_parameter(value)]


def property_test(element: Element) -> Test:
    """What a prop-filter says of a card's lines."""
    name = element.get("name") or ""
    children = [child for child in element if isinstance(child.tag, str)]
    every = of_all(element)
    if not name:
        raise Refusal(403, "supported-filter")
    if any(child.tag == c("is-not-defined") for child in children):
        if len(children) > 1:
            raise Refusal(403, "supported-filter")
        return lambda lines: not any(is_named(line, name) for line in lines)
    tests: list[Callable[[Line], bool]] = []
    for child in children:
        if child.tag == c("text-match"):
            tests.append(line_test(text_match(child)))
        elif child.tag == c("param-filter"):
            tests.append(parameter_test(child))
        else:
            raise Refusal(403, "supported-filter")
    together = all if every else any
    return lambda lines: any(
        is_named(line, name) and (not tests or together(test(line) for test in tests))
        for line in lines
    )


def line_test(match: TextMatch) -> Callable[[Line], bool]:
    """What a text-match says of a line's value."""
    return lambda line: match.holds(unescaped(line.value))


def filter_of(element: Element | None) -> Callable[[str], bool]:
    """What a filter says of a card's text. No filter, and one without conditions, holds of every
    card."""
    if element is None:
        return lambda text: True
    children = [child for child in element if isinstance(child.tag, str)]
    every = of_all(element)
    too_many = sum(1 for _ in element.iter()) > CONDITIONS
    if too_many or any(child.tag != c("prop-filter") for child in children):
        raise Refusal(403, "supported-filter")
    tests = [property_test(child) for child in children]
    together = all if every else any

    def holds(text: str) -> bool:
        if not tests:
            return True
        try:
            lines = read(text)
        except BadLine:
            return False
        return together(test(lines) for test in tests)

    return holds
