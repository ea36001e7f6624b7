"""Dates and times of vCard.

3.0 has those of ISO 8601 with hyphens and colons, 4.0 those without (RFC 6350, section 4.3).
"""
from __future__ import annotations

import re

ZONE = r"(Z|[+-]\d{2}(?::?\d{2})?)?"
TIME_OF_THREE = rf"T(\d{{2}}):?(\d{{2}})(?::?(\d{{2}})(?:[.,]\d+)?)?{ZONE}"
TIME_OF_FOUR = rf"T(\d{{2}})(\d{{2}})(\d{{2}}){ZONE}"
THREE = re.compile(rf"(\d{{4}})-?(\d{{2}})-?(\d{{2}})(?:{TIME_OF_THREE})?", re.IGNORECASE)
FOUR = re.compile(rf"(\d{{4}})(\d{{2}})(\d{{2}})(?:{TIME_OF_FOUR})?", re.IGNORECASE)
NO_YEAR = re.compile(r"--(\d{2})-?(\d{2})")
PARTIAL = re.compile(
    rf"\d{{4}}|\d{{4}}-\d{{2}}|--\d{{2}}|---\d{{2}}|T\d{{2}}(?:\d{{2}}){{0,2}}{ZONE}", re.IGNORECASE
)
OFFSET = re.compile(r"([+-]\d{2}):?(\d{2})?")


def to_four(value: str) -> str | None:
    """The date of 4.0 that the one of 3.0 says, also one without a year.

    None where it is no date.
    """
    value = value.strip()
    found = NO_YEAR.fullmatch(value)
    if found:
        return f"--{found[1]}{found[2]}"
    found = THREE.fullmatch(value)
    if found is None:
        return None
    date = found[1] + found[2] + found[3]
    if found[4] is None:
        return date
    return f"{date}T{found[4]}{found[5]}{found[6] or ''}{(found[7] or '').upper().replace(':', '')}"


def to_three(value: str) -> str | None:
    """The date of 3.0 that the one of 4.0 says.

    None where 3.0 has none, as for one without a year.
    """
    found = FOUR.fullmatch(value.strip())
    if found is None:
        return None
    date = f"{found[1]}-{found[2]}-{found[3]}"
    if found[4] is None:
        return date
    return f"{date}T{found[4]}:{found[5]}:{found[6]}{offset_to_three(found[7] or '')}"


def is_partial(value: str) -> bool:
    """Whether it is a date of 4.0 that lacks parts.

    It is a year, a month or a day alone, or a time alone.
    """
    return bool(PARTIAL.fullmatch(value.strip()))


def without_year(value: str) -> tuple[str, str] | None:
    """Month and day of a date of 4.0 that has no year."""
    found = NO_YEAR.fullmatch(value.strip())
    return (found[1], found[2]) if found else None


def offset_to_four(value: str) -> str | None:
    """The offset from UTC of 4.0 that the one of 3.0 says; None where it is none."""
    found = OFFSET.fullmatch(value.strip())
    return found[1] + (found[2] or "") if found else None


def offset_to_three(value: str) -> str:
    """The offset from UTC as 3.0 has it; another text as it is."""
    found = OFFSET.fullmatch(value.strip())
    return f"{found[1]}:{found[2] or '00'}" if found else value.upper()
