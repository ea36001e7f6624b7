"""Fields of a request about a card: entity tags (RFC 9110, section 13), versions and types."""
from __future__ import annotations

import re

from .refusals import Refusal

MEMBERS = re.compile(r'(W/)?("[^"]*")')


def has_tag(field: str, tag: str | None, weak: bool = False) -> bool:
    """Whether a list of tags, or the star, has this one."""
    if field.strip() == "*":
        return True
    if tag is None:
        return False
    return any(text == tag and (weak or not start) for start, text in MEMBERS.findall(field))


def accepts_three(field: str) -> bool:
    """Whether Accept names version 3.0, and not 4.0 rather."""
    best = {"3.0": 0.0, "4.0": 0.0}
    for member in field.lower().split(","):
        kind, *params = [part.strip() for part in member.split(";")]
        said = dict(param.split("=", 1) for param in params if "=" in param)
        version = said.get("version", "").strip('"')
        try:
            weight = float(said.get("q", "1"))
        except ValueError:
            weight = 0.0
        if kind == "text/vcard" and version in best:
            best[version] = max(best[version], weight)
    return best["3.0"] > best["4.0"]


def check_type(field: str) -> None:
    """Refusal 415 where a body is no vCard in UTF-8."""
    kind, *params = [part.strip().lower() for part in field.split(";")]
    said = [param.partition("=") for param in params]
    charset = next((value.strip('"') for key, _, value in said if key == "charset"), "utf-8")
    is_card = kind in ("text/vcard", "text/x-vcard", "text/directory")
    if not is_card or charset not in ("utf-8", "us-ascii"):
        raise Refusal(415, "supported-address-data")
