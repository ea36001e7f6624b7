"""Photos of cards that are too large for the server, made smaller.

A card has at most 65,536 bytes with its photo. Phones send larger ones, and send them again for
ever where they are refused. The photo is written anew as JPEG: the longest side 720, then less,
until the card fits. What else was in its file (EXIF with places and times) goes; how it is turned
is kept.
"""
from __future__ import annotations

import base64
import binascii
import io
import threading
from collections.abc import Iterator

from .convert import DATA, Converted
from .vcard import BadLine, Line, folded, parsed, unfolded

try:
    from PIL import Image, ImageOps
except ImportError:
    Image = None  # type: ignore[assignment]

PACKAGE = "python3-pil"
FORMATS = ("JPEG", "PNG", "GIF", "WEBP", "BMP", "TIFF")
# Points of a picture in memory, and the sides and qualities that are tried.
POINTS = 16_000_000
SIDES = (720, 512, 384, 256, 192, 128, 96, 64)
QUALITIES = (85, 70, 55, 40)
# One picture at a time, so that memory is bounded.
TURN = threading.Lock()


def is_there() -> bool:
    """Whether photos can be made smaller: whether python3-pil is there."""
    return Image is not None


def shrunk(text: str, limit: int) -> Converted | None:
    """A card of 4.0 with its photos as small as it takes; None where it still is too large."""
    if not is_there():
        return None
    with TURN:
        return made_smaller(unfolded(text), limit)


def made_smaller(source: list[str], limit: int) -> Converted | None:
    """The lines as a card whose largest pictures are made smaller until it fits."""
    source = list(source)
    lines = [line_of(line) for line in source]
    large = [at for at, line in enumerate(lines) if line is not None]
    large.sort(key=lambda at: len(source[at]), reverse=True)
    for at in large:
        if size_of(source) <= limit:
            break
        line = lines[at]
        assert line is not None
        room = limit - size_of([*source[:at], *source[at + 1 :]])
        small = smaller_line(line, room)
        if small is None:
            return None
        source[at] = small
    if size_of(source) > limit:
        return None
    made = "".join(folded(line) for line in source)
    return Converted(made, list(range(1, len(source) + 1)), len(source))


def size_of(lines: list[str]) -> int:
    """Bytes of these lines, folded."""
    return sum(len(folded(line).encode("utf-8", "surrogatepass")) for line in lines)


def line_of(text: str) -> Line | None:
    """The line where it has a picture in it, else None."""
    if not text[:40].upper().lstrip("ITEM0123456789.").startswith(("PHOTO", "LOGO")):
        return None
    try:
        line = parsed(text, 0)
    except BadLine:
        return None
    found = DATA.fullmatch(line.value)
    return line if found and (found[1] or "image/").lower().startswith("image/") else None


def smaller_line(line: Line, room: int) -> str | None:
    """The line with a smaller picture that takes at most so many bytes when folded."""
    found = DATA.fullmatch(line.value)
    assert found is not None
    try:
        data = base64.b64decode(found[3], validate=True)
    except (binascii.Error, ValueError):
        return None
    # Apple's frame is counted in points of the old picture.
    params = line.without("X-ABCROP-RECTANGLE")
    for picture in smaller(data):
        value = "data:image/jpeg;base64," + base64.b64encode(picture).decode()
        made = Line(line.name, value, line.group, params).text()
        if size_of([made]) <= room:
            return made
    return None


def smaller(data: bytes) -> Iterator[bytes]:
    """The picture as JPEG, smaller and smaller; nothing where it is no picture that is read."""
    try:
        picture = opened(data)
    except (OSError, ValueError, SyntaxError, MemoryError, Image.DecompressionBombError):
        return
    for side in SIDES:
        picture.thumbnail((side, side), Image.Resampling.LANCZOS)
        for quality in QUALITIES:
            out = io.BytesIO()
            picture.save(out, "JPEG", quality=quality, optimize=True)
            yield out.getvalue()


def opened(data: bytes) -> Image.Image:
    """The picture, upright, in colours or in grey, on white where it was clear."""
    picture = Image.open(io.BytesIO(data), formats=FORMATS)
    # A JPEG is read at a fraction of its size.
    picture.draft("RGB", (2 * SIDES[0], 2 * SIDES[0]))
    if picture.width * picture.height > POINTS:
        raise ValueError("too many points")
    picture = ImageOps.exif_transpose(picture)
    if picture.mode in ("RGBA", "LA", "PA") or "transparency" in picture.info:
        clear = picture.convert("RGBA")
        white = Image.new("RGBA", clear.size, "white")
        return Image.alpha_composite(white, clear).convert("RGB")
    return picture if picture.mode in ("RGB", "L") else picture.convert("RGB")
