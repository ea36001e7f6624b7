"""Small files of the gateway's own, in JSON, for its user alone. One that cannot be written is told
in the log."""
from __future__ import annotations

import json
import logging
import os
from pathlib import Path
from typing import Any

LOG = logging.getLogger("office_gateway")


def read(file: Path | None) -> dict[str, Any]:
    """What a file has; nothing where there is none, or where it is no table."""
    try:
        told = json.loads(file.read_text(encoding="utf-8")) if file else {}
        return told if isinstance(told, dict) else {}
    except FileNotFoundError:
        return {}
    except (OSError, ValueError) as fault:
        LOG.error("%s cannot be read, and is taken as empty: %s", file, type(fault).__name__)
        return {}


def write(file: Path | None, table: dict[str, Any]) -> bool:
    """Writes a file in place of the old one; whether it was written."""
    if file is None:
        return False
    new = file.with_name(file.name + ".new")
    try:
        handle = os.open(new, os.O_WRONLY | os.O_CREAT | os.O_TRUNC, 0o600)
        with open(handle, "w", encoding="utf-8") as stream:
            json.dump(table, stream)
            stream.flush()
            os.fsync(stream.fileno())
        os.replace(new, file)
        return True
    except OSError as fault:
        LOG.error("%s cannot be written: %s", file, fault.strerror)
        return False
