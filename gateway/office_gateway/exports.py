"""The command `export`: all cards of a book that a person may read, as one file."""
from __future__ import annotations

import argparse
import sys
from collections.abc import Sequence
from typing import Any

from .convert import to_three
from .gate import Fault, add_words, cause_in, gate_of


def main(words: Sequence[str] | None = None) -> int:
    """Status 0 where the book was written, 1 where it is refused, 3 where nobody answered."""
    parser = argparse.ArgumentParser(
        "export", description="Writes all cards of a book that one may read as one file."
    )
    add_words(parser)
    parser.add_argument(
        "--version", choices=("3.0", "4.0"), default="4.0",
        help="the version of vCard; 4.0 is what the book has",
    )
    given = parser.parse_args(words)
    try:
        status, report = gate_of(given).report(given.book)
        if status != 207:
            print(f"refused. {cause_in(report)}", file=sys.stderr)
            return 1
        write_cards(report, given.version)
    except (Fault, OSError) as fault:
        print(fault, file=sys.stderr)
        return 3
    return 0


def write_cards(report: dict[str, Any], version: str) -> None:
    """Writes the cards of a sync report to standard output, each with its last line ended."""
    for response in report["responses"]:
        text = response["text"] if version == "4.0" else to_three(response["text"])
        end = b"" if text.endswith("\n") else b"\r\n"
        sys.stdout.buffer.write(text.encode("utf-8") + end)
