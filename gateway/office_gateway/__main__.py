"""Starts the gateway: python3 -m office_gateway SETTINGS."""
from __future__ import annotations

import asyncio
import importlib.util
import logging
import signal
import sys
from collections.abc import Sequence
from pathlib import Path
from typing import TYPE_CHECKING

from .config import ConfigFault, load

if TYPE_CHECKING:
    from .app import Gateway

# Modules that the gateway does not run without, with Debian's packages that have them.
WANTED = {
    "aiohttp": "python3-aiohttp", "bcrypt": "python3-bcrypt", "defusedxml": "python3-defusedxml",
    "lxml": "python3-lxml",
}


async def serve(gateway: Gateway) -> None:
    """Runs until the process is asked to end. By HUP it reads a renewed certificate."""
    loop = asyncio.get_running_loop()
    task = asyncio.create_task(gateway.run())
    for number in (signal.SIGINT, signal.SIGTERM):
        loop.add_signal_handler(number, task.cancel)
    loop.add_signal_handler(signal.SIGHUP, gateway.renew)
    try:
        await task
    except asyncio.CancelledError:
        pass


def main(words: Sequence[str] | None = None) -> int:
    """Status 0 where it was asked to end, 1 where it cannot start, 2 where the words are wrong."""
    words = sys.argv[1:] if words is None else words
    if len(words) != 1:
        print("usage: serve SETTINGS", file=sys.stderr)
        return 2
    form = "%(asctime)s %(levelname)s %(message)s"
    logging.basicConfig(level=logging.INFO, format=form, stream=sys.stderr)
    missing = [name for module, name in WANTED.items() if not importlib.util.find_spec(module)]
    if missing:
        listed = " ".join(missing)
        print(f"packages are not there: {listed}: apt-get install {listed}", file=sys.stderr)
        return 1
    try:
        from .app import Gateway  # pylint: disable=import-outside-toplevel

        gateway = Gateway(load(Path(words[0])))
    except ConfigFault as fault:
        print(f"settings: {fault}", file=sys.stderr)
        return 1
    try:
        asyncio.run(serve(gateway))
    except OSError as fault:
        print(f"listen: {fault.strerror}", file=sys.stderr)
        return 1
    return 0


if __name__ == "__main__":
    sys.exit(main())
