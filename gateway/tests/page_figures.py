"""How long the page takes over a book of 10,000 cards: python3 -m tests.page_figures [CARDS].

It prints figures and asserts none.
"""
from __future__ import annotations

import http.client
import signal
import sys
import time
from pathlib import Path
from typing import Any

from tests.browser import POLICY, WORDS, By, Keys, WebDriverWait, card, end, started
from tests.world import World

GIVEN = ("Anna", "Béla", "Chloé", "Dörte", "Emil", "Fatma", "Gül", "Hugo", "Ines", "Jörg")
FAMILY = ("Oberländer", "Müller", "Núñez", "Rahman", "Šimek", "Kowalski", "Haddad", "Lindqvist")


def text_of(number: int) -> str:
    """A card as an office has them."""
    given, family = GIVEN[number % 10], f"{FAMILY[number % 8]}-{number // 80}"
    return card(
        f"FN:{given} {family}", f"N:{family};{given};;;", f"ORG:Firma {number % 500};Einkauf",
        "TITLE:Sachbearbeitung", f"TEL;TYPE=work:+49 30 {5_000_000 + number}",
        f"EMAIL;TYPE=work:k{number}@firma{number % 500}.example",
        f"ADR;TYPE=work:;;Lindenstr. {number % 200};Berlin;;10115;Germany", uid=f"f-{number}",
    )


def fill(world: World, count: int) -> None:
    """Puts cards at the server itself, over one connection."""
    connection = http.client.HTTPConnection("127.0.0.1", world.server_port, timeout=120)
    for number in range(count):
        connection.request(
            "PUT", f"/books/sales/f{number}.vcf", text_of(number).encode(),
            {"x-office-caller": "hanna"},
        )
        reply = connection.getresponse()
        reply.read()
        if reply.status != 201:
            raise RuntimeError(f"card {number}: {reply.status}")


def memory(process: int) -> int:
    """A process's resident memory in MB."""
    status = Path(f"/proc/{process}/status").read_text(encoding="utf-8")
    return int(status.partition("VmRSS:")[2].split()[0]) // 1024


def asked(world: World, path: str, body: dict[str, Any]) -> float:
    """Milliseconds of a request of the page."""
    begun = time.monotonic()
    reply = world.say("hanna", "POST", path, body, x_office_page="1")
    assert reply.status == 200, reply.text
    return (time.monotonic() - begun) * 1000


def seen(driver: Any, begin: str, wanted: str) -> float:
    """Milliseconds in the browser from a step until an element is there."""
    script = f"""
        const done = arguments[0];
        const begun = performance.now();
        const look = () => (document.querySelector("{wanted}")
            ? done(performance.now() - begun) : requestAnimationFrame(look));
        {begin};
        look();
    """
    return float(driver.execute_async_script(script))


def signed_in(world: World) -> Any:
    """A browser in which Hanna has signed in."""
    driver = started(world.path)
    driver.set_script_timeout(120)
    driver.get(f"http://127.0.0.1:{world.port}/")
    wait = WebDriverWait(driver, 60)
    wait.until(lambda _: driver.find_elements(By.CSS_SELECTOR, "input[type=password]"))
    name, word = driver.find_elements(By.CSS_SELECTOR, "main input")
    name.send_keys("hanna")
    word.send_keys(WORDS["hanna"], Keys.ENTER)
    wait.until(lambda _: driver.find_elements(By.ID, "books"))
    return driver


def in_the_browser(world: World) -> None:
    """Prints what a person waits for: the book was read by nobody before."""
    driver = signed_in(world)
    opens = "location.hash = '#/books/sales'"
    first = seen(driver, opens, "#cards li")
    finds = (
        "const find = document.getElementById('find'); find.value = 'obe ann'; "
        "find.dispatchEvent(new Event('input'))"
    )
    found = seen(driver, finds, "#found li")
    again = seen(driver, opens, "#cards li")
    end(driver)
    print(f"in the browser: first name {first:.0f} ms after the click, and {again:.0f} ms again")
    print(f"first that is found {found:.0f} ms after the last letter")


def main(count: int) -> None:
    """Prints the figures."""
    signal.signal(signal.SIGTERM, lambda *_: sys.exit(143))
    world = World(policy=POLICY, passwords=WORDS, kept=16)
    try:
        before = memory(world.gateway.pid)
        fill(world, count)
        in_the_browser(world)
        words = {"path": "/books/sales", "order": "family", "start": 0, "count": 100, "words": ""}
        opened = min(asked(world, "/page/book", words) for _ in range(5))
        found = min(asked(world, "/page/search", {"words": "obe ann"}) for _ in range(5))
        print(f"{count} cards: a slice is answered in {opened:.0f} ms, a search in {found:.0f} ms")
        after, server = memory(world.gateway.pid), memory(world.server.pid)
        print(f"memory: gateway {before} MB before, {after} MB after; server {server} MB")
    finally:
        world.close()


if __name__ == "__main__":
    main(int(sys.argv[1]) if len(sys.argv) > 1 else 10_000)
