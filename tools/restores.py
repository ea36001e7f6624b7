"""What `restore` makes of a store and of a backup, and what `doctor` counts in a store, worked out of the lines of their dumps by rules of
its own. Nothing here asks the program. What imports this is run by `python3 -B`, so that nothing is left in tools/."""

import decisions

LAST, BOOKS, CARDS = 2**53 - 1, 1_000, 10_000
KEYS = ["path", "owner", "label", "protected", "own", "members", "number", "removed", "text"]


class Refused(Exception):
    """A restore that is refused, by the name that is told."""


def is_book(path):
    return path.startswith("/books/") and path.count("/") == 2


def is_card(path):
    return path.startswith("/books/") and path.count("/") == 3


def book_of(path):
    return path.rpartition("/")[0]


def line_of(told):
    """A line of a dump, whose keys stand in their order; what is nothing is left out."""
    return {key: told[key] for key in KEYS if key in told and told[key] not in (None, [], {})}


def wanted_of(backup, paths):
    """The lines of the backup that are wanted: of each card and book that is named, and of the cards of such a book."""
    if any(path not in backup or not (is_book(path) or is_card(path)) for path in paths):
        raise Refused("not-found")
    return {path: backup[path] for path in decisions.ordered(backup) if path in paths or (is_card(path) and book_of(path) in paths)}


def principals_of(line, keys):
    """The principals that a line names as its owner, or in these lists."""
    named = {entry["who"] for key in keys for entry in line.get(key, [])} | {line.get("owner", "all")}
    return {name for name in named if name.startswith("/")}


def check_whole(store, wanted):
    """That each card has a book, and that all who are named are there."""
    if any(is_card(path) and book_of(path) not in store and book_of(path) not in wanted for path in wanted):
        raise Refused("no-parent")
    for path, line in wanted.items():
        if not principals_of(line, ["own"] if path in store else ["own", "protected"]) <= set(store):
            raise Refused("unknown-principal")


def put_book(after, path, line):
    """A book that is there keeps its protected list, its number and its removed names; a new one has the protected list of the backup."""
    was = after.get(path, {"protected": line.get("protected"), "number": 0})
    kept = {key: was.get(key) for key in ("protected", "number", "removed")}
    after[path] = {**line, "removed": None, **kept}


def put_card(after, path, line):
    """A card takes the next number of its book, and its name is no removed one there."""
    book = after[book_of(path)]
    number, name = book["number"] + 1, path.rpartition("/")[2]
    removed = {gone: at for gone, at in (book.get("removed") or {}).items() if gone != name}
    after[book_of(path)] = {**book, "number": number, "removed": removed}
    after[path] = {**line, "number": number}


def check_limits(after):
    """That no book has more cards, and the store no more books, than there may be, and no number is past the last."""
    books = [path for path in after if is_book(path)]
    cards = dict.fromkeys(books, 0)
    for path in after:
        if is_card(path):
            cards[book_of(path)] += 1
    if len(books) > BOOKS or any(many > CARDS for many in cards.values()) or any(after[path]["number"] > LAST for path in books):
        raise Refused("full")


def rises(store, path, line):
    """Whether a resource that is restored raises the epoch: a book that was not there, or another owner or own list."""
    if path not in store:
        return is_book(path) or "own" in line
    return any(store[path].get(key) != line.get(key) for key in ("owner", "own"))


def restored(epoch, store, backup, paths):
    """The epoch and the lines of the store after a restore, and the lines that are told. Store and backup are lines of dumps by path."""
    wanted = wanted_of(backup, paths)
    check_whole(store, wanted)
    after, told = dict(store), []
    for path, line in wanted.items():
        (put_book if is_book(path) else put_card)(after, path, line)
        told.append(f"book {path}" if is_book(path) else f"card {path} number {after[path]['number']}")
    check_limits(after)
    if any(rises(store, path, line) for path, line in wanted.items()):
        if epoch == LAST:
            raise Refused("last-number")
        told.append(f"epoch {epoch} -> {epoch + 1}")
        epoch += 1
    return epoch, [line_of(after[path]) for path in decisions.ordered(after)], told


def counts(epoch, lines):
    """The lines that `doctor` tells of the content of a sound store."""
    def many(of):
        return sum(bool(of(line["path"])) for line in lines)

    def all_of(*keys):
        return sum(len(line.get(key, [])) for line in lines for key in keys)

    found = {
        "epoch": epoch,
        "persons": many(lambda path: path.startswith("/people/")),
        "groups": many(lambda path: path.startswith("/groups/")),
        "books": many(is_book),
        "cards": many(is_card),
        "removed": all_of("removed"),
        "members": all_of("members"),
        "entries": all_of("protected", "own"),
    }
    return [f"{name} {number}" for name, number in found.items()]
