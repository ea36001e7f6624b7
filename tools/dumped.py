"""Random Offices as the lines of dumps, as no program made them: any principals, lists, labels, texts, numbers and removed names that a
dump may have, mostly few of each. Nothing here asks the program. What imports this is run by `python3 -B`, so that nothing is left in
tools/."""

import decisions
import restores

LAST, LABEL, TEXT, LIST = 2**53 - 1, 256, 65_536, 64
# Names whose byte order differs from that of words, and one of each bound.
NAMES = ["a", "A", "a-b", "a.b", "a_b", "ab", "b", "-", "_", "0", "10", "9", "a.vcf", "Zoe", "all", "owner", "z" * 64]
FORMS = ["all", "authenticated", "unauthenticated", "owner", "self"]
PIECES = ["Ann", " ", '"', "\\", "/", "\n", "\t", "\r\n", "\b", "\f", "\0", "\x1f", "\x7f", "\x80", "\xa0", "ü", "\u2028", "\ufeff", "\ufffd", "\U0001f4c7",
          "{}", "\\u0041", "'", "<&>"]
CARD = "BEGIN:VCARD\r\nVERSION:4.0\r\nFN:Ann\r\nEND:VCARD\r\n"


def seldom(rng):
    return rng.random() < 0.02


def text_of(rng, most):
    """A text of at most so many bytes, seldom of just so many."""
    text = "".join(rng.choices(PIECES, k=rng.choice([1, 1, 2, 5, 20])))
    while len(text.encode()) > most:
        text = text[:-1]
    return text + "n" * (most - len(text.encode())) * seldom(rng)


def label(rng):
    return text_of(rng, LABEL) if rng.random() < 0.4 else None


def names(rng, many):
    """So many names, without two that are equal."""
    return rng.sample(NAMES, many) if many <= len(NAMES) else [f"{rng.choice(NAMES)[:50]}{number}" for number in range(many)]


def leaves(rng):
    names = rng.choice([[rng.choice(decisions.LEAVES)], rng.sample(decisions.LEAVES, rng.randint(1, 9)), ["read"], ["write"], ["all"]])
    return decisions.short(decisions.leaves_of(names))


def entry(rng, principals):
    told = {"who": rng.choice(FORMS) if not principals or rng.random() < 0.4 else rng.choice(principals)}
    told.update({"invert": True} if rng.random() < 0.2 else {})
    return {**told, rng.choice(["grant", "deny"]): leaves(rng)}


def entries(rng, principals):
    many = LIST if seldom(rng) else rng.choice([0, 0, 0, 1, 1, 2, 5])
    return [entry(rng, principals) for _ in range(many)]


def number(rng, least):
    """A number from so much on."""
    return rng.choice([least, least + 1, least + rng.randint(0, 40), rng.randint(least, LAST), LAST])


def resource(rng, path, principals, **keys):
    """The line of a resource with what any may have."""
    owner = rng.choice(principals) if principals and rng.random() < 0.5 else None
    return {"path": path, "owner": owner, "label": label(rng), "protected": entries(rng, principals), "own": entries(rng, principals), **keys}


def book(rng, path, principals):
    """The lines of a book and its cards, whose names and numbers are taken by no removed name."""
    taken = names(rng, 120 if seldom(rng) else rng.choice([0, 1, 2, 4, 8]))
    most = number(rng, len(taken))
    given = rng.sample(range(1, most + 1), len(taken)) if most < 1_000 else sorted({most, *(rng.randint(1, most) for _ in taken)})[-len(taken) :]
    rng.shuffle(given)
    numbered = list(zip(taken, given))
    cut = rng.randint(0, len(numbered))
    removed = dict(sorted(numbered[:cut], key=lambda told: told[1]))
    yield resource(rng, path, principals, number=most, removed=removed)
    for name, at in numbered[cut:]:
        text = rng.choice(["", CARD, CARD, text_of(rng, TEXT)])
        yield resource(rng, f"{path}/{name}", principals, protected=None, number=at, text=text)


def lines(rng):
    """The lines of a random Office, of which the first has the epoch."""
    people = [f"/people/{name}" for name in names(rng, 60 if seldom(rng) else rng.choice([0, 1, 2, 3, 6]))]
    groups = [f"/groups/{name}" for name in names(rng, 40 if seldom(rng) else rng.choice([0, 1, 2, 4]))]
    principals = people + groups
    found = [resource(rng, path, principals) for path in decisions.HOMES + people]
    for path in groups:
        members = rng.sample(principals, min(len(principals), rng.choice([0, 1, 2, 5, 30])))
        found.append(resource(rng, path, principals, members=decisions.ordered(members)))
    for name in names(rng, rng.choice([0, 1, 1, 2, 4])):
        found += book(rng, f"/books/{name}", principals)
    found.sort(key=lambda line: line["path"].encode())
    return [{"epoch": number(rng, 0)}, *map(restores.line_of, found)]
