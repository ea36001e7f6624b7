"""An Office as the rows of a store tell it, read by Python's sqlite3: its lines, as a dump has them, and who belongs to which group by
any chain. Nothing here asks the program. What imports this is run by `python3 -B`, so that nothing is left in tools/."""

import contextlib
import sqlite3

import decisions
import restores

FORMS = [None, "all", "authenticated", "unauthenticated", "owner", "self"]


def entry(form, principal, inverted, denies, mask):
    """An entry of a list."""
    leaves = {leaf for place, leaf in enumerate(decisions.LEAVES) if mask >> place & 1}
    told = {"who": principal if form == 0 else FORMS[form], **({"invert": True} if inverted else {})}
    return {**told, "deny" if denies else "grant": decisions.short(leaves)}


def line(base, node, path, owner, label, text, number):
    """The line of a resource."""
    lists = {key: [entry(*row) for row in base.execute("SELECT form, principal, invert, deny, mask FROM ace2 WHERE node = ? AND protected = ? ORDER BY place", (node, protected))]
             for key, protected in (("protected", 1), ("own", 0))}
    members = decisions.ordered(member for member, in base.execute("SELECT member FROM member WHERE grp = ?", (path,)))
    removed = dict(base.execute("SELECT name, number FROM gone WHERE book = ? ORDER BY number", (node,)))
    is_numbered = restores.is_book(path) or restores.is_card(path)
    return restores.line_of({"path": path, "owner": owner, "label": label or None, **lists, "members": members,
                             "number": number if is_numbered else None, "removed": removed, "text": text})


def chains(pairs):
    """The pairs of a group and who belongs to it by any chain of pairs."""
    of, found = {}, set()
    for group, member in pairs:
        of.setdefault(group, []).append(member)
    for group in of:
        left = list(of[group])
        while left:
            member = left.pop()
            if (group, member) not in found:
                found.add((group, member))
                left += of.get(member, [])
    return found


def read(store):
    """The version and the lines of a store whose log is folded in, of which the first has the epoch; and whether its table of chains is whole."""
    with contextlib.closing(sqlite3.connect(f"file:{store}?mode=ro&immutable=1", uri=True)) as base:
        [(version, epoch)] = base.execute("SELECT version, epoch FROM meta")
        rows = base.execute("SELECT id, path, owner, label, text, number FROM node ORDER BY CAST(path AS BLOB)").fetchall()
        lines = [{"epoch": epoch}, *(line(base, *row) for row in rows)]
        is_whole = set(base.execute("SELECT grp, member FROM reach")) == chains(base.execute("SELECT grp, member FROM member"))
    return version, lines, is_whole
