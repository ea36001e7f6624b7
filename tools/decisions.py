"""An Office as a dump tells it, by rules of its own: who may do what (RFC 3744, section 6, and the order of the lists that this project
has), what adopting a policy makes of it, and the lines that `audit`, `differs` and `ask` print of it. Nothing here asks the program.
What imports this is run by `python3 -B`, so that nothing is left in tools/."""

import dataclasses
import json
import typing

LEAVES = ["x-read-texts", "write-content", "write-properties", "bind", "unbind", "read-acl", "write-acl",
          "read-current-user-privilege-set", "x-read-names"]
AGGREGATES = {"read": [LEAVES[0], LEAVES[8]], "write": LEAVES[1:5], "all": LEAVES}
HOMES = ["/", "/people", "/groups", "/books"]


def leaves_of(names):
    """The leaves that the privileges with these names contain."""
    return frozenset(leaf for name in names for leaf in AGGREGATES.get(name, [name]))


def short(leaves):
    """The short names of a set of leaves, in order."""
    if leaves == set(LEAVES):
        return ["all"]
    whole = {name: AGGREGATES[name] for name in ("read", "write") if leaves >= set(AGGREGATES[name])}
    names = []
    for leaf in (leaf for leaf in LEAVES if leaf in leaves):
        name = next((name for name, of in whole.items() if leaf in of), leaf)
        names += [] if name in names else [name]
    return names


class Entry(typing.NamedTuple):
    """An entry of a list."""

    who: str
    inverted: bool
    grants: bool
    leaves: frozenset

    def __str__(self):
        return f"{'grant' if self.grants else 'deny'} {'not ' if self.inverted else ''}{self.who} {' '.join(short(self.leaves))}"


def entry_of(told):
    """The entry of a policy or of a dump."""
    grants = "grant" in told
    return Entry(told["who"], told.get("invert", False), grants, leaves_of(told["grant" if grants else "deny"]))


@dataclasses.dataclass(frozen=True)
class Resource:
    """A resource: all that a dump tells of it."""

    owner: str | None = None
    label: str = ""
    protected: tuple = ()
    own: tuple = ()
    members: frozenset = frozenset()
    text: str | None = None
    number: int = 0
    removed: tuple = ()


def above(path):
    """A path, the one above it, and so on up to the root."""
    while path != "/":
        yield path
        path = path.rpartition("/")[0] or "/"
    yield path


def ordered(paths):
    """The paths in byte order."""
    return sorted(paths, key=str.encode)


def is_card(path):
    return path.count("/") == 3


def is_below(path, at):
    """Whether a path is another one, or below it."""
    return at == "/" or path == at or path.startswith(at + "/")


class Office:
    """An Office: its epoch and its resources, by path."""

    def __init__(self, epoch, resources):
        self.epoch, self.resources = epoch, resources
        self.circles = {}

    def __eq__(self, other):
        return self.resources == other.resources

    def callers(self):
        """Nobody, and each person, in byte order."""
        return [None, *ordered(path for path in self.resources if path.startswith("/people/"))]

    def members(self):
        """The direct memberships, as `audit` tells them."""
        return [f"member {group} {member}" for group, told in self.resources.items() for member in told.members]

    def circle(self, caller):
        """The principals to which a caller belongs."""
        if caller not in self.circles:
            found, left = set(), [] if caller is None else [caller]
            while left:
                principal = left.pop()
                if principal not in found:
                    found.add(principal)
                    left += [group for group, told in self.resources.items() if principal in told.members]
            self.circles[caller] = found
        return self.circles[caller]

    def applies(self, entry, caller, path):
        """Whether an entry applies to a caller at the resource that is asked for."""
        circle = self.circle(caller)
        forms = {
            "all": True,
            "authenticated": caller is not None,
            "unauthenticated": caller is None,
            "owner": self.resources[path].owner in circle,
            "self": path in circle,
        }
        return forms.get(entry.who, entry.who in circle) != entry.inverted

    def in_force(self, path):
        """The entries in force at a path, in order, each with the place where it stands and whether it is protected."""
        return [(place, protected, entry) for protected in (True, False) for place in above(path)
                for entry in (self.resources[place].protected if protected else self.resources[place].own)]

    def deciders(self, caller, path):
        """The number of the entry that decides each leaf, from 1, and whether it grants; of a leaf that none decides nothing."""
        found = {}
        for number, (_, _, entry) in enumerate(self.in_force(path), 1):
            if self.applies(entry, caller, path):
                found.update({leaf: (number, entry.grants) for leaf in entry.leaves - set(found)})
        return found

    def granted(self, caller, path):
        """The leaves that are granted to a caller at a path: none where either is not there."""
        if path not in self.resources or (caller is not None and caller not in self.resources):
            return frozenset()
        return frozenset(leaf for leaf, (_, grants) in self.deciders(caller, path).items() if grants)

    def verdict(self, caller, path, need):
        """Nothing where each needed leaf is granted, else the privilege that a denial names and the number of its entry, if one denies."""
        found = self.deciders(caller, path)
        denied = [(found[leaf][0], LEAVES.index(leaf)) for leaf in need if leaf in found and not found[leaf][1]]
        open_still = [LEAVES.index(leaf) for leaf in need if leaf not in found]
        if not denied and not open_still:
            return None
        number, place = min(denied) if denied else (None, min(open_still))
        both = set(AGGREGATES["read"]) <= need
        return "read" if both and place == 0 else LEAVES[place], number


def read(text):
    """The Office that a dump tells."""
    epoch, *told, _ = (json.loads(line) for line in text.rstrip("\n").split("\n"))
    return Office(epoch["epoch"], {
        one["path"]: Resource(
            one.get("owner"), one.get("label", ""), tuple(map(entry_of, one.get("protected", []))), tuple(map(entry_of, one.get("own", []))),
            frozenset(one.get("members", [])), one.get("text"), one.get("number", 0), tuple(sorted(one.get("removed", {}).items())))
        for one in told})


def named(policy):
    """The resources that a policy names, by path, each with its table."""
    kinds = {"person": "/people/", "group": "/groups/", "book": "/books/"}
    return {front + table["name"]: table for kind, front in kinds.items() for table in policy.get(kind, [])}


def adopted(office, policy):
    """The Office that adopts a policy, a table of TOML without a fault."""
    after = dict(office.resources)
    for path, table in named(policy).items():
        told = dataclasses.replace(after.get(path, Resource()), label=table.get("label", ""))
        if path.startswith("/groups/"):
            told = dataclasses.replace(told, members=frozenset(table.get("members", [])))
        if path.startswith("/books/"):
            told = dataclasses.replace(told, owner=table.get("owner"))
        after[path] = told
    for path in [path for path in after if not is_card(path)]:
        lists = {protected: tuple(entry_of(entry) for entry in policy.get("entry", [])
                                  if entry["at"] == path and entry.get("protected", False) == protected) for protected in (True, False)}
        after[path] = dataclasses.replace(after[path], protected=lists[True], own=lists[False] or after[path].own)
    same = after == office.resources
    return Office(office.epoch + (not same), after)


def quoted(label):
    """A label as a text of JSON."""
    return json.dumps(label, ensure_ascii=False)


def entry_lines(told, which=("protected", "own")):
    """The lines of `audit` for the lists of a resource."""
    return [f"  {name} {entry}" for name in which for entry in getattr(told, name)]


def audit(office, at=None, books=False, labels=False):
    """The lines that `audit` prints, with a word or more of a part: of the resources alone."""
    told = [] if at or books or labels else [f"epoch {office.epoch}", *ordered(office.members())]
    for path in ordered(path for path in office.resources if is_below(path, at or "/")):
        one = office.resources[path]
        if not (books and is_card(path) and not one.own):
            told.append(f"{path} owner {one.owner or '-'}{f' label {quoted(one.label)}' if labels else ''}")
            told += entry_lines(one)
    return told


def heads(before, after):
    """The resources of two Offices in byte order, each with what stands for it in a line: cards of a book that are equal in owner and
    own list, in both, are one line, by the first of them and how many they are."""
    found = {}
    for path in ordered({*before.resources, *after.resources}):
        told = [office.resources.get(path) for office in (before, after)]
        alike = tuple(one and (one.owner, one.own) for one in told)
        found.setdefault((path.rpartition("/")[0], alike) if is_card(path) else path, []).append(path)
    for paths in sorted(found.values(), key=lambda paths: paths[0].encode()):
        yield paths, paths[0] + (f" of {len(paths)}" if is_card(paths[0]) else "")


def is_shared(office, path):
    """Whether the own list of a card grants somebody what the lists of its book do not."""
    bare = Office(office.epoch, {**office.resources, path: dataclasses.replace(office.resources[path], own=())})
    return any(office.granted(caller, path) - bare.granted(caller, path) for caller in office.callers())


def rights(office, at="/", caller=(), shared=False):
    """The lines that `rights` prints: of all callers where none is named."""
    asked = [caller] if caller != () else office.callers()
    for paths, head in heads(office, office):
        if is_below(paths[0], at) and (not shared or (is_card(paths[0]) and is_shared(office, paths[0]))):
            for one in asked:
                leaves = office.granted(one, paths[0])
                if leaves:
                    yield f"{head} {one or 'nobody'} {' '.join(short(leaves))}"


def decisions(before, after, path, head):
    """The lines of the leaves that a caller has before and not after, and after and not before."""
    for caller in ordered({caller or "" for caller in before.callers() + after.callers()}):
        was, is_now = (office.granted(caller or None, path) for office in (before, after))
        for word, leaves in (("lost", was - is_now), ("gained", is_now - was)):
            if leaves:
                yield f"{word} {head} {caller or 'nobody'} {' '.join(short(leaves))}"


def facts(before, after, path):
    """The lines of what a resource had and has, in the words of `audit`."""
    was, is_now = (office.resources.get(path) for office in (before, after))
    if was is None or is_now is None:
        sign, told = ("+", is_now) if was is None else ("-", was)
        yield f"{sign} {path} owner {told.owner or '-'}"
        yield f"{sign} {path} label {quoted(told.label)}"
        yield from (f"{sign} {path}{line}" for line in entry_lines(told))
        return
    if was.owner != is_now.owner:
        yield from (f"{sign} {path} owner {told.owner or '-'}" for sign, told in (("-", was), ("+", is_now)))
    if was.label != is_now.label:
        yield from (f"{sign} {path} label {quoted(told.label)}" for sign, told in (("-", was), ("+", is_now)))
    for which in ("protected", "own"):
        if getattr(was, which) != getattr(is_now, which):
            yield from (f"{sign} {path}{line}" for sign, told in (("-", was), ("+", is_now)) for line in entry_lines(told, [which]))


def differs(before, after):
    """The lines that `differs` prints of two Offices: memberships, what resources but cards have, and rights."""
    was, is_now = set(before.members()), set(after.members())
    told = [f"{'-' if line in was else '+'} {line}" for line in ordered(was ^ is_now)]
    for path in ordered(path for path in {*before.resources, *after.resources} if not is_card(path)):
        told += facts(before, after, path)
    for paths, head in heads(before, after):
        told += decisions(before, after, paths[0], head)
    return [*told, f"differs in {len(told)}" if told else "unchanged"]


def stays(office, policy):
    """The lines of what a policy does not name and leaves in an Office: memberships, and then by path."""
    known = named(policy)
    places = {entry["at"] for entry in policy.get("entry", []) if not entry.get("protected", False)}
    told = [f"stays {line}" for line in ordered(office.members()) if line.split(" ")[1] not in known]
    for path in ordered(office.resources):
        if path not in known and path not in HOMES and not is_card(path):
            told.append(f"stays {path}")
        if path not in places:
            told += [f"stays {path}{line}" for line in entry_lines(office.resources[path], ["own"])]
    return told
