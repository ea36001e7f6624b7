"""What a request is told and what it leaves, over an Office of decisions.py, by rules of its own: what each method needs (RFC 3744,
appendix B, with what this project's profile has in its place), in which order a request is looked at, what edits leave (RFC 4918, 9.6
to 9.9), and reports and their tokens (RFC 6578). It knows the requests that tools/check-order asks: paths and bodies are sound. Nothing
here asks the program. What imports this is run by `python3 -B`, so that nothing is left in tools/."""

import dataclasses
import json
import re
import typing

import decisions
from decisions import Entry, Office, Resource

STATUS = {
    "bad-request": 400, "bad-card": 400, "need-privileges": 403, "no-protected-ace-conflict": 403, "no-inherited-ace-conflict": 403,
    "limited-number-of-aces": 403, "not-supported-privilege": 403, "recognized-principal": 403, "valid-sync-token": 403,
    "not-found": 404, "not-allowed": 405, "no-parent": 409, "overwrite": 412,
}
KINDS = {"/people": "person", "/groups": "group", "/books": "book"}
ALLOWED = {
    "root": "ACL PROPFIND REPORT", "home": "ACL PROPFIND REPORT", "person": "ACL PROPFIND PROPPATCH REPORT",
    "group": "ACL PROPFIND PROPPATCH REPORT", "book": "ACL DELETE PROPFIND PROPPATCH REPORT",
    "card": "ACL COPY DELETE GET MOVE PROPFIND PROPPATCH PUT REPORT",
}
FORMS = ["all", "authenticated", "unauthenticated", "owner", "self"]
LABEL, ENTRIES, MOST = 256, 64, 10_000
READ, NAMES = decisions.leaves_of(["read"]), decisions.leaves_of(["x-read-names"])


class Asked(typing.NamedTuple):
    """A request: the bare name of the caller, or none; of the body its bytes."""

    caller: str | None
    method: str
    path: str
    body: bytes = b""
    destination: str | None = None
    overwrite: bool = True
    depth: int = 0


class Refusal(Exception):
    """That a request is refused, by the name of the refusal, with further members of its body."""

    def __init__(self, name, **more):
        super().__init__(name)
        self.status, self.body = STATUS[name], spelled({"error": name, **more})


def spelled(data):
    """The compact JSON text of data, keys in byte order."""
    return json.dumps(data, ensure_ascii=False, sort_keys=True, separators=(",", ":")).encode()


def parent(path):
    return path.rpartition("/")[0] or "/"


def kind(path):
    """The kind that a path alone tells."""
    if path == "/" or path in KINDS:
        return "root" if path == "/" else "home"
    return KINDS.get(parent(path), "card")


def key(office):
    """What two Offices have in common where they are equal, epoch included."""
    return office.epoch, frozenset(office.resources.items())


def leaves(*names):
    return decisions.leaves_of(names)


# What a request needs, and whether it is granted.


def needs(office, asked, body):
    """Each place and the leaves that are needed there, in order."""
    path, to = asked.path, asked.destination
    match asked.method:
        case "GET":
            return [(path, READ)]
        case "PUT":
            return [(path, leaves("write-content"))] if path in office.resources else [(parent(path), leaves("bind"))]
        case "PROPFIND":
            return [(path, shown(body["prop"]))]
        case "PROPPATCH":
            return [(path, leaves("write-properties"))]
        case "ACL":
            return [(path, leaves("write-acl"))]
        case "COPY":
            over = (to, leaves("write-content", "write-properties")) if to in office.resources else (parent(to), leaves("bind"))
            return [(path, READ), over]
        case "MOVE":
            also = [(parent(to), leaves("unbind"))] if to in office.resources else []
            return [(parent(path), leaves("unbind")), (parent(to), leaves("bind")), *also]
        case "DELETE":
            return [("/books", leaves("unbind"))] * (kind(path) == "book") + [(path if kind(path) == "book" else parent(path), leaves("unbind"))]
        case "MKCOL":
            return [(parent(path), leaves("bind"))]
        case "REPORT":
            return [(path, NAMES if body["report"] == "names" else READ)]
    raise ValueError(asked.method)


def shown(properties):
    """The leaves that a PROPFIND of these properties needs."""
    more = {"acl": ["read-acl"], "current-user-privilege-set": ["read-current-user-privilege-set"]}
    return leaves("read", *(name for one in properties for name in more.get(one, [])))


def denial(office, caller, path, need):
    """What a denial tells; nothing where all is granted."""
    verdict = office.verdict(caller, path, need)
    if verdict is None:
        return None
    privilege, number = verdict
    entry = None if number is None else {"from": office.in_force(path)[number - 1][0], "number": number}
    return {"entry": entry, "privilege": privilege, "resource": path}


# The steps of a request.


def read_body(asked):
    """The data of a body; of a PUT its text."""
    body = asked.body.decode() if asked.method in ("GET", "PUT", "DELETE", "COPY", "MOVE", "MKCOL") else json.loads(asked.body)
    if asked.method in ("COPY", "MOVE") and asked.destination == asked.path:
        raise Refusal("bad-request")
    if asked.method == "PROPPATCH" and len(body["set"].get("displayname", "").encode()) > LABEL:
        raise Refusal("bad-request")
    if asked.method == "REPORT" and not 1 <= body.get("limit", 1) <= MOST:
        raise Refusal("bad-request")
    return body


def look_at_path(office, asked, body):
    """Refuses what is not there, is no place for the method, or is not to be replaced."""
    path, is_there = asked.path, asked.path in office.resources
    if asked.method in ("MKCOL", "PUT"):
        fits = kind(path) == ("book" if asked.method == "MKCOL" else "card")
        if is_there and not (fits and asked.method == "PUT"):
            raise Refusal("not-allowed")
        if parent(path) not in office.resources:
            raise Refusal("no-parent")
        if not fits:
            raise Refusal("not-found" if kind(path) in ("person", "group") else "not-allowed")
        return
    if not is_there:
        raise Refusal("not-found")
    if asked.method not in ALLOWED[kind(path)].split():
        raise Refusal("not-allowed")
    if asked.method == "REPORT" and kind(path) != "book":
        raise Refusal("not-allowed")
    if asked.method == "PROPPATCH" and "group-member-set" in body["set"] and kind(path) != "group":
        raise Refusal("not-allowed")
    if asked.destination is not None:
        if parent(asked.destination) not in office.resources:
            raise Refusal("no-parent")
        if asked.destination in office.resources and not asked.overwrite:
            raise Refusal("overwrite")


def step(office, asked, faults):
    """The status and the body of the reply, and the Office afterwards. The faults of texts that are no cards are given: name and line."""
    caller = None if asked.caller is None else f"/people/{asked.caller}"
    try:
        body = read_body(asked)
        look_at_path(office, asked, body)
        for place, need in needs(office, asked, body):
            if told := denial(office, caller, place, need):
                raise Refusal("need-privileges", **told)
        return WORKS[asked.method](office, caller, asked, body, faults)
    except Refusal as refusal:
        return refusal.status, refusal.body, office


# What edits leave.


def changed(office, epoch=0, **resources):
    """The Office with these resources, in which none is taken out."""
    after = {path: told for path, told in {**office.resources, **resources.get("at", {})}.items() if told is not None}
    return Office(office.epoch + epoch, after)


def touched(resources, path, card):
    """Puts a card, or nothing, at a path, with the next number of its book."""
    book, name = parent(path), path.rpartition("/")[2]
    number = resources[book].number + 1
    removed = {other: told for other, told in resources[book].removed if other != name}
    if card is None:
        del resources[path]
        removed[name] = number
    else:
        resources[path] = dataclasses.replace(card, number=number)
    resources[book] = dataclasses.replace(resources[book], number=number, removed=tuple(sorted(removed.items())))


def edited(office, *touches):
    """The Office after these touches, one after the other."""
    resources = dict(office.resources)
    for path, card in touches:
        touched(resources, path, card)
    return Office(office.epoch, resources)


def put(office, caller, asked, text, faults):
    if text in faults:
        name, line = faults[text]
        raise Refusal("bad-card", fault=name, line=line)
    there = office.resources.get(asked.path)
    card = Resource(owner=caller, text=text) if there is None else dataclasses.replace(there, text=text)
    return 201 if there is None else 204, b"", edited(office, (asked.path, card))


def copy(office, caller, asked, _body, _faults):
    of, there = office.resources[asked.path], office.resources.get(asked.destination)
    kept = Resource(owner=caller) if there is None else there
    card = dataclasses.replace(kept, text=of.text, label=of.label)
    return 201 if there is None else 204, b"", edited(office, (asked.destination, card))


def move(office, _caller, asked, _body, _faults):
    status = 204 if asked.destination in office.resources else 201
    return status, b"", edited(office, (asked.path, None), (asked.destination, office.resources[asked.path]))


def delete(office, _caller, asked, _body, _faults):
    if kind(asked.path) == "card":
        return 204, b"", edited(office, (asked.path, None))
    gone = {path: None for path in office.resources if decisions.is_below(path, asked.path)}
    return 204, b"", changed(office, epoch=1, at=gone)


def make_book(office, caller, asked, _body, _faults):
    return 201, b"", changed(office, at={asked.path: Resource(owner=caller)})


def is_principal(office, who):
    return who in office.resources and kind(who) in ("person", "group")


def entry_fault(office, told, protected):
    """The least fault of an entry that is handed in; nothing where it has none."""
    who, grants = told.get("principal", told.get("invert")), "grant" in told
    names = told["grant" if grants else "deny"]
    is_known = all(name in decisions.LEAVES or name in decisions.AGGREGATES for name in names)
    is_form = who in FORMS or is_principal(office, who)
    clashes = is_known and is_form and any(
        one.who == who and one.inverted == ("invert" in told) and one.grants != grants and one.leaves & leaves(*names) for one in protected)
    if told.get("protected") or clashes:
        return "no-protected-ace-conflict"
    if "inherited" in told:
        return "no-inherited-ace-conflict"
    return "not-supported-privilege" if not is_known else None if is_form else "recognized-principal"


def set_list(office, _caller, asked, body, _faults):
    if len(body["acl"]) > ENTRIES:
        raise Refusal("limited-number-of-aces")
    protected = [entry for _, is_protected, entry in office.in_force(asked.path) if is_protected]
    for told in body["acl"]:
        if fault := entry_fault(office, told, protected):
            raise Refusal(fault)
    own = tuple(Entry(told.get("principal", told.get("invert")), "invert" in told, "grant" in told,
                      leaves(*told.get("grant", told.get("deny")))) for told in body["acl"])
    return 200, b"", changed(office, epoch=1, at={asked.path: dataclasses.replace(office.resources[asked.path], own=own)})


def set_property(office, _caller, asked, body, _faults):
    there = office.resources[asked.path]
    if "displayname" in body["set"]:
        told = dataclasses.replace(there, label=body["set"]["displayname"])
        is_card = kind(asked.path) == "card"
        return 200, b"", edited(office, (asked.path, told)) if is_card else changed(office, at={asked.path: told})
    members = body["set"]["group-member-set"]
    if not all(is_principal(office, member) for member in members):
        raise Refusal("recognized-principal")
    return 200, b"", changed(office, epoch=1, at={asked.path: dataclasses.replace(there, members=frozenset(members))})


# What is read.


def get(office, _caller, asked, _body, _faults):
    return 200, office.resources[asked.path].text.encode(), office


def children(office, path):
    return decisions.ordered(one for one in office.resources if one != "/" and parent(one) == path)


def told_entry(path, place, is_protected, entry):
    """An entry as the property `acl` tells it."""
    told = {"grant" if entry.grants else "deny": decisions.short(entry.leaves), "invert" if entry.inverted else "principal": entry.who}
    return told | ({"protected": True} if is_protected else {}) | ({} if place == path else {"inherited": place})


def held(office, caller, path):
    """The names of the privileges that a caller holds."""
    granted = office.granted(caller, path)
    return [name for name in ("all", "read", "write") if granted >= leaves(name)] + [leaf for leaf in decisions.LEAVES if leaf in granted]


def sync_token(office, book):
    return f"data:,{book.rpartition('/')[2]}/{office.epoch}/{office.resources[book].number}"


def properties(office, caller, path, names):
    one = office.resources[path]
    tell = {
        "displayname": lambda: one.label,
        "resourcetype": lambda: kind(path),
        "owner": lambda: one.owner,
        "acl": lambda: [told_entry(path, *entry) for entry in office.in_force(path)],
        "current-user-privilege-set": lambda: held(office, caller, path),
        "group-member-set": lambda: decisions.ordered(one.members) if kind(path) == "group" else None,
        "sync-token": lambda: sync_token(office, path) if kind(path) == "book" else None,
    }
    return {name: tell[name]() for name in names}


def list_properties(office, caller, asked, body, _faults):
    told = []
    for path in [asked.path, *(children(office, asked.path) if asked.depth else [])]:
        if denied := denial(office, caller, path, shown(body["prop"])):
            told.append({"href": path, "need-privileges": denied, "status": 403})
        else:
            told.append({"href": path, "prop": properties(office, caller, path, body["prop"]), "status": 200})
    return 207, spelled({"responses": told}), office


def number_of(office, book, token):
    """The number that a valid token tells; nothing of an empty one."""
    if token == "":
        return None
    parts = re.fullmatch(r"data:,([^/]+)/(0|[1-9]\d*)/(0|[1-9]\d*)", token)
    if not parts or f"/books/{parts[1]}" != book or int(parts[2]) != office.epoch or int(parts[3]) > office.resources[book].number:
        raise Refusal("valid-sync-token")
    return int(parts[3])


def sync_report(office, caller, book, body):
    after = number_of(office, book, body["sync-token"])
    changes = {office.resources[path].number: path for path in children(office, book)}
    if after is not None:
        changes |= {number: f"{book}/{name}" for name, number in office.resources[book].removed}
    items = []
    for number, path in sorted(changes.items()):
        is_read = path in office.resources and denial(office, caller, path, READ) is None
        if is_read:
            one = office.resources[path]
            items.append((number, {"displayname": one.label, "href": path, "number": number, "status": 200, "text": one.text}))
        elif after is not None and number > after:
            items.append((number, {"href": path, "status": 404}))
    items = [item for item in items if item[0] > (after or 0)]
    limit, token = body.get("limit", MOST), sync_token(office, book)
    told = [item for _, item in items[:limit]]
    if len(items) > limit:
        told.append({"href": book, "status": 507})
        token = f"{token.rpartition('/')[0]}/{items[limit - 1][0]}"
    return 207, {"responses": told, "sync-token": token}


def names_report(office, caller, book):
    read = [path for path in children(office, book) if denial(office, caller, path, NAMES) is None]
    texts = {path: re.search(r"^FN:(.*?)\r?$", office.resources[path].text, re.M)[1] for path in read}
    return 200, {"names": [{"fn": name, "href": path} for path, name in texts.items()]}


def report(office, caller, asked, body, _faults):
    is_names = body["report"] == "names"
    status, told = names_report(office, caller, asked.path) if is_names else sync_report(office, caller, asked.path, body)
    return status, spelled(told), office


WORKS = {
    "GET": get, "PUT": put, "DELETE": delete, "MKCOL": make_book, "COPY": copy, "MOVE": move, "ACL": set_list, "PROPPATCH": set_property,
    "PROPFIND": list_properties, "REPORT": report,
}
