"""Random requests, and what a line of a log has to tell of each and of its reply, by rules of its own: paths are read, and verdicts worked
out with decisions.py. Nothing here asks the program. What imports this is run by `python3 -B`, so that nothing is left in tools/."""

import collections
import datetime
import json
import re
import time
import typing

import decisions
import office

answers, conformance = office.script("check-answers"), office.script("check-conformance")

PLANTED = "zq"  # Begins each word that stands in texts, labels, bodies and members alone.
NAME = r"(?!\.)[A-Za-z0-9._-]{1,64}"
PATH = re.compile(rf"/|/(people|groups|books)(/{NAME})?/?|/books/{NAME}/{NAME}")
TIME = re.compile(r"\d{4}-\d\d-\d\dT\d\d:\d\d:\d\d\.\d{3}Z")
UNREAD = ["bad-head", "head-too-large", "body-too-large", "not-implemented"]
ODD_CALLERS = ["zoe", 'q"uote', "back\\slash", "tab\tstop", "</script>&'", "é ü 名", "\u0085\u2028\ufeff", "\U0001f600", "a/b", ".dot", 65 * "n",
               "", "\x7f", "\udcff\udcfe", "adm\udce9", "%61dm", "/people/adm"]
METHODS = ["GET", "GET", "HEAD", "OPTIONS", "PUT", "PUT", "PUT", "PUT", "PROPFIND", "PROPFIND", "PROPPATCH", "ACL", "ACL", "COPY", "MOVE",
           "DELETE", "MKCOL", "REPORT", "REPORT"]
# Each method that edits, with the paths that are touched where they are those of cards.
EDITS = {"PUT": lambda path, to: [path], "COPY": lambda path, to: [to], "MOVE": lambda path, to: [path, to], "DELETE": lambda path, to: [path],
         "PROPPATCH": lambda path, to: [path], "ACL": lambda path, to: [], "MKCOL": lambda path, to: []}
BAD_HEADS = [b"GET\r\n\r\n", b"LOCK / HTTP/1.1\r\n\r\n", b"GET / HTTP/1.1\r\nTransfer-Encoding: chunked\r\n\r\n",
             b"PUT /books HTTP/1.1\r\nContent-Length: 262145\r\n\r\n", b"GET / HTTP/1.1\r\nContent-Length: zq\r\n\r\n",
             b"GET / HTTP/1.1\r\nContent-Length: 1\r\nContent-Length: 1\r\n\r\n", b"GET / HTTP/1.1\r\n" + 65 * b"f: v\r\n" + b"\r\n",
             b"GET / HTTP/1.1\r\nx-office-caller: adm\r\nx-office-caller: adm\r\n\r\n", b"GET / HTTP/1.1\r\nf: " + 17_000 * b"v",
             b"GET / HTTP/9.9\r\n\r\n", b"{}\r\n\r\n", b"GET /a b HTTP/1.1\r\n\r\n", b"GET / HTTP/1.1\r\nf\x01: v\r\n\r\n"]


# ---- Random requests ----------------------------------------------------------------------------------------------------


class Asked(typing.NamedTuple):
    """A request: its bytes, what a log tells of it, and what its body has, where it is read."""

    sent: bytes
    method: str
    caller: str | None = None
    path: str | None = None
    destination: str | None = None
    body: object = None


def path_of(text):
    """The path that a text spells, if it spells one."""
    return (text.removesuffix("/") or "/") if PATH.fullmatch(text) else None


def target(rng, path):
    """A text that spells a path, or one like it that spells none or another; and which it spells."""
    if rng.random() < 0.9:
        return path, path
    none = ["*", "/b%6foks/one", f"{path}?q=1", f"{path}#f", f"http://office{path}?q", f"ftp://office{path}", f"/{path}", "/books/" + 65 * "n",
            "/books/.one", "/books/ö/a.vcf", '/books/o"e', "/books/o\\e", "/books/one/a.vcf/x", "http://office/%62ooks", "/books/one/%2e", "x"]
    same = [f"http://office{path}", f"HTTPS://OFFICE:8443{path}", f"http://ann@office/.{path}"]
    text = rng.choice([*none, *same, f"{path}/", f"{path}/"])
    return text, path if text in same else path_of(text)


def submitted(rng, policy):
    """The entries of an ACL, which may be too many, or for a principal that is not there."""
    made = [answers.submitted(rng, policy) for _ in range(rng.choice([0, 1, 1, 2, 3]))]
    bad = {"principal": f"/people/{PLANTED}none", "grant": ["read"]}
    return made + [bad] * (rng.random() < 0.1) + 64 * made[:1] * (rng.random() < 0.03)


def body_of(rng, policy, method):
    """A body for a method, mostly one in order: what it has as JSON, or its bytes."""
    bad = [f"{PLANTED}body".encode(), f'{{"{PLANTED}body":1}}'.encode(), f'{{"prop":["{PLANTED}body"]}}'.encode(), b"\xff" + PLANTED.encode()]
    if rng.random() < 0.06:
        return rng.choice(bad)
    label = {"displayname": f"{PLANTED}label {rng.choice(answers.LABELS)}"}
    members = {"group-member-set": [*answers.chosen(rng, answers.principals(policy)), f"/people/{PLANTED}member"]}
    reports = [{"report": "names"}, {"report": "group-members"}, {"report": "sync-collection", "sync-token": rng.choice(["", "data:,one/1/0", PLANTED])},
               {"report": "effective", "principal": rng.choice([None, "/people/adm", f"/people/{PLANTED}none"])}]
    names = ["displayname", "owner", "acl", "current-user-privilege-set", "group-member-set", "sync-token"]
    text = office.card(rng.randint(1, 99), 4).replace("FN:", f"FN:{PLANTED}card ")
    text = rng.choices([text, text.replace("END", PLANTED), "", 33_000 * PLANTED], [90, 5, 3, 1])[0]
    return {"PUT": text.encode(), "REPORT": rng.choice(reports),
            "PROPFIND": rng.choice([b"", {"prop": answers.chosen(rng, names, 1)}]), "PROPPATCH": {"set": rng.choice([label, members, members])},
            "ACL": {"acl": submitted(rng, policy)}}.get(method, b"")


def fields_of(rng, policy, method):
    """Further fields of a request, and the destination that they tell."""
    lines, told, has_one = rng.choice([[], [], [f"x-noise: {PLANTED}é\t"], ["Overwrite: F"]]), None, method in ("COPY", "MOVE")
    if rng.random() < (0.95 if has_one else 0.02):
        text, spelled = target(rng, card_of(rng) if rng.random() < 0.9 else resource_of(rng, policy))
        lines, told = [*lines, f"Destination: {text}"], spelled if has_one else None
    depth = [f"Depth: {rng.choice(['0', '1', '1', 'infinity'])}"] * (method == "PROPFIND")
    return [*lines, *depth, *["Connection: keep-alive, close"] * (rng.random() < 0.005)], told


def card_of(rng):
    return f"/books/{rng.choice([*answers.BOOKS, 'made'])}/{rng.choice([*answers.CARDS, 'd'])}"


def resource_of(rng, policy):
    named = [path for path in decisions.named(policy) if PLANTED not in path]
    return rng.choice([*decisions.HOMES, *named, "/books/made", "/books/made", "/people/nobody", "/groups/a"])


def request(rng, policy):
    """A request, or one that can't be read."""
    if rng.random() < 0.007:
        return Asked(rng.choice(BAD_HEADS), "")
    method = rng.choice(METHODS)
    path = card_of(rng) if rng.random() < (0.5 if method in ("ACL", "PROPFIND", "PROPPATCH", "DELETE") else 0.85) else resource_of(rng, policy)
    text, path = target(rng, "/books/made" if method == "MKCOL" and rng.random() < 0.7 else path)
    known = [one["name"] for one in policy["person"] if PLANTED not in one["name"]]
    caller = rng.choice(["adm", "adm", None, *known, *known] if rng.random() < 0.9 else ODD_CALLERS)
    fields, destination = fields_of(rng, policy, method)
    body = body_of(rng, policy, method)
    bytes_of = body if isinstance(body, bytes) else json.dumps(body).encode()
    lines = [f"{method} {text} HTTP/1.{rng.random() > 0.005:d}", *[f"X-Office-Caller: {caller}"] * (caller is not None), *fields]
    head = "\r\n".join([*lines, f"Content-Length: {len(bytes_of)}", "", ""]).encode("utf-8", "surrogateescape")
    told = "" if caller and re.search("[\udc80-\udcff]", caller) else caller  # What is no text is told as the empty one.
    return Asked(head + bytes_of, method, told, path, destination, body)


def requests(rng, policy, many):
    """So many requests, of which the first put cards."""
    cards = [f"/books/{book}/{card}" for book in answers.BOOKS for card in answers.CARDS]
    first = [Asked(office.request("PUT", path, office.card(1), caller="adm"), "PUT", "adm", path) for path in cards]
    return [*first, *(request(rng, policy) for _ in range(many))][:many]


def policy_of(rng):
    """A random policy of all books, in which much is denied, with planted labels and members."""
    made = answers.policy_of(rng)
    there = [one["name"] for one in made["book"]]
    made["book"] += [{"name": name, **answers.owner(rng, made)} for name in answers.BOOKS if name not in there]
    for number in range(16):
        one = answers.entry(rng, made, rng.choice([*decisions.HOMES, *(f"/books/{name}" for name in answers.BOOKS)]))
        made["entry"].append({"deny" if key == "grant" and number % 3 == 0 else key: value for key, value in one.items()})
    rng.shuffle(made["entry"])
    for one in [*made["person"], *made["group"], *made["book"]]:
        one["label"] = f"{PLANTED}label {one['name']}"
    for one in made["group"]:
        one["members"] = [*one["members"], f"/people/{PLANTED}member"]
    made["person"].append({"name": f"{PLANTED}member"})
    return made


# ---- What a log has to tell ---------------------------------------------------------------------------------------------


class Model:
    """The Office of a policy and the edits since, as far as verdicts and numbers rest on it."""

    def __init__(self, policy):
        self.office = decisions.adopted(decisions.Office(0, {home: decisions.Resource() for home in decisions.HOMES}), policy)

    def denial(self, asked):
        """What a line tells of the denial of a request that comes to its needs; nothing where it is granted."""
        body = asked.body if isinstance(asked.body, dict) else {}
        told = {"method": asked.method, "path": asked.path, "properties": body.get("prop", []), "report": body.get("report")}
        told.update({"destination": asked.destination} if asked.destination else {})
        caller = None if asked.caller is None else f"/people/{asked.caller}"
        for path, names in conformance.needs(told, self.office.resources):
            verdict = self.office.verdict(caller, path, decisions.leaves_of(names))
            if verdict:
                return {"resource": path, "privilege": verdict[0], **self.decided(path, verdict[1])}
        return {}

    def decided(self, path, number):
        """What a line tells of the entry with a number in the effective list of a resource."""
        if number is None:
            return {}
        force = self.office.in_force(path)[:number]
        place, protected, entry = force[-1]
        there = sum(one[:2] == (place, protected) for one in force)
        spelled = {"grant" if entry.grants else "deny": decisions.short(entry.leaves), "invert" if entry.inverted else "principal": entry.who}
        return {"from": place, "protected": protected, "place": there, "number": number, "entry": spelled}

    def touch(self, path):
        """The next number of its book is that of a card's last change, or of a removed name's; as a line tells it."""
        there, (book, name) = self.office.resources, path.rsplit("/", 1)
        number, removed = there[book].number + 1, {key: value for key, value in there[book].removed if key != name}
        if path in there:
            there[path] = decisions.dataclasses.replace(there[path], number=number)
        else:
            removed[name] = number
        there[book] = decisions.dataclasses.replace(there[book], number=number, removed=tuple(sorted(removed.items())))
        return {"path": path, "number": number}

    def follow(self, asked, status):
        """Takes over what an edit with this reply did, and tells the cards that it touched and the epoch after it."""
        there, method, path, to = self.office.resources, asked.method, asked.path, asked.destination
        if method not in EDITS:
            return {}
        made = decisions.Resource(owner=asked.caller and f"/people/{asked.caller}")
        if (method, status) in (("PUT", 201), ("MKCOL", 201)):
            there[path] = made
        elif (method, status) == ("COPY", 201):
            there[to] = made
        elif method == "MOVE":
            there[to] = there.pop(path)
        elif method == "DELETE":
            for below in [one for one in there if decisions.is_below(one, path)]:
                del there[below]
        elif method == "ACL":
            entries = [{**one, "who": one.get("principal") or one["invert"], "invert": "invert" in one} for one in asked.body["acl"]]
            there[path] = decisions.dataclasses.replace(there[path], own=tuple(map(decisions.entry_of, entries)))
        elif method == "PROPPATCH" and "group-member-set" in asked.body["set"]:
            members = frozenset(asked.body["set"]["group-member-set"])
            there[path] = decisions.dataclasses.replace(there[path], members=members)
            self.office.circles.clear()
        self.office.epoch += method == "ACL" or (method == "PROPPATCH" and "group-member-set" in asked.body["set"]) or (
            method == "DELETE" and not decisions.is_card(path))
        touched = [self.touch(one) for one in EDITS[method](path, to) if decisions.is_card(one)]
        return {**({"touched": touched} if touched else {}), "epoch": self.office.epoch}


def compact(value):
    return json.dumps(value, ensure_ascii=False, separators=(",", ":"))


def refusal_of(asked, reply, line, denial):
    """What a reply tells of a refusal. One to a HEAD tells its length alone, so the name is that of the line."""
    if reply.status < 400:
        return {}
    if reply.body:
        return json.loads(reply.body)
    told = {"error": line.get("error")}
    if told["error"] == "need-privileges":
        entry = {"from": denial["from"], "number": denial["number"]} if "from" in denial else None
        told = {"entry": entry, **told, "privilege": denial.get("privilege"), "resource": denial.get("resource")}
    length = re.search(rb"Content-Length: (\d+)", reply.head)
    return told if length and int(length[1]) == len(compact(told).encode()) else {"error": f"one of a body of {length and int(length[1])} bytes"}


def wanted(asked, reply, line, number, model):
    """The keys and values that the line of a request and its reply has after its time."""
    decides = asked.path and (reply.status < 300 or (reply.status == 403 and (b'"need-privileges"' in reply.body or asked.method == "HEAD")))
    denial = model.denial(asked) if decides else {}
    refusal = refusal_of(asked, reply, line, denial)
    error = refusal.get("error")
    if error in UNREAD or (error == "unavailable" and "method" not in line):
        return {"connection": number, "status": reply.status, "error": error}
    entry = refusal.get("entry") or {}
    given = {"resource": refusal.get("resource"), "privilege": refusal.get("privilege"), "from": entry.get("from"), "number": entry.get("number")}
    worked_out = {key: denial.get(key) for key in given}
    if given != worked_out:
        return {"by the reply": given, "by the edits before": worked_out}
    told = {"connection": number, "caller": asked.caller, "method": asked.method, "path": asked.path, "destination": asked.destination,
            "status": reply.status, "error": error, **denial}
    return {key: value for key, value in told.items() if value is not None}


def now(late=0):
    moment = datetime.datetime.fromtimestamp(time.time() + late, datetime.timezone.utc)
    return moment.isoformat(timespec="milliseconds").replace("+00:00", "Z")


def read_line(text):
    """The object of a line, where it is one without spaces; else nothing."""
    try:
        line = json.loads(text)
    except ValueError:
        return None
    return line if isinstance(line, dict) and compact(line).encode() == text else None


def is_planted(line):
    """Whether a planted word stands in a line beside its entry, which may name the planted member as any person."""
    told = read_line(line)
    return told is None or PLANTED in compact({key: value for key, value in told.items() if key != "entry"})


def compare(count, name, text, talks, model, began):
    """Compares the text of a log with what was asked and answered over each connection, in the order of the log."""
    left, last, ended = [collections.deque(talk) for talk in talks], began, now(0.001)
    count.judge(f"{name}: the last line is ended", True, text[-1:] in (b"", b"\n"))
    count.judge(f"{name}: planted words", [], [line for line in text.split(b"\n") if PLANTED.encode() in line and is_planted(line)][:1])
    for raw in text.split(b"\n")[:-1]:
        line = read_line(raw)
        moment = (line or {}).get("time", "")
        number = (line or {}).get("connection", -1)
        if line is None or not TIME.fullmatch(moment) or not last <= moment <= ended or list(line)[0] != "time":
            count.judge(f"{name}: an object with a time between {last} and {ended}", "a line", raw)
            continue
        last = moment
        if "adopted" in line and "connection" not in line:
            continue
        if number not in range(len(left)) or not left[number]:
            count.judge(f"{name}: connection {number} of {len(left)} has a reply", "one", raw)
            continue
        asked, reply = left[number].popleft()
        told, want = {key: value for key, value in line.items() if key != "time"}, wanted(asked, reply, line, number, model)
        want.update(model.follow(asked, reply.status) if reply.status < 300 else {})
        count.judge(f"{name}: {asked.sent[:400]!r} {reply!r:.300}", compact(want), compact(told))
    for number, talk in enumerate(left):
        count.judge(f"{name}: replies of connection {number} without a line", [], [(asked.sent[:200], reply) for asked, reply in list(talk)[:2]])
