"""The properties that CardDAV clients ask for, of what stands at a path."""
from __future__ import annotations

from collections.abc import Callable, Iterable, Sequence
from dataclasses import dataclass, field
from xml.etree.ElementTree import Element

from . import convert, davxml, paths
from .config import CARD_BYTES
from .texts import Held, tag_of
from .davxml import CALENDAR, Node, c, d
from .queries import COLLATIONS
from .refusals import Refusal
from .vcard import BadLine, folded, parsed, unfolded

# Names of properties in one request.
NAMES = 64
CTAG = f"{{{CALENDAR}}}getctag"
REPORTS = (c("addressbook-multiget"), c("addressbook-query"), d("sync-collection"))
# What an empty body and allprop ask for.
COMMON = (
    "resourcetype", "displayname", "getetag", "getcontenttype", "getcontentlength", "sync-token",
    "owner",
)


@dataclass(frozen=True)
class AddressData:
    """How an address-data element asks for cards: the version, and the names of lines; without
    names, all of them."""

    version: str = ""
    names: frozenset[str] = frozenset()
    bare: frozenset[str] = frozenset()


@dataclass
class Asked:
    """The properties that a body asks for, in order. Without `values` their names alone are told,
    and without `each` nothing is told of those that a resource lacks or the caller may not ask
    for."""

    names: list[str]
    data: AddressData = AddressData()
    values: bool = True
    each: bool = True


@dataclass
class Resource:
    """What is known of what stands at a path of the server. `refused` has the properties that the
    caller may not ask for. A card has what is held of it, or its text."""

    path: str
    kind: str
    caller: str
    label: str = ""
    owner: str | None = None
    token: str | None = None
    privileges: list[str] | None = None
    held: Held | None = None
    told: str | None = None
    refused: dict[str, Refusal] = field(default_factory=dict)

    @property
    def text(self) -> str | None:
        """The text of a card that the caller may read."""
        return self.held.text if self.held is not None else self.told

    @property
    def tag(self) -> str | None:
        """The entity tag of a card that the caller may read."""
        if self.held is not None:
            return self.held.tag
        return tag_of(self.told) if self.told is not None else None

    @property
    def length(self) -> str | None:
        """How many bytes the text of a card has."""
        if self.held is not None:
            return str(self.held.length)
        return str(len(self.told.encode("utf-8", "surrogatepass"))) if self.told else None


def asked_by(body: Element | None) -> Asked:
    """What a PROPFIND's body asks for; Refusal 400 where it is none."""
    if body is None:
        return Asked([d(name) for name in COMMON], each=False)
    if body.tag != d("propfind"):
        raise Refusal(400, "bad-xml")
    if body.find(d("propname")) is not None:
        names = [d(name) for name in COMMON] + [c("supported-address-data"), CTAG]
        return Asked(names, values=False, each=False)
    listed = props_of(body)
    if body.find(d("allprop")) is not None:
        include = body.find(d("include"))
        more = names_in(include) if include is not None else []
        return Asked(list(dict.fromkeys([*map(d, COMMON), *more])), each=False)
    if listed is None:
        raise Refusal(400, "bad-xml")
    return listed


def props_of(body: Element) -> Asked | None:
    """The properties of a body's prop element, each once; None where it has none."""
    prop = body.find(d("prop"))
    if prop is None:
        return None
    found = prop.findall(c("address-data"))
    return Asked(names_in(prop), address_data(found[-1]) if found else AddressData())


def names_in(prop: Element) -> list[str]:
    """The names of the properties in an element, each once; Refusal 400 where they are too many."""
    names = list(dict.fromkeys(child.tag for child in prop if isinstance(child.tag, str)))
    if len(names) > NAMES or not all(davxml.is_writable(name) for name in names):
        raise Refusal(400, "bad-xml")
    return names


def address_data(element: Element) -> AddressData:
    """What an address-data element asks for; Refusal 403 where it is another format or version."""
    version = element.get("version", "")
    kind = element.get("content-type", "text/vcard").lower()
    if kind != "text/vcard" or version not in ("", "3.0", "4.0"):
        raise Refusal(403, "supported-address-data")
    props = [child for child in element if child.tag == c("prop")]
    bare = [child for child in props if child.get("novalue") == "yes"]
    return AddressData(version, named(props), named(bare))


def named(props: Iterable[Element]) -> frozenset[str]:
    """The names of lines that these elements ask for."""
    return frozenset((child.get("name") or "").upper() for child in props)


def data_of(text: str, asked: AddressData, unversioned: str) -> str:
    """A card as an address-data element asks for it."""
    if (asked.version or unversioned) == "3.0":
        text = convert.to_three(text)
    if not asked.names:
        return text
    kept = []
    for number, line in enumerate(unfolded(text), 1):
        try:
            made = parsed(line, number)
        except BadLine:
            continue
        name = made.name.upper()
        full = f"{made.group.upper()}.{name}"
        if name in asked.bare or full in asked.bare:
            made.value = ""
        if name in ("BEGIN", "VERSION", "END") or name in asked.names or full in asked.names:
            kept.append(folded(made.text()))
    return "".join(kept)


def told(resource: Resource, asked: Asked, unversioned: str) -> Node:
    """The response for a resource: what it has, what it lacks, and what may not be asked for."""
    found, missing = [], []
    refused: dict[str, tuple[Refusal, list[Node]]] = {}
    for name in asked.names:
        if name in resource.refused:
            refusal = resource.refused[name]
            refused.setdefault(refusal.words(), (refusal, []))[1].append(Node(name))
            continue
        value = value_of(resource, name, asked, unversioned)
        if value is None:
            missing.append(Node(name))
        else:
            found.append(Node(name, *value) if asked.values else Node(name))
    groups: list[tuple[int, list[Node], Refusal | None]] = [(200, found, None)]
    if asked.each:
        groups += [(403, nodes, refusal) for refusal, nodes in refused.values()]
        groups.append((404, missing, None))
    return davxml.response(paths.href(resource.path), groups)


def value_of(
    resource: Resource, name: str, asked: Asked, unversioned: str
) -> Iterable[davxml.Content] | None:
    """What stands in a property; None where the resource has none of that name."""
    if name == c("address-data"):
        text = resource.text
        return [data_of(text, asked.data, unversioned)] if text is not None else None
    make = MAKERS.get(name)
    return make(resource) if make is not None else None


def resourcetype(resource: Resource) -> list[davxml.Content]:
    """The types of a resource."""
    kinds: dict[str, list[davxml.Content]] = {
        "book": [Node(d("collection")), Node(c("addressbook"))],
        "person": [Node(d("collection")), Node(d("principal"))],
        "group": [Node(d("collection")), Node(d("principal"))],
        "card": [],
    }
    return kinds.get(resource.kind, [Node(d("collection"))])


def displayname(resource: Resource) -> list[davxml.Content]:
    """The label; where there is none the name, but of a card."""
    if resource.label or resource.kind == "card":
        return [resource.label] if resource.label else []
    return [(paths.parts_of(resource.path) or ["office"])[-1]]


def own(caller: str) -> Node:
    """The href of the caller's own principal."""
    return davxml.href(paths.href(f"/people/{caller}"))


def privileges(resource: Resource) -> list[davxml.Content] | None:
    """What the caller may do, as the server tells it."""
    if resource.privileges is None:
        return None
    return [davxml.privilege(name) for name in resource.privileges]


def home_set(resource: Resource) -> list[davxml.Content] | None:
    """Where the caller's books are."""
    if resource.kind == "root" or resource.path == f"/people/{resource.caller}":
        return [davxml.href(paths.href("/books"))]
    return None


def reports(resource: Resource) -> list[davxml.Content]:
    """The reports that are answered here."""
    if resource.kind != "book":
        return []
    return [Node(d("supported-report"), Node(d("report"), Node(name))) for name in REPORTS]


def address_types(resource: Resource) -> list[davxml.Content] | None:
    """The versions of vCard that a book takes and gives."""
    if resource.kind != "book":
        return None
    return [
        Node(c("address-data-type"), content_type="text/vcard", version=version)
        for version in ("3.0", "4.0")
    ]


def collations(resource: Resource) -> list[davxml.Content] | None:
    """The collations of text-match."""
    if resource.kind != "book":
        return None
    return [Node(c("supported-collation"), name) for name in COLLATIONS]


def of_card(resource: Resource, value: str | None) -> list[davxml.Content] | None:
    """A value that a card alone has."""
    return [value] if resource.kind == "card" and value is not None else None


def owner(resource: Resource) -> list[davxml.Content] | None:
    """The owner, empty where there is none."""
    return [davxml.href(paths.href(resource.owner))] if resource.owner else []


def token(resource: Resource) -> list[davxml.Content] | None:
    """The sync token of a book."""
    return [resource.token] if resource.token is not None else None


def principal_url(resource: Resource) -> list[davxml.Content] | None:
    """Where a principal is."""
    if resource.kind not in ("person", "group"):
        return None
    return [davxml.href(paths.href(resource.path))]


MAKERS: dict[str, Callable[[Resource], Sequence[davxml.Content] | None]] = {
    d("resourcetype"): resourcetype,
    d("displayname"): displayname,
    d("owner"): owner,
    d("getetag"): lambda it: of_card(it, it.tag),
    d("getcontenttype"): lambda it: of_card(it, "text/vcard; charset=utf-8"),
    d("getcontentlength"): lambda it: of_card(it, it.length),
    d("sync-token"): token,
    CTAG: token,
    d("current-user-principal"): lambda it: [own(it.caller)],
    d("current-user-privilege-set"): privileges,
    d("principal-collection-set"): lambda it: [davxml.href(paths.href("/people"))],
    d("principal-URL"): principal_url,
    d("supported-report-set"): reports,
    c("addressbook-home-set"): home_set,
    c("supported-address-data"): address_types,
    c("supported-collation-set"): collations,
    c("max-resource-size"): lambda it: [str(CARD_BYTES)] if it.kind == "book" else None,
}
