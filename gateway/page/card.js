// A card as a person's entry.
import { readCard, saveLabel } from "./ask.js";
import {
  details, field, form, link, make, say, section, show, textInput, tryButton,
} from "./elements.js";
import {
  fieldsOf, isGroup, memberUri, membersOf, othersOf, pictureOf, textOfProperty,
} from "./entry.js";
import { shownDate } from "./dates.js";
import { linesOf, unescaped } from "./lines.js";
import { bookOf, last, nameOf } from "./names.js";
import { may } from "./rights.js";
import { sharedWith } from "./share.js";
import { language, has, t } from "./texts.js";
import { selectionTools } from "./transfer.js";

const TOP = new Set(["FN", "TITLE", "ROLE", "ORG"]);

export async function showCard(path) {
  const card = await readCard(path);
  const lines = linesOf(card.text);
  const fields = fieldsOf(lines);
  const group = isGroup(lines);
  const name = textOfProperty(lines, "FN") || last(path);
  show(
    name,
    make(
      "div", { class: "entry" }, pictureParts(lines, name),
      make(
        "div", {}, headLines(fields), card.label ? make("p", { class: "soft" }, card.label) : null
      )
    ),
    make(
      "p", { class: "tools" }, link(bookOf(path), t("backToBook", { book: nameOf(bookOf(path)) })),
      cardTools(path, card, group)
    ),
    group ? memberList(lines, card) : null, make("dl", { id: "said" }, fieldRows(fields, group)),
    card.groups.length ? section(t("inGroups"), groupLinks(card.groups)) : null,
    make("div", { id: "shared" }),
    othersOf(lines).length
      ? details(t("more"), make("dl", { id: "others" }, otherRows(lines)))
      : null,
    labelPart(path, card)
  );
  sharedWith(path, card, document.getElementById("shared"));
}

function cardTools(path, card, group) {
  const row = { path, name: textOfProperty(linesOf(card.text), "FN"), tag: card.tag };
  return [
    may(card, "write-content")
      ? link(group ? `/members${path}` : `/edit${path}`, t("edit"))
      : null,
    may(card, "write-content") ? link(`/text${path}`, t("asText")) : null,
    may(card, "read-acl") || !card.may
      ? link(`/access${path}`, may(card, "write-acl") ? t("shareAndAccess") : t("access"))
      : null,
    ...selectionTools(
      bookOf(path), card.book ?? { path: bookOf(path), may: null, sees: "nothing" }, [row],
      { one: true }
    ),
    tryButton(card, () => showCard(path)),
  ].filter(Boolean);
}

// The picture, as soon as a decoder has accepted it.
function pictureParts(lines, name) {
  const data = pictureOf(lines);
  if (!data) return null;
  const image =
    make("img", { class: "picture", alt: t("pictureOf", { name }), hidden: true, src: data });
  image.decode().then(() => { image.hidden = false; }, () => image.remove());
  return image;
}

function headLines(fields) {
  const shown = (value) => (Array.isArray(value) ? value.filter(Boolean).join(", ") : value);
  const said = (property) =>
    fields.filter((one) => one.property === property).map((one) => shown(one.value));
  const work = [...said("TITLE"), ...said("ROLE")].filter(Boolean).join(", ");
  return [work ? make("p", {}, work) : null, ...said("ORG").map((text) => make("p", {}, text))];
}

function groupLinks(groups) {
  const rows = groups.map((one) => make("li", {}, link(one.path, one.name)));
  return make("ul", { class: "plain" }, rows);
}

function memberList(lines, card) {
  const members = membersOf(lines);
  return section(
    t("membersCount", { count: members.length }),
    make("ul", { class: "plain", id: "members" }, members.map((uri) => {
      const known = card.names[uri] ?? card.names[memberUri(uri)];
      return make("li", {}, known ? link(known.path, known.name) : uri);
    }))
  );
}

// The title of a field, with its types in words.
function titleOf(one) {
  const types = [
    one.label ||
      one.types.map((type) => (has(`type.${type}`) ? t(`type.${type}`) : type)).join(", "),
    one.preferred ? t("preferred") : ""
  ].filter(Boolean);
  return t(`field.${one.property}`) + (types.length ? ` (${types.join(", ")})` : "");
}

function fieldRows(fields) {
  const shown = fields.filter(
    (one) => !TOP.has(one.property) && (one.property !== "N" || needsParts(fields))
  );
  return shown.flatMap((one) => {
    const value = shownValue(one);
    return value ? [make("dt", {}, titleOf(one)), make("dd", {}, value)] : [];
  });
}

// Whether the parts of a name say more than the name that is shown.
function needsParts(fields) {
  const full = fields.find((one) => one.property === "FN")?.value ?? "";
  const parts = fields.find((one) => one.property === "N")?.value ?? [];
  return parts.some((part) => part && !full.includes(part));
}

// A value as people read it; what can be reached by a link is one.
export function shownValue(one) {
  const { property, value } = one;
  if (one.kind === "date") return shownDate(value, language);
  if (property === "TEL") return phoneLink(value);
  if (property === "EMAIL") return mailLink(value);
  if (property === "URL") return webLink(value);
  if (property === "ADR") return addressLink(value);
  if (Array.isArray(value)) return value.filter(Boolean).join(", ");
  return value;
}

function outside(href, text) {
  return make("a", { href, rel: "noreferrer noopener", target: "_blank" }, text);
}

function phoneLink(value) {
  const digits = value.replace(/[\s().\u2010-\u2015-]/g, "");
  return /^\+?[0-9*#]{2,}$/.test(digits)
    ? make("a", { href: `tel:${digits.replace("#", "%23")}` }, value)
    : value;
}

function mailLink(value) {
  return /^[^\s@<>"?&]+@[^\s@<>"?&]+$/.test(value)
    ? make("a", { href: `mailto:${encodeURI(value)}` }, value)
    : value;
}

function webLink(value) {
  try {
    const url = new URL(value);
    return ["http:", "https:"].includes(url.protocol) ? outside(url.href, value) : value;
  } catch {
    return value;
  }
}

// An address in the order in which the language writes it; the link opens a map.
function addressLink(parts) {
  const [box, extended, street, town, region, code, country] = parts;
  const ordered = language === "de" ? [code, town] : [town, region, code];
  const place = ordered.filter(Boolean).join(" ");
  const rows = [
    box, extended, street, place, language === "de" ? region : "", country
  ].filter((row) => row && row.trim());
  if (!rows.length) return null;
  const sought = [street, code, town, country].filter(Boolean).join(", ");
  const href = `https://www.openstreetmap.org/search?query=${encodeURIComponent(sought)}`;
  return make(
    "a", { href, rel: "noreferrer noopener", target: "_blank", title: t("onMap") },
    rows.join("\n")
  );
}

function otherRows(lines) {
  return othersOf(lines).flatMap((line) => {
    const value = line.value.startsWith("data:")
      ? t("dataOf", { size: Math.ceil(line.value.length * 0.75 / 1024) })
      : unescaped(line.value);
    return [
      make("dt", {}, has(`field.${line.name}`) ? t(`field.${line.name}`) : line.name),
      make("dd", {}, value)
    ];
  });
}

function labelPart(path, card) {
  if (!may(card, "write-properties")) return null;
  const label = textInput(card.label, { maxlength: "256" });
  return details(t("cardLabel"), form(t("save"), async () => {
    await saveLabel(path, label.value);
    await showCard(path);
    say(t("labelSaved"));
  }, field(t("cardLabel"), label, t("cardLabelHint"))));
}

