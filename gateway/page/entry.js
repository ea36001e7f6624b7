// A card as a person's entry: its fields, each of one line, and what changing one writes. Whatever
// has no field here is kept as it stands, and shown under "more".
import {
  clean, escaped, newLine, paramOf, partsOf, unescaped, withParams, withValue,
} from "./lines.js";
import { dateOf, writtenDate } from "./dates.js";

// What each property is: its kind, and whether a card may have several lines of it that people
// edit.
export const PROPERTIES = {
  FN: { kind: "text" },
  N: { kind: "parts", count: 5, lists: true },
  NICKNAME: { kind: "list" },
  ORG: { kind: "parts", count: 2, several: true },
  TITLE: { kind: "text", several: true },
  ROLE: { kind: "text", several: true },
  TEL: { kind: "phone", several: true, types: ["work", "home", "cell", "fax", "pager"] },
  EMAIL: { kind: "text", several: true, types: ["work", "home"] },
  ADR: { kind: "parts", count: 7, several: true, types: ["work", "home"] },
  URL: { kind: "address", several: true, types: ["work", "home"] },
  BDAY: { kind: "date" },
  ANNIVERSARY: { kind: "date" },
  CATEGORIES: { kind: "list", several: true },
  NOTE: { kind: "text", several: true },
};
// In which order the fields are shown.
export const ORDER = [
  "N", "FN", "NICKNAME", "ORG", "TITLE", "ROLE", "TEL", "EMAIL", "ADR", "URL", "BDAY",
  "ANNIVERSARY", "CATEGORIES", "NOTE"
];
const FRAME = new Set(["BEGIN", "VERSION", "END", ""]);
const LABEL = "X-ABLABEL";
// Types that say nothing which people ask for.
const SILENT = new Set(["voice", "internet", "pref", "x-internet"]);
const PICTURE = /^data:image\/(?:jpeg|png|gif|webp);base64,[A-Za-z0-9+/]+={0,2}$/i;

// The fields of a card, in order: { line, property, kind, value, types, label, preferred }.
export function fieldsOf(lines) {
  const seen = new Set();
  const fields = [];
  for (const line of lines) {
    const known = PROPERTIES[line.name];
    if (!known || (seen.has(line.name) && !known.several)) continue;
    const value = valueOf(line, known);
    if (value === null) continue;
    seen.add(line.name);
    fields.push({
      line,
      property: line.name,
      kind: known.kind,
      value,
      types: typesOf(line),
      label: labelOf(lines, line),
      preferred: isPreferred(line)
    });
  }
  return fields.sort((one, other) => ORDER.indexOf(one.property) - ORDER.indexOf(other.property));
}

// The lines that have no field, but those of the frame, the picture, members and labels of fields.
export function othersOf(lines) {
  const held = new Set(fieldsOf(lines).map((field) => field.line));
  const picture = pictureOf(lines);
  return lines.filter(
    (line) => !FRAME.has(line.name) && !held.has(line) && line.name !== "MEMBER" &&
      line.name !== LABEL && !(picture && line.name === "PHOTO" && line.value === picture)
  );
}

// The value of a line as its field has it; null where it has another form.
function valueOf(line, known) {
  if (known.kind === "phone") return phoneOf(line);
  if (known.kind === "address") return line.value;
  if (known.kind === "date") {
    return paramOf(line, "VALUE").includes("text") ? null : dateOf(line.value);
  }
  if (known.kind === "list") {
    return partsOf(line.value, ",").map((part) => unescaped(part).trim()).filter(Boolean);
  }
  if (known.kind === "parts") {
    const parts = partsOf(line.value, ";").map((part) => shownPart(part, known));
    while (parts.length < known.count) parts.push("");
    return parts;
  }
  return unescaped(line.value);
}

function shownPart(part, known) {
  return known.lists ? partsOf(part, ",").map(unescaped).join(", ") : unescaped(part);
}

function writtenPart(text, known) {
  return known.lists
    ? text.split(",").map((word) => escaped(word.trim())).join(",")
    : escaped(text.trim());
}

// A telephone number as people read it: a text, or a URI without its scheme.
function phoneOf(line) {
  return isUri(line) ? line.value.replace(/^tel:/i, "") : unescaped(line.value);
}

function isUri(line) {
  return paramOf(line, "VALUE").map((word) => word.toLowerCase()).includes("uri") ||
    /^tel:/i.test(line.value);
}

export function typesOf(line) {
  return paramOf(line, "TYPE")
    .map((word) => word.toLowerCase())
    .filter((word) => word && !SILENT.has(word));
}

function isPreferred(line) {
  return paramOf(line, "PREF").length > 0 ||
    paramOf(line, "TYPE").some((word) => word.toLowerCase() === "pref");
}

// The name that programs of Apple give a line: a line of the same group.
function labelOf(lines, line) {
  const found = line.group &&
    lines.find(
      (other) => other.name === LABEL && other.group.toUpperCase() === line.group.toUpperCase()
    );
  return found ? unescaped(found.value).replace(/^_\$!<(.*)>!\$_$/, "$1") : "";
}

// The lines with one field's value or types changed. What is not changed is not written.
export function changed(lines, field, value, types = field.types) {
  let line = field.line;
  if (!same(value, field.value)) line = rewritten(line, field, value);
  let rest = lines;
  if (!same(types, field.types)) {
    line = withTypes(line, types);
    rest = field.label ? withoutLabel(lines, field.line) : lines;
  }
  return line === field.line ? lines : rest.map((other) => (other === field.line ? line : other));
}

export function same(one, other) {
  return JSON.stringify(one) === JSON.stringify(other);
}

function rewritten(line, field, value) {
  const known = PROPERTIES[field.property];
  if (field.kind === "phone") return withPhone(line, value);
  if (field.kind === "address") return withValue(line, clean(value).trim());
  if (field.kind === "date") {
    return withValue(withoutParam(line, "X-APPLE-OMIT-YEAR"), writtenDate(value));
  }
  if (field.kind === "list") return withValue(line, value.map(escaped).join(","));
  if (field.kind === "text") return withValue(line, escaped(value));
  const parts = partsOf(line.value, ";");
  value.forEach((text, at) => {
    if (text !== (field.value[at] ?? "")) parts[at] = writtenPart(text, known);
    else if (parts[at] === undefined) parts[at] = "";
  });
  while (field.property === "ORG" && parts.length > 1 && !parts[parts.length - 1]) parts.pop();
  return withValue(withoutParam(line, "LABEL", "GEO", "TZ"), parts.join(";"));
}

function withoutParam(line, ...names) {
  return line.params.some(([name]) => names.includes(name))
    ? withParams(line, line.params.filter(([name]) => !names.includes(name))) : line;
}

// A number that was a URI stays one where it can; else it becomes a text.
function withPhone(line, value) {
  const text = clean(value).trim();
  if (!isUri(line)) return withValue(line, escaped(text));
  if (/^\+?[0-9 ().-]+$/.test(text)) {
    return withValue(line, `tel:${text.replace(/[ ().]+/g, "-").replace(/-+/g, "-")}`);
  }
  return withValue(withoutParam(line, "VALUE"), escaped(text));
}

function withTypes(line, types) {
  const at = line.params.findIndex(([name]) => name === "TYPE");
  const silent = paramOf(line, "TYPE").filter((word) => SILENT.has(word.toLowerCase()));
  const all = [...types, ...silent];
  const params = line.params.filter(([name]) => name !== "TYPE");
  if (all.length) params.splice(at < 0 ? params.length : at, 0, ["TYPE", all]);
  return withParams(line, params);
}

function withoutLabel(lines, line) {
  return lines.filter(
    (other) =>
      !(other.name === LABEL && other.group &&
        other.group.toUpperCase() === line.group.toUpperCase())
  );
}

// The lines with a new one for this property: after the last of its kind, else before the end.
export function added(lines, property, value, types = []) {
  const known = PROPERTIES[property];
  const line = newLine({
    name: property,
    params: types.length ? [["TYPE", types]] : [],
    value: firstValue(known, value)
  });
  return inserted(lines, line);
}

export function inserted(lines, line) {
  const last = lines.findLastIndex((other) => other.name === line.name);
  const end = lines.findLastIndex((other) => other.name === "END");
  const at = last >= 0 ? last + 1 : end >= 0 ? end : lines.length;
  return [...lines.slice(0, at), line, ...lines.slice(at)];
}

function firstValue(known, value) {
  if (known.kind === "list") return value.map(escaped).join(",");
  if (known.kind === "date") return writtenDate(value);
  if (known.kind === "address") return clean(value).trim();
  if (known.kind === "text") return escaped(value);
  if (known.kind === "phone") return escaped(value.trim());
  const parts = value.map((text) => writtenPart(text, known));
  while (known.count === 2 && parts.length > 1 && !parts[parts.length - 1]) parts.pop();
  return parts.join(";");
}

// The lines without a field, and without the name that its group gives it.
export function removed(lines, field) {
  const group = field.line.group.toUpperCase();
  const together = lines.filter(
    (line) => line.group.toUpperCase() === group && line.name !== LABEL
  );
  const alone = group && together.length === 1;
  return (alone ? withoutLabel(lines, field.line) : lines).filter((line) => line !== field.line);
}

// Whether a value says nothing.
export function isEmpty(value) {
  if (value === null || value === undefined) return true;
  if (Array.isArray(value)) return value.every((part) => !part.trim());
  return typeof value === "string" ? !value.trim() : !(value.year || value.month || value.day);
}

// The picture in a card, where it is an image that browsers decode; else null.
export function pictureOf(lines) {
  return lines.find((line) => line.name === "PHOTO" && PICTURE.test(line.value))?.value ?? null;
}

// The lines with another picture, or with none.
export function withPicture(lines, picture) {
  const held = pictureOf(lines);
  const line = lines.find((other) => other.name === "PHOTO" && other.value === held);
  if (!picture) return held ? lines.filter((other) => other !== line) : lines;
  const made = newLine({ name: "PHOTO", value: picture });
  return held ? lines.map((other) => (other === line ? made : other)) : inserted(lines, made);
}

// Single values that people ask for.
export function textOfProperty(lines, property) {
  const line = lines.find((other) => other.name === property);
  return line ? unescaped(line.value) : "";
}

export function isGroup(lines) {
  return textOfProperty(lines, "KIND").trim().toLowerCase() === "group";
}

// Members of a group card, as URIs, and the lines with other members.
export function membersOf(lines) {
  return lines.filter((line) => line.name === "MEMBER").map((line) => line.value);
}

export function withMembers(lines, members) {
  const kept = lines.filter((line) => line.name !== "MEMBER" || members.includes(line.value));
  const held = membersOf(kept);
  const fresh = members.filter((one) => !held.includes(one));
  return fresh.reduce(
    (all, one) => inserted(all, newLine({ name: "MEMBER", value: one })), kept
  );
}

// The URI that names the card of a UID in a group (RFC 6350, section 6.6.5).
export function memberUri(uid) {
  return /^[A-Za-z][A-Za-z0-9+.-]*:/.test(uid) ? uid : `urn:uuid:${uid}`;
}

// The text of a new card. `uid` is a UUID.
export function newCard(uid, { kind = "" } = {}) {
  const more = kind ? `KIND:${kind}\r\n` : "";
  return `BEGIN:VCARD\r\nVERSION:4.0\r\nUID:urn:uuid:${uid}\r\n${more}END:VCARD\r\n`;
}

// The name that a person's parts make.
export function composed(parts) {
  const [family, given, more, before, after] = parts.map((part) => part.trim());
  return [before, given, more, family].filter(Boolean).join(" ") + (after ? `, ${after}` : "");
}

// A random UUID (RFC 9562, section 5.4), also where the page is reached without TLS.
export function newUuid() {
  if (crypto.randomUUID) return crypto.randomUUID();
  const bytes = crypto.getRandomValues(new Uint8Array(16));
  bytes[6] = (bytes[6] & 0x0f) | 0x40;
  bytes[8] = (bytes[8] & 0x3f) | 0x80;
  const hex = [...bytes].map((byte) => byte.toString(16).padStart(2, "0")).join("");
  return hex.replace(/^(.{8})(.{4})(.{4})(.{4})(.{12})$/, "$1-$2-$3-$4-$5");
}
