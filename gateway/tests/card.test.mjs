// Properties of the editing of cards at the page, over cards made at random:
// node --test gateway/tests
import assert from "node:assert/strict";
import { readdirSync } from "node:fs";
import { test } from "node:test";
import {
  added, changed, fieldsOf, isEmpty, membersOf, newCard, othersOf, pictureOf, removed, withMembers,
  withPicture,
} from "../page/entry.js";
import { folded, linesOf, sizeOf, textOf } from "../page/lines.js";
import { dateOf, isDate, shownDate, writtenDate } from "../page/dates.js";

const folder = new URL("../page/", import.meta.url);
const files = readdirSync(folder).filter((name) => /^texts\.\w+\.js$/.test(name));
const texts = new Map(await Promise.all(
  files.map(async (name) => [name.split(".")[1], (await import(new URL(name, folder))).default])
));
const ROUNDS = 200;

// Numbers that are the same in each run.
function dice(seed) {
  let state = seed;
  const next = () => {
    state = (state * 1_103_515_245 + 12_345) % 2_147_483_648;
    return state / 2_147_483_648;
  };
  return {
    below: (count) => Math.floor(next() * count),
    pick: (list) => list[Math.floor(next() * list.length)]
  };
}

const WORDS = [
  "Anna", "Oberländer", "日本", "x\\,y", "a\\;b", "\\n", "😀", "Straße 1", " ", "--", "=", "\\\\"
];
const DATES = [
  "19850412", "--0412", "1985-04", "1985", "---12", "19850412T101500Z", "words"
];
const HEADS = [
  "FN", "fn", "N", "item1.TEL", "TEL;TYPE=cell,work", 'tel;type="work,fax";VALUE=uri',
  "EMAIL;PREF=1", "item1.X-ABLabel", 'ADR;LABEL="A: b, c;d"', "ADR;TYPE=home", "ORG",
  "ORG;SORT-AS=x", "TITLE", "ROLE", "NOTE", "URL", "BDAY", "CATEGORIES", "NICKNAME",
  "X-OWN;X-PARAM=1", "UID", "REV", "GEO", "IMPP", "CLIENTPIDMAP", "ANNIVERSARY", "KEY", "PRODID",
  "item2.EMAIL", "item2.X-ABLABEL"
];

function valueFor(head, { below, pick }) {
  const name = head.split(/[.;]/).find((part) => !/^item/.test(part)).toUpperCase();
  const words = () => Array.from({ length: 1 + below(6) }, () => pick(WORDS)).join("");
  if (name === "N" || name === "ADR" || name === "ORG") {
    return Array.from({ length: 1 + below(7) }, words).join(";");
  }
  if (name === "BDAY" || name === "ANNIVERSARY") {
    return pick(DATES);
  }
  if (name === "URL") return pick(["https://a.example/b", "javascript:alert(1)", "no address"]);
  return head.includes("VALUE=uri") ? "tel:+49-30-1" : words();
}

function randomCard(seed) {
  const random = dice(seed);
  const end = random.pick(["\r\n", "\n"]);
  const heads = Array.from({ length: random.below(14) }, () => random.pick(HEADS));
  const folds = (line) => {
    let written = "";
    for (const character of line) {
      written += character + (random.below(9) ? "" : end + random.pick([" ", "\t"]));
    }
    return random.below(2) ? written + end : folded(line, end);
  };
  const said = heads.map((head) => folds(`${head}:${valueFor(head, random)}`)).join("");
  return `BEGIN:VCARD${end}VERSION:4.0${end}${said}END:VCARD${end}`;
}

const OTHER = {
  text: () =>
    "Neu; mit, allem\\\nund einer langen Zeile, die länger ist als fünfundsiebzig Bytes, damit " +
    "sie gefaltet wird",
  phone: () => "+49-170-555",
  address: () => "https://new.example/",
  date: () => ({ year: 1990, month: 2, day: 3, rest: "" }),
  list: () => ["eins", "zwei, drei"],
  parts: (value) => value.map((part, at) => (at === 1 ? "neuer Teil" : part)),
};

test("an unchanged card is the same bytes", () => {
  for (let seed = 1; seed <= ROUNDS; seed += 1) {
    const text = randomCard(seed);
    const lines = linesOf(text);
    assert.equal(textOf(lines), text);
    const saved = fieldsOf(lines).reduce(
      (all, field) => changed(all, field, structuredClone(field.value), [...field.types]), lines
    );
    assert.equal(textOf(saved), text);
  }
});

test("one field that is changed changes its line alone, and says the new value", () => {
  let tried = 0;
  for (let seed = 1; seed <= ROUNDS; seed += 1) {
    const lines = linesOf(randomCard(seed));
    fieldsOf(lines).forEach((field, at) => {
      const value = OTHER[field.kind](field.value);
      const after = changed(lines, field, value);
      assert.equal(after.length, lines.length);
      assert.deepEqual(after.filter((line, number) => line !== lines[number]).length, 1);
      const read = fieldsOf(linesOf(textOf(after)))[at];
      assert.equal(read.property, field.property);
      assert.deepEqual(read.value, value);
      assert.deepEqual(read.types, field.types);
      tried += 1;
    });
  }
  assert.ok(tried > ROUNDS);
});

test("another type changes the line, and takes the name that a group gave it", () => {
  const lines = linesOf(
    "BEGIN:VCARD\r\nVERSION:4.0\r\nFN:a\r\nitem1.TEL;PREF=1:+1\r\nitem1.X-ABLabel:Yacht\r\n" +
    "END:VCARD\r\n"
  );
  const field = fieldsOf(lines).find((one) => one.property === "TEL");
  assert.equal(field.label, "Yacht");
  assert.equal(textOf(changed(lines, field, "+1", ["home"])),
    "BEGIN:VCARD\r\nVERSION:4.0\r\nFN:a\r\nitem1.TEL;PREF=1;TYPE=home:+1\r\nEND:VCARD\r\n");
});

test("a field that is added and removed leaves the bytes as they were", () => {
  for (let seed = 1; seed <= ROUNDS; seed += 1) {
    const text = randomCard(seed);
    const lines = linesOf(text);
    const more = added(lines, "EMAIL", "new@mail.example", ["work"]);
    const field = fieldsOf(more).find((one) => one.value === "new@mail.example");
    assert.deepEqual(field.types, ["work"]);
    assert.equal(textOf(removed(more, field)), text);
  }
});

test("no written line has more than 75 bytes", () => {
  const lines = added(linesOf(newCard("x")), "NOTE", "ß😀日本".repeat(60));
  for (const line of textOf(lines).split("\r\n")) assert.ok(sizeOf(line) <= 75);
  assert.equal(fieldsOf(lines)[0].value, "ß😀日本".repeat(60));
});

test("what has no field is among the others, whatever it says", () => {
  const text =
    "BEGIN:VCARD\r\nVERSION:4.0\r\nUID:u\r\nFN:a\r\nFN:second\r\nX-OWN:1\r\n" +
    "BDAY;VALUE=text:in May\r\nPHOTO:data:image/svg+xml;base64,PHN2Zz4=\r\nEND:VCARD\r\n";
  assert.deepEqual(
    othersOf(linesOf(text)).map((line) => line.name), ["UID", "FN", "X-OWN", "BDAY", "PHOTO"]
  );
});

test("a picture is set, replaced and taken away; one of SVG is none", () => {
  const start = linesOf(newCard("x"));
  const image = "data:image/png;base64,iVBORw0KGgo=";
  const one = withPicture(start, image);
  assert.equal(pictureOf(one), image);
  assert.equal(
    pictureOf(withPicture(one, image.replace("iVB", "jVB"))), image.replace("iVB", "jVB")
  );
  assert.equal(textOf(withPicture(one, null)), textOf(start));
  assert.equal(pictureOf(linesOf("PHOTO:data:image/svg+xml;base64,PHN2Zz4=\r\n")), null);
  assert.equal(pictureOf(linesOf("PHOTO:https://elsewhere.example/a.png\r\n")), null);
});

test("members keep their lines", () => {
  const lines = withMembers(linesOf(newCard("x", { kind: "group" })), ["urn:uuid:a", "urn:uuid:b"]);
  assert.deepEqual(membersOf(lines), ["urn:uuid:a", "urn:uuid:b"]);
  assert.deepEqual(
    membersOf(withMembers(lines, ["urn:uuid:b", "urn:uuid:c"])), ["urn:uuid:b", "urn:uuid:c"]
  );
});

test("dates that lack a part come back as they were written", () => {
  for (const value of [...DATES.slice(0, -1), "--04"]) {
    assert.equal(writtenDate(dateOf(value)), value);
  }
  for (const value of ["19850431", "1985-4", "in May", "19851301", ""]) {
    assert.equal(dateOf(value), null);
  }
  assert.ok(isDate({ year: null, month: 2, day: 29 }));
  assert.ok(!isDate({ year: 2023, month: 2, day: 29 }));
  assert.equal(shownDate(dateOf("19850412"), "de"), "12. April 1985");
  assert.equal(shownDate(dateOf("--0412"), "en"), "April 12");
  assert.ok(
    isEmpty({ year: null, month: null, day: null }) && isEmpty(["", " "]) && !isEmpty(["a"])
  );
});

test("each language has each text, with the same values", () => {
  const english = texts.get("en");
  const values = (text) => [...new Set(JSON.stringify(text).match(/\{\w+\}/g))].sort();
  for (const [language, own] of texts) {
    assert.deepEqual(Object.keys(own).sort(), Object.keys(english).sort(), language);
    for (const key of Object.keys(english)) {
      assert.deepEqual(values(own[key]), values(english[key]), `${language} ${key}`);
    }
  }
});
