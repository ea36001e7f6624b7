// The form of a person's entry, and the form of its text.
import { Refused, putCard, putNewCard, readCard } from "./ask.js";
import { button, choice, field, form, go, link, make, say, show, textInput } from "./elements.js";
import {
  ORDER, PROPERTIES, added, changed, composed, fieldsOf, isEmpty, newCard, newUuid, pictureOf,
  removed, same, textOfProperty, withPicture,
} from "./entry.js";
import { isDate } from "./dates.js";
import { clean, linesOf, textOf } from "./lines.js";
import { showConflict } from "./conflict.js";
import { last, nameOf, readsCards } from "./names.js";
import { readPicture } from "./picture.js";
import { has, language, t } from "./texts.js";

const LONG = new Set(["NOTE"]);
const WANTED =
  ["N", "FN", "ORG", "TITLE", "TEL", "EMAIL", "ADR", "URL", "BDAY", "CATEGORIES", "NOTE"];
// Which parts of a value have an input, in order, and the width of each in a row of six.
const PARTS = {
  N: [[1, 3], [0, 3], [2, 2], [3, 2], [4, 2]],
  ORG: [[0, 3], [1, 3]],
  ADR: [[2, 6], [5, 2], [3, 4], [4, 3], [6, 3], [0, 3], [1, 3]]
};
const RARE = { N: [2, 3, 4], ADR: [4, 0, 1] };

export async function showEdit(path) {
  const card = await readCard(path);
  const entry = new EntryForm(linesOf(card.text));
  show(
    t("editOf", { name: textOfProperty(entry.start, "FN") || last(path) }),
    form(
      t("save"),
      async () => {
        const text = entry.text();
        if (text !== card.text) await saved(path, text, card);
        go(path, t("cardSaved"));
      },
      entry.parts()
    ),
    make("p", {}, link(path, t("cancel")))
  );
  entry.focus();
}

export function showNewCard(book) {
  const uid = newUuid();
  const entry = new EntryForm(linesOf(newCard(uid)));
  show(t("newCardIn", { book: nameOf(book) }), form(t("makeCard"), async () => {
    const reads = readsCards(book);
    await putNewCard(`${book}/${uid}.vcf`, entry.text(), reads);
    if (reads) go(`${book}/${uid}.vcf`);
    else go(book, t("cardMadeUnseen"));
  }, entry.parts()), make("p", {}, link(book, t("cancel"))));
  entry.focus();
}

// Saves a text, or shows both where the card has changed since it was opened.
async function saved(path, text, card) {
  try {
    await putCard(path, text, card.tag);
  } catch (fault) {
    if (!(fault instanceof Refused) || fault.detail.error !== "precondition") throw fault;
    await showConflict(path, text, card.text);
    throw fault;
  }
}

export async function showText(path) {
  const card = await readCard(path);
  const text = make("textarea", { spellcheck: "false", rows: "20", class: "code" });
  text.value = card.text;
  show(
    t("textOf", { name: textOfProperty(linesOf(card.text), "FN") || last(path) }),
    form(
      t("save"),
      async () => {
        const ends = card.text.includes("\r\n") || !card.text.includes("\n") ? "\r\n" : "\n";
        await saved(path, text.value.replace(/\r?\n/g, ends), card);
        go(path, t("cardSaved"));
      },
      field(t("textLines"), text, t("textHint"))
    ),
    make("p", {}, link(path, t("cancel")))
  );
}

// The inputs of a card's fields. `text` gives the card as they have it: what nobody changed keeps
// its bytes.
class EntryForm {
  constructor(lines) {
    this.start = lines;
    this.rows = [];
    this.picture = pictureOf(lines);
    this.place = make("div", { class: "entryform" });
    const fields = fieldsOf(lines);
    for (const property of ORDER) {
      const own = fields.filter((one) => one.property === property);
      const rows = own.map((one) => new Row(property, one));
      if (!own.length && WANTED.includes(property)) rows.push(new Row(property, null));
      if (rows.length || PROPERTIES[property].several) this.addProperty(property, rows);
    }
    this.follow();
  }

  addProperty(property, rows) {
    const group = make("div", { class: "property" }, rows.map((row) => row.element));
    this.rows.push(...rows);
    this.place.append(group);
    if (!PROPERTIES[property].types && !["NOTE", "CATEGORIES", "ROLE"].includes(property)) return;
    if (rows.length && !PROPERTIES[property].types) return;
    group.append(button(t(`add.${property}`), () => {
      const row = new Row(property, null);
      this.rows.push(row);
      group.lastElementChild.before(row.element);
      row.element.querySelector("input, textarea").focus();
    }, { class: "link" }));
  }

  parts() {
    return [this.pictureParts(), this.place];
  }

  focus() {
    this.place.querySelector("input")?.focus();
  }

  // The name that is shown follows the parts of the name where it was made of them.
  follow() {
    const parts = this.rows.find((row) => row.property === "N");
    const full = this.rows.find((row) => row.property === "FN");
    if (!parts || !full) return;
    let made = composed(parts.value());
    parts.element.addEventListener("input", () => {
      const now = composed(parts.value());
      if (full.input.value === made) full.input.value = now;
      made = now;
    });
  }

  pictureParts() {
    const image = make("img", { class: "picture", alt: t("picture"), hidden: !this.picture });
    if (this.picture) image.src = this.picture;
    const input = make("input", { type: "file", accept: "image/*" });
    const away = button(t("takePictureAway"), () => {
      this.picture = null;
      image.hidden = away.hidden = true;
      input.value = "";
    }, { class: "link", hidden: !this.picture });
    input.addEventListener("change", async () => {
      if (!input.files.length) return;
      say(t("pictureReading"));
      const data = await readPicture(input.files[0]);
      say(data ? "" : t("pictureRefused"));
      if (!data) return;
      this.picture = image.src = data;
      image.hidden = away.hidden = false;
    });
    return make("div", { class: "pictureform" }, image, field(t("picture"), input), away);
  }

  text() {
    let lines = this.start;
    for (const row of this.rows) lines = row.applied(lines);
    if (this.picture !== pictureOf(this.start)) lines = withPicture(lines, this.picture);
    return textOf(withName(lines));
  }
}

// A card has a name: without one it is the organisation, a mail address or a number.
function withName(lines) {
  const fields = fieldsOf(lines);
  if (fields.some((one) => one.property === "FN" && !isEmpty(one.value))) return lines;
  const first = ["N", "ORG", "EMAIL", "TEL"].map(
    (property) => fields.find((one) => one.property === property)
  );
  const found = first.find((one) => one && !isEmpty(one.value));
  const own = found?.property === "N" ? composed(found.value) : [found?.value].flat()[0];
  const name = found ? own : "";
  return name ? added(lines.filter((line) => line.name !== "FN"), "FN", name) : lines;
}

// The inputs of one line. `field` is null where there is no line yet.
class Row {
  constructor(property, fieldOfLine) {
    this.property = property;
    this.field = fieldOfLine;
    this.gone = false;
    const known = PROPERTIES[property];
    const empty = {
      parts: Array(known.count ?? 0).fill(""),
      list: [],
      date: { year: null, month: null, day: null, rest: "" }
    };
    const value = fieldOfLine?.value ?? empty[known.kind] ?? "";
    this.types = known.types ? typeChoice(property, fieldOfLine) : null;
    const inputs = {
      parts: () => this.partInputs(value),
      date: () => this.dateInputs(value)
    };
    this.element = inputs[known.kind]?.() ?? this.oneInput(value, known);
    if (this.types || (fieldOfLine && known.several && property !== "ORG")) {
      this.element.append(this.takeAway());
    }
  }

  oneInput(value, known) {
    const shown = Array.isArray(value) ? value.join(", ") : value;
    this.input = LONG.has(this.property)
      ? make("textarea", { rows: "4" })
      : textInput("", { autocomplete: "off" });
    this.input.value = shown;
    this.shown = this.input.value;
    this.value = () => {
      const now = this.input.value;
      if (now === this.shown) return value;
      if (known.kind !== "list") return clean(now);
      return now.split(",").map((word) => word.trim()).filter(Boolean);
    };
    if (["TEL", "EMAIL", "URL"].includes(this.property)) {
      this.input.setAttribute(
        "inputmode", { TEL: "tel", EMAIL: "email", URL: "url" }[this.property]
      );
    }
    return make(
      "div", { class: "line" }, field(t(`field.${this.property}`), this.input), this.typeField()
    );
  }

  partInputs(value) {
    const inputs = [];
    const all = PARTS[this.property].map(([at, width]) => {
      inputs[at] = textInput(value[at] ?? "", { autocomplete: "off" });
      const part = field(t(`part.${this.property}.${at}`), inputs[at]);
      part.classList.add(`w${width}`);
      return [at, part];
    });
    const rare = (at) => RARE[this.property]?.includes(at) && !value[at];
    const usual = all.filter(([at]) => !rare(at)).map(([, part]) => part);
    const seldom = all.filter(([at]) => rare(at)).map(([, part]) => part);
    this.value = () => value.map((old, at) => (inputs[at] ? inputs[at].value : old));
    this.input = inputs[PARTS[this.property][0][0]];
    return make(
      "fieldset", { class: "parts" }, make("legend", {}, t(`field.${this.property}`)),
      make("div", { class: "six" }, usual), this.typeField(),
      seldom.length
        ? make(
            "details", { class: "inner" }, make("summary", {}, t("moreParts")),
            make("div", { class: "six" }, seldom)
          )
        : null
    );
  }

  dateInputs(value) {
    const number = (held, title, most) => textInput(held ?? "", {
      inputmode: "numeric",
      "aria-label": title,
      maxlength: most,
      class: "short",
      placeholder: title
    });
    const [year, day] = [number(value.year, t("year"), 4), number(value.day, t("day"), 2)];
    const form = new Intl.DateTimeFormat(language, { month: "long", timeZone: "UTC" });
    const months = Array.from(
      { length: 12 }, (_, at) => [String(at + 1), form.format(Date.UTC(2000, at, 1))]
    );
    const month = choice(
      [["", t("month")], ...months], String(value.month ?? ""), { "aria-label": t("month") }
    );
    const read = (input) => (/^\d+$/.test(input.value.trim()) ? Number(input.value) : null);
    const date = () =>
      ({ year: read(year), month: read(month), day: read(day), rest: value.rest ?? "" });
    for (const input of [year, day, month]) {
      input.addEventListener(
        "input",
        () => day.setCustomValidity(
          isDate(date()) && (!date().day || date().month || this.field) &&
              (date().year === null || date().month || !date().day)
            ? ""
            : t("noDate")
        )
      );
    }
    this.value = () => (same({ ...value }, { ...date() }) ? value : date());
    this.input = day;
    const inOrder = language === "en" ? [month, day, year] : [day, month, year];
    return make(
      "fieldset", { class: "parts" }, make("legend", {}, t(`field.${this.property}`)),
      make("div", { class: "row" }, inOrder), make("p", { class: "hint" }, t("dateHint"))
    );
  }

  typeField() {
    return this.types ? field(t("kind"), this.types) : null;
  }

  takeAway() {
    return button("×", () => {
      this.gone = true;
      this.element.hidden = true;
    }, {
      class: "away",
      "aria-label": t("takeAway", { what: t(`field.${this.property}`) }),
      title: t("takeAway", { what: t(`field.${this.property}`) })
    });
  }

  // The lines with what these inputs say.
  applied(lines) {
    const value = this.value();
    const types = this.types?.value ? this.types.value.split(",") : [];
    if (!this.field) {
      return this.gone || isEmpty(value) ? lines : added(lines, this.property, value, types);
    }
    if (this.gone || (isEmpty(value) && !isEmpty(this.field.value))) {
      return removed(lines, this.field);
    }
    return changed(lines, this.field, value, this.types ? types : this.field.types);
  }
}

// The types that a line can be given, in words; those that it has stay where they are no usual
// ones.
function typeChoice(property, held) {
  const types =
    held?.types.join(",") ?? { TEL: "work", EMAIL: "work", ADR: "work", URL: "" }[property];
  const words = (key) =>
    key.split(",").map((type) => (has(`type.${type}`) ? t(`type.${type}`) : type)).join(", ");
  const options = [
    ["", held?.label && !types ? held.label : t("noKind")],
    ...PROPERTIES[property].types.map((type) => [type, words(type)])
  ];
  if (types && !options.some(([key]) => key === types)) options.push([types, words(types)]);
  return choice(options, types);
}
