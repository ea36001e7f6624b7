// A card that somebody else changed while it was edited: both texts side by side, field by field.
import { putCard, readCard } from "./ask.js";
import { form, go, link, make, show } from "./elements.js";
import { ORDER, inserted, textOfProperty } from "./entry.js";
import { linesOf, textOf, unescaped } from "./lines.js";
import { has, t } from "./texts.js";

// Properties whose lines differ between two texts, in the order of the fields. Lines of a group's
// name go with their line.
export function differences(mine, theirs) {
  const names = [...new Set([...mine, ...theirs].map((line) => line.name))].filter(
    (name) => name && name !== "X-ABLABEL"
  );
  const bare = (line) => line.raw.replace(/\r?\n[ \t]|\r?\n$/g, "");
  const said = (lines, name) =>
    lines.filter((line) => line.name === name).map(bare).join("\n");
  const place = (name) => (ORDER.indexOf(name) + ORDER.length + 1) % (ORDER.length + 1);
  const differing = names.filter((name) => said(mine, name) !== said(theirs, name));
  return differing.sort((one, other) => place(one) - place(other));
}

// Their lines with mine for some properties.
export function merged(mine, theirs, names) {
  return names.reduce((lines, name) => {
    const at = lines.findIndex((line) => line.name === name);
    const own = mine.filter((line) => line.name === name);
    const groups = new Set(own.map((line) => line.group.toUpperCase()).filter(Boolean));
    const labels =
      mine.filter((line) => line.name === "X-ABLABEL" && groups.has(line.group.toUpperCase()));
    const named = lines.filter((line) => line.name === name);
    const old = new Set(named.map((line) => line.group.toUpperCase()).filter(Boolean));
    const rest = lines.filter(
      (line) => line.name !== name &&
        !(line.name === "X-ABLABEL" &&
          (old.has(line.group.toUpperCase()) || groups.has(line.group.toUpperCase())))
    );
    if (!own.length) return rest;
    if (at < 0) return own.concat(labels).reduce(inserted, rest);
    const start = lines.slice(0, at).filter((line) => rest.includes(line)).length;
    return [...rest.slice(0, start), ...own, ...labels, ...rest.slice(start)];
  }, theirs);
}

export async function showConflict(path, text, base) {
  const card = await readCard(path);
  const [mine, theirs, before] = [linesOf(text), linesOf(card.text), linesOf(base)];
  const names = differences(mine, theirs);
  const changedByMe = new Set(differences(mine, before));
  const rows = names.map((name) => new Choice(name, mine, theirs, changedByMe.has(name)));
  show(
    t("conflictOf", { name: textOfProperty(theirs, "FN") }), make("p", {}, t("conflictMore")),
    form(
      t("saveChoice"),
      async () => {
        await putCard(
          path,
          textOf(
            merged(mine, theirs, rows.filter((row) => row.takesMine()).map((row) => row.name))
          ),
          card.tag
        );
        go(path, t("cardSaved"));
      },
      rows.map((row) => row.element)
    ),
    make("p", {}, link(path, t("cancel")))
  );
}

class Choice {
  constructor(name, mine, theirs, takesMine) {
    this.name = name;
    const shown = (line) =>
      (line.value.startsWith("data:") ? t("picture") : unescaped(line.value).replace(/;/g, " "));
    const said = (lines) =>
      lines.filter((line) => line.name === name).map(shown).join("\n") || t("nothing");
    const one = (title, lines, checked) => {
      const input = make("input", { type: "radio", name: `choice-${name}`, checked });
      return [
        input,
        make(
          "label", { class: "side" }, input,
          make(
            "span", {}, make("strong", {}, title), make("span", { class: "value" }, said(lines))
          )
        )
      ];
    };
    const [input, left] = one(t("yours"), mine, takesMine);
    const [, right] = one(t("theirs"), theirs, !takesMine);
    this.takesMine = () => input.checked;
    this.element = make(
      "fieldset", { class: "sides" },
      make("legend", {}, has(`field.${name}`) ? t(`field.${name}`) : name), left, right
    );
  }
}
