// Who may do what at a place: sharing, what one person may do, the list in force, and the editor of
// the list that stands there.
import { ask, readList, signedIn, unlessDenied, Refused } from "./ask.js";
import {
  button, checkbox, choice, details, field, form, link, make, say, section, show, tryButton,
} from "./elements.js";
import { isCard, isBook, last, nameOf, who, whoOf } from "./names.js";
import { LEAVES, PRIVILEGES, THREE, closingAt, leavesOf, may, ownOf } from "./rights.js";
import { refusalParts } from "./refusal.js";
import { principalChoice, resultOf, shareForm, written } from "./share.js";
import { same } from "./entry.js";
import { t } from "./texts.js";

const FORMS = ["all", "authenticated", "unauthenticated", "owner", "self"];

// What a place is called.
async function titleOf(path) {
  if (path === "/") return t("wholeOffice");
  if (["/books", "/people", "/groups"].includes(path)) return t(path.slice(1));
  if (!isCard(path)) return nameOf(path);
  const card = await unlessDenied(ask("GET", `/page${path}`));
  const found = /^(?:[\w-]+\.)?FN[^:\n]*:(.*)$/im.exec(card?.value.text ?? "");
  return found?.[1].replace(/\\(.)/g, "$1").trim() || last(path);
}

export async function showAccess(path) {
  const title = t("accessTo", { what: await titleOf(path) });
  const back = make("p", { class: "tools" }, link(path, t("back")), above(path));
  const again = () => showAccess(path);
  let list;
  try {
    list = await readList(path);
  } catch (fault) {
    if (!(fault instanceof Refused)) throw fault;
    show(title, back, make("div", { class: "refusal", id: "cause" }, refusalParts(fault)));
    return;
  }
  const rights =
    await unlessDenied(ask("PROPFIND", path, { prop: ["current-user-privilege-set"] }));
  const place = {
    path,
    may: rights?.value.responses[0].prop["current-user-privilege-set"] ?? null
  };
  const mayShare = may(place, "write-acl");
  back.append(tryButton(place, again) ?? "");
  show(title, back,
    mayShare ? shareForm(path, again) : null,
    effectivePart(path),
    section(t("listInForce"), make("p", { class: "soft" }, t("listOrder")), listTable(path, list)),
    mayShare ? details(t("editList"), editor(path, ownOf(list), again)) : null);
}

// The place above, where a list stands too.
function above(path) {
  const up = path.slice(0, path.lastIndexOf("/")) || "/";
  if (path === "/") return null;
  const what = up === "/" ? t("wholeOffice") : isBook(up) ? nameOf(up) : t(up.slice(1));
  return link(`/access${up}`, t("accessAbove", { what }));
}

function cell(head, ...content) {
  return make("td", { "data-head": head }, ...content);
}

export function tableOf(heads, rows, id, caption) {
  return make(
    "table", { class: "wide", id }, make("caption", { class: "out" }, caption),
    make("thead", {}, make("tr", {}, heads.map((head) => make("th", { scope: "col" }, head)))),
    make("tbody", {}, rows)
  );
}

const wordsOf = (names) => names.map((name) => t(`privilege.${name}`)).join(", ");

function listTable(path, list) {
  const heads = [t("entry"), t("forWhom"), t("says"), t("standsAt")];
  return tableOf(
    heads,
    list.map(
      (entry, at) => make(
        "tr", {}, cell(heads[0], String(at + 1)), cell(heads[1], whoOf(entry)),
        cell(
          heads[2],
          make(
            "span", { class: entry.deny ? "no" : "yes" },
            `${t(entry.deny ? "denies" : "grants")} `
          ),
          wordsOf(entry.grant || entry.deny)
        ),
        cell(heads[3], entry.inherited || path, entry.protected ? ` (${t("protected")})` : "")
      )
    ),
    "list", t("listInForce")
  );
}

// For one person: which entry decides each privilege.
function effectivePart(path) {
  const self = `/people/${signedIn.person}`;
  const whom = principalChoice(self, { id: "person" }, [[self, who(self)]]);
  for (const option of [...(whom.options ?? [])]) {
    if (option.value.startsWith("/groups/")) option.remove();
  }
  const place = make("div", { id: "effective", tabindex: "-1" });
  return section(t("whatOneMay"), form(t("show"), async () => {
    const told = (await ask("REPORT", path, { report: "effective", principal: whom.value })).value;
    const heads = [t("privilege"), t("mayHead"), t("by")];
    place.replaceChildren(tableOf(
      heads,
      told.leaves.map(
        (leaf) => make(
          "tr", {},
          cell(
            heads[0], t(`privilege.${leaf.privilege}`),
            make("span", { class: "soft" }, ` (${leaf.privilege})`)
          ),
          cell(
            heads[1],
            make("span", { class: leaf.grant ? "yes" : "no" }, t(leaf.grant ? "yes" : "no"))
          ),
          cell(heads[2], leaf.entry ? t("entryAt", leaf.entry) : t("byNoEntry"))
        )
      ),
      "leaves", t("whatOneMay")
    ));
    say(t("effectiveShown", { who: who(whom.value) }));
  }, field(t("person"), whom)), place);
}

// The list that stands at the place itself, for who knows lists.
function editor(path, own, again) {
  const rows = make("div", {});
  own.forEach((entry) => rows.append(new EntryRow(rows, entry).element));
  const add = button(t("addEntry"), () => {
    const row = new EntryRow(rows, { principal: "", grant: ["read"] });
    const closing = closingAt([...rows.children].map((element) => element.entry()));
    rows.insertBefore(row.element, rows.children[closing] ?? null);
    row.element.querySelector("select, input").focus();
  });
  return form(t("saveList"), async () => {
    const list = [...rows.children].map((element) => written(element.entry()));
    const fresh =
      list.filter((entry) => entry.principal && !own.some((old) => same(written(old), entry)));
    await ask("ACL", path, { acl: list });
    const told = [];
    for (const entry of fresh) told.push(await resultOf(path, entry));
    await again();
    say(make("p", { class: "first" }, t("listSaved")), ...told);
  }, make("p", { class: "soft" }, t("editorOrder")), rows, make("p", {}, add));
}

// One entry: for whom, whether it grants or denies, and what, in three words or exactly.
class EntryRow {
  constructor(rows, entry) {
    const forms = FORMS.map((name) => [name, t(`principal.${name}`)]);
    this.whom = principalChoice(entry.principal ?? entry.invert ?? "", { class: "whom" }, [
      ...forms, [`/people/${signedIn.person}`, who(`/people/${signedIn.person}`)]
    ]);
    this.invert = checkbox(t("forOthers"), entry.invert !== undefined, { class: "invert" });
    this.action = choice(
      [["grant", t("grants")], ["deny", t("denies")]], entry.deny ? "deny" : "grant",
      { class: "action" }
    );
    this.held = entry.grant || entry.deny;
    this.boxes = PRIVILEGES.map(
      (name) => checkbox(
        `${t(`privilege.${name}`)} (${name})`, this.held.includes(name),
        { value: name, class: "privilege" }
      )
    );
    this.words = Object.keys(THREE).map(
      (word) => checkbox(t(`three.${word}`), false, { value: word, class: "word" })
    );
    this.tellWords();
    for (const box of this.inputs(this.boxes)) {
      box.addEventListener("change", () => this.tellWords());
    }
    for (const box of this.inputs(this.words)) box.addEventListener("change", () => this.take(box));
    this.element = make(
      "fieldset", { class: "box entryrow" }, make("legend", {}, t("entry")),
      make(
        "div", { class: "row" }, field(t("forWhom"), this.whom), field(t("itDoes"), this.action)
      ),
      this.invert,
      make("div", { class: "row", role: "group", "aria-label": t("says") }, this.words),
      make(
        "details", { class: "inner" }, make("summary", {}, t("exactly")),
        make("div", { class: "boxes" }, this.boxes)
      ),
      this.buttons(rows)
    );
    this.element.entry = () => this.entry();
  }

  inputs(labels) {
    return labels.map((label) => label.querySelector("input"));
  }

  names() {
    return this.inputs(this.boxes).filter((box) => box.checked).map((box) => box.value);
  }

  // The three words as the boxes have them: a word whose privileges are there in part is neither.
  tellWords() {
    const leaves = leavesOf(this.names());
    for (const box of this.inputs(this.words)) {
      const own = [...leavesOf(THREE[box.value])];
      box.checked = own.every((leaf) => leaves.has(leaf));
      box.indeterminate = !box.checked && own.some((leaf) => leaves.has(leaf));
    }
  }

  // Takes a word in or out: everything is then spelled out in leaves, but what has a name of its
  // own.
  take(word) {
    const leaves = leavesOf(this.names());
    for (const leaf of leavesOf(THREE[word.value])) leaves[word.checked ? "add" : "delete"](leaf);
    const names = namesOf(leaves);
    for (const box of this.inputs(this.boxes)) box.checked = names.includes(box.value);
    this.tellWords();
  }

  buttons(rows) {
    const move = (up) => {
      const other = up ? this.element.previousElementSibling : this.element.nextElementSibling;
      if (other) other[up ? "before" : "after"](this.element);
      this.element.querySelector(up ? ".up" : ".down").focus();
    };
    return make(
      "p", { class: "row" }, button(t("up"), () => move(true), { class: "link up" }),
      button(t("down"), () => move(false), { class: "link down" }),
      button(
        t("takeEntryAway"),
        () => {
          this.element.remove();
          rows.querySelector("select, input")?.focus();
        },
        { class: "link" }
      )
    );
  }

  entry() {
    return {
      [this.invert.querySelector("input").checked ? "invert" : "principal"]:
        this.whom.value.trim(),
      [this.action.value]: this.names()
    };
  }
}

// The shortest names for a set of leaves.
export function namesOf(leaves) {
  const rest = new Set(leaves);
  const names = [];
  for (const name of ["all", "read", "write"]) {
    const own = [...leavesOf([name])];
    if (own.every((leaf) => rest.has(leaf))) {
      names.push(name);
      own.forEach((leaf) => rest.delete(leaf));
    }
  }
  return [...names, ...LEAVES.filter((leaf) => rest.has(leaf))];
}

