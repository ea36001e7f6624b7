// A group of cards (RFC 6350, KIND:group), made by picking cards of its book.
import { ask, putCard, putNewCard, readCard } from "./ask.js";
import { button, field, form, go, link, make, show, textInput } from "./elements.js";
import {
  added, changed, fieldsOf, memberUri, membersOf, newCard, newUuid, textOfProperty, withMembers,
} from "./entry.js";
import { linesOf, textOf } from "./lines.js";
import { last, nameOf } from "./names.js";
import { t } from "./texts.js";

// The form of a new group, or of the one at a path.
export async function showGroupForm(book, path) {
  const card = path ? await readCard(path) : null;
  const uid = newUuid();
  const lines = linesOf(card ? card.text : newCard(uid, { kind: "group" }));
  const name = textInput(textOfProperty(lines, "FN"), { required: true, autocomplete: "off" });
  const picker = new Picker(book, lines, card?.names ?? {});
  show(
    path
      ? t("editOf", { name: name.value || last(path) })
      : t("newGroupIn", { book: nameOf(book) }),
    form(
      t(path ? "save" : "makeGroup"),
      async () => {
        const text = textOf(withMembers(named(lines, name.value), picker.members()));
        const target = path ?? `${book}/${uid}.vcf`;
        if (!path) await putNewCard(target, text);
        else if (text !== card.text) await putCard(target, text, card.tag);
        go(target, path ? t("cardSaved") : "");
      },
      field(t("groupName"), name), picker.parts()
    ),
    make("p", {}, link(path ?? book, t("cancel")))
  );
  name.focus();
}

function named(lines, name) {
  const held = fieldsOf(lines).find((one) => one.property === "FN");
  return held ? changed(lines, held, name) : added(lines, "FN", name);
}

// The members, and a search for more.
class Picker {
  constructor(book, lines, names) {
    this.book = book;
    this.chosen = new Map(membersOf(lines).map((uri) => [uri, names[uri]?.name || uri]));
    this.list = make("ul", { class: "rows", id: "members" });
    this.found = make("ul", { class: "rows", id: "candidates" });
    this.find = textInput("", { type: "search", autocomplete: "off" });
    let wait = 0;
    this.find.addEventListener("input", () => {
      clearTimeout(wait);
      wait = setTimeout(() => this.search(), 150);
    });
    this.find.addEventListener("keydown", (event) => {
      if (event.key !== "Enter") return;
      event.preventDefault();
      this.found.querySelector("button")?.click();
    });
    this.tell();
  }

  members() {
    return [...this.chosen.keys()];
  }

  parts() {
    return [make(
      "fieldset", {}, make("legend", {}, t("members")), this.list,
      field(t("findMember"), this.find, t("findMemberHint")), this.found
    )];
  }

  tell() {
    this.list.replaceChildren(...[...this.chosen].map(
      ([uri, name]) => make(
        "li", {}, make("span", { class: "title" }, name),
        button(
          "×",
          () => {
            this.chosen.delete(uri);
            this.tell();
            this.find.focus();
          },
          {
            class: "away",
            "aria-label": t("takeAway", { what: name }),
            title: t("takeAway", { what: name })
          }
        )
      )
    ));
  }

  async search() {
    if (!this.find.value.trim()) {
      this.found.replaceChildren();
      return;
    }
    const words = this.find.value;
    const { value } = await ask("POST", "/page/members", { path: this.book, words });
    if (words !== this.find.value) return;
    this.found.replaceChildren(...value.rows
                                 .filter((row) => !this.chosen.has(memberUri(row.uid)))
                                 .slice(0, 8)
                                 .map(
                                   (row) => make(
                                     "li", {},
                                     button(
                                       t("addOne", { name: row.name || last(row.path) }),
                                       () => {
                                         this.chosen.set(memberUri(row.uid), row.name);
                                         this.find.value = "";
                                         this.found.replaceChildren();
                                         this.tell();
                                         this.find.focus();
                                       },
                                       { class: "link" }
                                     ),
                                     make("span", { class: "soft" }, row.organisation)
                                   )
                                 ));
  }
}
