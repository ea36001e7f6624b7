// The books that one may use, and new ones.
import { ask, saveLabel, signedIn, unlessDenied } from "./ask.js";
import {
  details, field, form, go, link, make, section, show, textInput, tryButton,
} from "./elements.js";
import { newUuid } from "./entry.js";
import { isSelf, last, nameOf, readBooks, who } from "./names.js";
import { may } from "./rights.js";
import { t } from "./texts.js";

export async function showBooks() {
  const told = await readBooks();
  const place = { path: "/books", may: told.may };
  const books =
    [...told.books].sort((one, other) => nameOf(one.path).localeCompare(nameOf(other.path)));
  show(
    t("books"),
    books.length ? make("ul", { class: "rows", id: "books" }, books.map(bookRow)) : null,
    told.shared.length ? section(t("sharedWithYou"), sharedCards(told.shared)) : null,
    books.length || told.shared.length ? null : noBook(),
    may(place, "bind") ? newBook() : null,
    told.books.length ? tryButton(place, showBooks) : null
  );
}

function sharedCards(cards) {
  return make("ul", { class: "rows", id: "sharedcards" }, cards.map((card) => make(
    "li", {}, link(card.path, card.name || last(card.path)),
    make("span", { class: "soft" }, card.organisation)
  )));
}

function bookRow(book) {
  const notes = [];
  if (book.sees === "names") notes.push(t("namesOnly"));
  else if (book.sees === "nothing") notes.push(t("addOnly"));
  else if (book.owner) {
    notes.push(isSelf(book.owner) ? t("yourBook") : t("ofOwner", { who: who(book.owner) }));
  }
  return make(
    "li", {}, link(book.path, nameOf(book.path)), make("span", { class: "soft" }, notes.join(" "))
  );
}

function noBook() {
  return make(
    "div", { class: "empty", id: "nobook" }, make("p", {}, t("noBook")),
    make("p", {}, signedIn.ask ? t("noBookAskWhom", { who: signedIn.ask }) : t("noBookAsk"))
  );
}

// A name of the server that a title makes; a random one where it makes none.
function nameFrom(title) {
  const plain =
    title.normalize("NFKD").replace(/[\u0300-\u036f]/g, "").replace(/ß/g, "ss").toLowerCase();
  return plain.replace(/[^a-z0-9]+/g, "-").replace(/^-+|-+$/g, "").slice(0, 60) || newUuid();
}

function newBook() {
  const title = textInput("", { maxlength: "120", required: true });
  return details(t("newBook"), form(t("makeBook"), async () => {
    const path = `/books/${nameFrom(title.value)}`;
    await ask("MKCOL", path);
    await unlessDenied(saveLabel(path, title.value.trim()));
    await readBooks();
    go(path);
  }, field(t("bookName"), title)));
}
