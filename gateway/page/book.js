// A book: its cards in slices, sorted and filtered; what may be done with some of them; and the
// cards that are denied.
import { ask, saveLabel } from "./ask.js";
import {
  button, checkbox, choice, details, field, form, link, make, say, section, show, textInput,
  tryButton,
} from "./elements.js";
import { nameOf, readBooks, who, isSelf } from "./names.js";
import { firstWords, moreWords } from "./refusal.js";
import { may } from "./rights.js";
import { t } from "./texts.js";
import { exportCards, selectionTools } from "./transfer.js";

const SLICE = 100;
let order = "family";

const slice = (path, start, words = "", count = SLICE) =>
  ask("POST", "/page/book", { path, order, start, count, words }).then((reply) => reply.value);

export async function showBook(path) {
  const book = await slice(path, 0);
  const list = new CardList(path, book);
  const tools = [
    may(book, "bind") ? link(`/new${path}`, t("newCard")) : null,
    may(book, "bind") && book.sees === "cards" ? link(`/newgroup${path}`, t("newGroup")) : null,
    may(book, "bind") ? link(`/import${path}`, t("import")) : null,
    book.sees === "cards" && book.cards
      ? button(t("export"), () => exportCards(path, []), { class: "link" })
      : null,
    book.sees === "cards"
      ? link(`/access${path}`, may(book, "write-acl") ? t("shareAndAccess") : t("access"))
      : null,
    book.sees === "cards" ? tryButton(book, () => showBook(path)) : null,
  ].filter(Boolean);
  const owner = book.owner
    ? (isSelf(book.owner) ? t("yourBook") : t("ofOwner", { who: who(book.owner) }))
    : "";
  const notes = [
    owner, t("cardCount", { count: book.cards }), book.sees === "names" ? t("namesOnly") : ""
  ];
  show(
    book.label || nameOf(path),
    make("p", { class: "soft" }, notes.filter(Boolean).join(" · ")),
    tools.length ? make("p", { class: "tools" }, tools) : null,
    book.cards ? list.parts() : make("p", { class: "empty" }, t("noCard")),
    make("div", { id: "denied" }), may(book, "write-properties") ? labelForm(path, book) : null
  );
  if (book.sees === "cards") showDenied(path);
}

function labelForm(path, book) {
  const label = textInput(book.label, { maxlength: "256" });
  return details(t("renameBook"), form(t("save"), async () => {
    await saveLabel(path, label.value);
    await readBooks();
    await showBook(path);
    say(t("labelSaved"));
  }, field(t("bookName"), label)));
}

// The cards that may not be read: each by its name in the book, with the cause.
async function showDenied(path) {
  const none = { value: { denied: [] } };
  const { denied } = (await ask("GET", `/page${path}`).catch(() => none)).value;
  const place = document.getElementById("denied");
  if (!denied.length || !place) return;
  const rows = denied.slice(0, SLICE).map((one) => make("li", {}, make(
    "div", {}, make("strong", {}, one.path.split("/").pop()),
    make("p", { class: "soft" }, firstWords(one.denial)), moreWords(one.denial)
  )));
  place.replaceChildren(
    section(t("deniedCards", { count: denied.length }), make("ul", { class: "rows" }, rows))
  );
}

// The rows of a book. More are asked for as the end comes into view.
class CardList {
  constructor(path, book) {
    this.path = path;
    this.book = book;
    this.total = book.total;
    this.words = "";
    this.shown = 0;
    this.chosen = new Map();
    this.turn = 0;
    this.list = make("ul", { class: "rows cards", id: "cards" });
    this.count = make("p", { class: "soft", role: "status", id: "count" });
    this.end = make("div", { class: "end" });
    this.bar = make("div", { class: "bar", hidden: true });
    this.add(book.rows);
    new IntersectionObserver((seen) => {
      if (seen.some((one) => one.isIntersecting)) this.more();
    }, { rootMargin: "600px" }).observe(this.end);
  }

  parts() {
    const find = textInput(
      "",
      { type: "search", "aria-label": t("filter"), placeholder: t("filter"), autocomplete: "off" }
    );
    let wait = 0;
    find.addEventListener("input", () => {
      clearTimeout(wait);
      wait = setTimeout(() => this.again(find.value), 150);
    });
    const sort = choice(
      [["family", t("byName")], ["organisation", t("byOrganisation")]], order,
      { "aria-label": t("sortedBy") }
    );
    sort.addEventListener("change", () => { order = sort.value; this.again(find.value); });
    const picks =
      this.book.sees === "cards" ? checkbox(t("select"), false, { id: "select" }) : null;
    picks?.addEventListener("change", () => this.picking(picks.querySelector("input").checked));
    return [
      make("div", { class: "filter" }, find, sort, picks), this.bar, this.count, this.list,
      this.end
    ];
  }

  picking(on) {
    this.list.classList.toggle("picking", on);
    if (on) return this.tell();
    for (const box of this.list.querySelectorAll("input")) box.checked = false;
    this.chosen.clear();
    this.bar.hidden = true;
    return undefined;
  }

  tell() {
    this.bar.hidden = false;
    const { chosen, path, book } = this;
    this.bar.replaceChildren(make("span", { role: "status" }, t("chosen", { count: chosen.size })),
      ...(chosen.size ? selectionTools(path, book, [...chosen.values()]) : []));
  }

  row(card) {
    const name = card.name || card.path.split("/").pop();
    const box = make("input", {
      type: "checkbox",
      class: "pick",
      "aria-label": t("pick", { name }),
      onchange: () => {
        if (box.checked) this.chosen.set(card.path, card);
        else this.chosen.delete(card.path);
        this.tell();
      }
    });
    const title =
      this.book.sees === "cards" ? link(card.path, name) : make("span", { class: "name" }, name);
    const all = [
      card.organisation !== name ? card.organisation : "", card.label,
      card.group ? t("isGroup") : ""
    ];
    const notes = all.filter(Boolean).join(" · ");
    return make(
      "li", {}, this.book.sees === "cards" ? box : null,
      make(
        "span", { class: "title" }, title, notes ? make("span", { class: "soft" }, notes) : null
      ),
      make("span", { class: "soft reach" }, card.phone || card.mail)
    );
  }

  add(rows) {
    this.list.append(...rows.map((card) => this.row(card)));
    this.shown += rows.length;
  }

  async more() {
    if (this.shown >= this.total || this.asking || !this.end.isConnected) return;
    this.asking = true;
    const turn = this.turn;
    try {
      const told = await slice(this.path, this.shown, this.words);
      if (turn === this.turn) {
        this.total = told.total;
        this.add(told.rows);
        if (!told.rows.length) this.total = this.shown;
      }
    } finally {
      this.asking = false;
    }
    if (this.end.getBoundingClientRect().top < window.innerHeight + 600) this.more();
  }

  async again(words) {
    const turn = ++this.turn;
    const told = await slice(this.path, 0, words);
    if (turn !== this.turn) return;
    this.words = words;
    this.total = told.total;
    this.shown = 0;
    this.list.replaceChildren();
    this.add(told.rows);
    this.count.textContent = words.trim() ? t("found", { count: told.total }) : "";
  }
}

