// Cards that are moved, copied, removed, put back and exported: one, or several that are chosen.
import { Refused, ask, putNewCard, readCard, removeCard } from "./ask.js";
import { ask as dialogOf, button, choice, field, go, make, say } from "./elements.js";
import { knownBooks, last, nameOf } from "./names.js";
import { shortWords, showFault } from "./refusal.js";
import { may } from "./rights.js";
import { t } from "./texts.js";

// The buttons for some cards of a book. With `one` they are those of a single card's view.
export function selectionTools(path, book, cards, { one = false } = {}) {
  const others = knownBooks().filter(
    (other) => other.path !== path && other.sees !== "names" && may(other, "bind")
  );
  const style = { class: one ? "link" : "" };
  return [
    others.length && may(book, "unbind")
      ? button(t("move"), () => transfer("MOVE", path, cards, others, one), style)
      : null,
    others.length
      ? button(t("copy"), () => transfer("COPY", path, cards, others, one), style)
      : null,
    button(t("export"), () => exportCards(path, cards.map((card) => last(card.path))), style),
    may(book, "unbind") ? button(t("remove"), () => removeAll(path, cards, one), style) : null,
  ].filter(Boolean);
}

// Does something with each card; those that were refused, with the cause.
async function each(cards, work) {
  const refused = [];
  for (const card of cards) {
    try {
      await work(card);
    } catch (fault) {
      if (!(fault instanceof Refused)) throw fault;
      refused.push({ card, fault });
    }
  }
  return refused;
}

async function transfer(method, path, cards, books, one) {
  const target = choice(books.map((book) => [book.path, nameOf(book.path)]), books[0].path);
  const wanted = await dialogOf(
    t(method === "MOVE" ? "moveTo" : "copyTo", { count: cards.length }),
    [
      field(t("book"), target),
      make("p", { class: "soft" }, t(method === "MOVE" ? "moveKeeps" : "copyOwns"))
    ],
    t(method === "MOVE" ? "move" : "copy"), () => target.value
  );
  if (!wanted) return;
  const refused = await each(cards, (card) => {
    const fields = { Destination: `${wanted}/${last(card.path)}`, Overwrite: "F" };
    return ask(method, `/page${card.path}`, undefined, fields);
  });
  if (one && refused.length) throw refused[0].fault;
  const here = method === "MOVE" || !one ? path : cards[0].path;
  go(
    here,
    ...doneParts(
      t(method === "MOVE" ? "moved" : "copied",
        { count: cards.length - refused.length, book: nameOf(wanted) }),
      refused
    )
  );
}

// What was done, and each card with which it was not.
function doneParts(done, refused, ...more) {
  return [
    make("p", { class: "first" }, done), ...more,
    refused.length
      ? make(
          "ul", { class: "plain" },
          refused.map(
            ({ card, fault }) =>
              make("li", {}, `${card.name || last(card.path)}: ${shortWords(fault)}`)
          )
        )
      : null
  ];
}

async function removeAll(path, cards, one) {
  const sure = await dialogOf(
    t("removeSure", { count: cards.length, name: cards[0].name || last(cards[0].path) }),
    [make("p", { class: "soft" }, t("removeList"))], t("remove"), () => true
  );
  if (!sure) return;
  const texts = new Map();
  const refused = await each(cards, async (card) => {
    const held = await readCard(card.path);
    await removeCard(card.path, card.tag ?? held.tag);
    texts.set(card.path, held.text);
  });
  if (one && refused.length) throw refused[0].fault;
  go(
    path,
    ...doneParts(
      t("removed", { count: texts.size }), refused, texts.size ? putBackPart(path, texts) : null
    )
  );
}

// A button that puts removed cards back: their texts, for their owner and list are gone.
function putBackPart(path, texts) {
  const put = button(t("putBack"), async () => {
    const cards = [...texts].map(([path, text]) => ({ path, name: "", text }));
    const refused = await each(cards, (card) => putNewCard(card.path, card.text));
    go(path, ...doneParts(t("putBackDone", { count: cards.length - refused.length }), refused));
  });
  return make("p", {}, put, " ", make("span", { class: "soft" }, t("putBackOnly")));
}

// Gives the browser a file of cards to keep: all of a book, or those that are named.
export async function exportCards(path, names) {
  try {
    const { value } = await ask("POST", "/page/export", { path, names });
    const address = URL.createObjectURL(new Blob([value], { type: "text/vcard" }));
    const anchor = make(
      "a", { href: address, download: `${names.length === 1 ? names[0] : `${last(path)}.vcf`}` }
    );
    anchor.click();
    setTimeout(() => URL.revokeObjectURL(address), 10_000);
    say(t("exported"));
  } catch (fault) {
    if (!showFault(fault)) throw fault;
  }
}
