// A file of cards is imported: first it is told what would be done with each card, and then it is
// done.
import { ask, Refused } from "./ask.js";
import { button, checkbox, field, go, link, make, say, section, show } from "./elements.js";
import { nameOf, readsCards } from "./names.js";
import { firstWords, shortWords } from "./refusal.js";
import { linesOf, sizeOf, textOf } from "./lines.js";
import { t } from "./texts.js";

// Bytes of cards in a request for a preview, cards that are put at the same time, and rows that are
// shown.
const BATCH = 120_000;
// Characters of a card above which its picture counts as large.
const LARGE = 60_000;
const TOGETHER = 4;
const SHOWN = 100;

// The cards of a file, each from its BEGIN to its END; what stands between them is a card of its
// own, which is refused.
export function cardsIn(text) {
  const cards = [];
  let kept = "";
  let depth = 0;
  const close = () => {
    if (kept.trim()) cards.push(kept);
    kept = "";
  };
  for (const line of text.replace(/^\ufeff/, "").match(/[^\n]*\n|[^\n]+$/g) || []) {
    const word = line.trim().toUpperCase();
    if (word === "BEGIN:VCARD" && depth++ === 0) close();
    kept += line;
    if (word === "END:VCARD" && depth > 0 && --depth === 0) close();
  }
  close();
  return cards;
}

// The text of a file: UTF-8, else as old programs of Windows wrote it.
async function textOfFile(file) {
  const bytes = await file.arrayBuffer();
  try {
    return new TextDecoder("utf-8", { fatal: true }).decode(bytes);
  } catch {
    return new TextDecoder("windows-1252").decode(bytes);
  }
}

export async function showImport(path) {
  const input = make("input", { type: "file", accept: ".vcf,.vcard,text/vcard,text/x-vcard" });
  const place = make("div", { id: "preview" });
  input.addEventListener("change", async () => {
    if (!input.files.length) return;
    say(t("fileReading"));
    place.replaceChildren();
    const cards = cardsIn(await textOfFile(input.files[0]));
    const told = await previewOf(path, cards);
    say();
    place.replaceChildren(...previewParts(path, cards, told));
    place.querySelector("h2")?.scrollIntoView({ block: "nearest" });
  });
  show(
    t("importInto", { book: nameOf(path) }),
    make("p", { class: "tools" }, link(path, t("backToBook", { book: nameOf(path) }))),
    field(t("fileOfCards"), input, t("fileHint")), place
  );
}

// What would be done with each card. Of a large one its picture is not sent: it is made smaller as
// the card is put.
async function previewOf(path, cards) {
  const told = [];
  let batch = [];
  let size = 0;
  const send = async () => {
    if (batch.length) {
      told.push(...(await ask("POST", "/page/preview", { path, texts: batch })).value.cards);
    }
    batch = [];
    size = 0;
  };
  for (const card of cards) {
    const text = card.length > LARGE ? withoutPicture(card) : card;
    const bytes = sizeOf(JSON.stringify(text));
    if (size + bytes > BATCH) await send();
    batch.push(text.slice(0, 2 * BATCH));
    size += bytes;
  }
  await send();
  return told.map((one, at) => {
    const isLarge = cards[at].length > LARGE && one.state !== "refused";
    return isLarge ? { ...one, notes: [...one.notes, t("photoSmaller")] } : one;
  });
}

function withoutPicture(card) {
  return textOf(linesOf(card).filter((line) => line.name !== "PHOTO"));
}

function previewParts(path, cards, told) {
  const count = (state) => told.filter((one) => one.state === state).length;
  const states = ["new", "other", "same", "refused"].filter(count);
  const lines = states.map(
    (state) => make("li", {}, t(`import.${state}`, { count: count(state) }))
  );
  const replace = checkbox(t("replaceOthers"), false, { id: "replace" });
  const rows =
    told.map((one, at) => ({ ...one, text: cards[at] })).filter((one) => one.state !== "same");
  const start = button(t("importNow"), async () => {
    start.disabled = true;
    await importAll(
      path,
      rows.filter(
        (one) => one.state === "new" ||
          (one.state === "other" && replace.querySelector("input").checked)
      ),
      rows.filter((one) => one.state === "refused")
    );
  }, { class: "main" });
  return [section(
    t("preview"),
    cards.length
      ? make("ul", { class: "plain", id: "counts" }, lines)
      : make("p", {}, t("noCardInFile")),
    count("other") ? make("p", {}, replace) : null,
    count("new") + count("other") ? make("p", {}, start) : null,
    make(
      "ul", { class: "rows", id: "imported" },
      rows.slice(0, SHOWN).map(
        (one) => make(
          "li", {},
          make(
            "span", { class: "title" }, one.name || t("noName"),
            make("span", { class: "soft" }, stateWords(one))
          )
        )
      )
    ),
    rows.length > SHOWN ? make("p", { class: "soft" }, t("firstOf", { count: SHOWN })) : null
  )];
}

function stateWords(one) {
  if (one.state === "refused") {
    return firstWords({ error: "bad-card", fault: one.fault, line: one.line });
  }
  return [t(`state.${one.state}`), ...one.notes].join(" · ");
}

// Puts cards, some at the same time, and tells how far it is.
async function importAll(path, rows, refusedBefore) {
  const refused = refusedBefore.map((one) => ({ ...one, cause: stateWords(one) }));
  let done = 0;
  let next = 0;
  const work = async () => {
    while (next < rows.length) {
      const one = rows[next++];
      try {
        const fresh = readsCards(path) ? { "If-None-Match": "*" } : {};
        const condition = one.state !== "new" ? { "If-Match": one.tag } : fresh;
        await ask(
          "PUT", `/dav${one.path}`, one.text,
          { "Content-Type": "text/vcard; charset=utf-8", ...condition }
        );
        done += 1;
      } catch (fault) {
        if (!(fault instanceof Refused)) throw fault;
        refused.push({ ...one, cause: shortWords(fault) });
      }
      if ((done + refused.length) % 25 === 0) {
        say(t("importedSoFar", { count: done, all: rows.length }));
      }
    }
  };
  await Promise.all(Array.from({ length: TOGETHER }, work));
  go(
    path, make("p", { class: "first" }, t("importedCount", { count: done })),
    ...refusedParts(refused)
  );
}

function refusedParts(refused) {
  if (!refused.length) return [];
  const address =
    URL.createObjectURL(new Blob(refused.map((one) => one.text), { type: "text/vcard" }));
  return [
    make(
      "p", {}, t("refusedCount", { count: refused.length }), " ",
      make("a", { href: address, download: "refused.vcf" }, t("refusedFile"))
    ),
    make("ul", { class: "plain" }, refused.slice(0, SHOWN).map(
      (one) => make("li", {}, `${one.name || t("noName")}: ${one.cause}`)
    ))
  ];
}
