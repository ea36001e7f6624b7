// A refusal in a person's words first; below it, smaller, the privilege, the place, and the entry
// that denies.
import { Gone, Refused, readList, unlessDenied } from "./ask.js";
import { complain, handleFaults, make } from "./elements.js";
import {
  bookOf, isCard, isBook, isSelf, isGroupPath, nameOf, readableBook, who, whoOf,
} from "./names.js";
import { learnRefusal } from "./rights.js";
import { has, t } from "./texts.js";

function kindOf(path) {
  if (isCard(path)) return "card";
  if (isBook(path)) return "book";
  if (path === "/books") return "books";
  return isGroupPath(path) ? "group" : "place";
}

// What is denied, in one sentence.
function deniedSentence(detail) {
  const key = `denied.${detail.privilege}.${kindOf(detail.resource)}`;
  if (has(key)) return t(key);
  return t("denied.other", { what: t(`privilege.${detail.privilege}`) });
}

// Who owns the book, where the person may read it; else nothing.
function ownerSentence(resource) {
  const book = resource.startsWith("/books/") ? readableBook(bookOf(resource)) : null;
  return book?.owner && !isSelf(book.owner) ? ` ${t("ownsBook", { who: who(book.owner) })}` : "";
}

// The first sentence of a refusal.
export function firstWords(detail, method = "") {
  if (detail.privilege) return deniedSentence(detail) + ownerSentence(detail.resource);
  if (detail.error === "bad-card") {
    const fault = has(`fault.${detail.fault}`) ? t(`fault.${detail.fault}`) : t("fault.other");
    return detail.line ? t("badLine", { line: detail.line, fault }) : t("badCard", { fault });
  }
  if (detail.error === "precondition" && method === "PUT") return t("error.precondition");
  return has(`error.${detail.error}`) ? t(`error.${detail.error}`) : t("error.other");
}

// The smaller words of a denial: an element that is filled as soon as it is known what may be told.
export function moreWords(detail) {
  if (!detail.privilege) return null;
  const wanted = t("wanted", {
    what: t(`privilege.${detail.privilege}`),
    privilege: detail.privilege,
    place: detail.resource
  });
  const place = make("p", { class: "cause" }, `${wanted} ${entrySentence(detail)}`);
  if (detail.entry) {
    unlessDenied(readList(detail.resource)).then((list) => {
      const entry = list?.[detail.entry.number - 1];
      if (entry) place.textContent = `${wanted} ${knownEntry(detail, list, entry)}`;
    }, () => null);
  }
  return place;
}

// The entry as the denial itself names it: a list that the person may not read is not spelled out.
function entrySentence(detail) {
  if (!detail.entry) return t("noEntry");
  return t("entryOf", { number: detail.entry.number, from: detail.entry.from });
}

// The entry as the list has it, which the person may read: own or protected, and its number at its
// place.
export function knownEntry(detail, list, entry) {
  const from = entry.inherited || detail.resource;
  const same = (one) => (one.inherited || detail.resource) === from &&
    Boolean(one.protected) === Boolean(entry.protected);
  const number = list.slice(0, detail.entry.number).filter(same).length;
  const words = {
    number,
    from,
    who: whoOf(entry),
    names: (entry.deny || entry.grant).map((name) => t(`privilege.${name}`)).join(", ")
  };
  return t(entry.protected ? "entryProtected" : "entryOwn", words);
}

// The elements that show a refusal in a view.
export function refusalParts(fault) {
  return [
    make("p", { class: "first" }, firstWords(fault.detail, fault.method)), moreWords(fault.detail)
  ].filter(Boolean);
}

// Shows the fault of some work in the live region; whether it is one that is known.
export function showFault(fault) {
  if (fault instanceof Gone) return true;
  if (!(fault instanceof Refused)) return false;
  learnRefusal(fault.detail);
  complain(...refusalParts(fault));
  return true;
}

handleFaults(showFault);

// Short words for a refusal in a list of several.
export const shortWords = (fault) => firstWords(fault.detail, fault.method);

export const shownName = (path, name) => name || nameOf(path);
