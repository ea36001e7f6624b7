// What is shown for persons, groups and books, as far as the person who is signed in may see it.
import { ask, signedIn, unlessDenied } from "./ask.js";
import { has, t } from "./texts.js";

let people = [];
let groups = [];
let books = [];
const labels = new Map();

export const last = (path) => path.split("/").pop();
export const bookOf = (path) => path.split("/").slice(0, 3).join("/");
export const isCard = (path) => /^\/books\/[^/]+\/[^/]+$/.test(path);
export const isBook = (path) => /^\/books\/[^/]+$/.test(path);
export const isGroupPath = (path) => path.startsWith("/groups/");

// Asks for the names of persons and groups anew.
export async function readNames() {
  const told = await unlessDenied(ask("GET", "/page/names"));
  people = told?.value.people ?? [];
  groups = told?.value.groups ?? [];
  for (const one of [...people, ...groups]) labels.set(one.path, one.label);
}

// Asks for the books anew.
export async function readBooks() {
  const told = (await ask("GET", "/page/books")).value;
  books = told.books;
  for (const book of books) labels.set(book.path, book.label);
  return told;
}

export const knownBooks = () => books;
export const knownPeople = () => people;
export const knownGroups = () => groups;

export function forgetNames() {
  labels.clear();
  people = [];
  groups = [];
  books = [];
}

// What is shown for a path: its label, else its name.
export const nameOf = (path) => labels.get(path) || last(path);

// Whom an entry is for, in words.
export function who(principal) {
  if (has(`principal.${principal}`)) return t(`principal.${principal}`);
  return isGroupPath(principal) ? t("groupNamed", { name: nameOf(principal) }) : nameOf(principal);
}

export const whoOf = (entry) =>
  (entry.invert !== undefined ? t("allBut", { who: who(entry.invert) }) : who(entry.principal));

export const isSelf = (path) => path === `/people/${signedIn.person}`;

// The book of a path where the person may read it; else null.
export const readableBook = (path) =>
  books.find((book) => book.path === bookOf(path) && book.sees === "cards") ?? null;

// Whether the cards of a path's book are read: not where it is known that names alone are seen, or
// nothing.
export function readsCards(path) {
  const sees = books.find((book) => book.path === bookOf(path))?.sees;
  return sees === undefined || sees === "cards";
}
