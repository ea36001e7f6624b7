// The page of the office. It asks the gateway in JSON, and the server decides every right. Here it
// begins, and an address becomes a view.
import { Gone, Refused, ask, nextVisit, signedIn } from "./ask.js";
import { guarded, link, main, make, say, sayPending, show } from "./elements.js";
import { forgetNames, nameOf, readBooks, readNames } from "./names.js";
import { forgetRefusals, learnRefusal } from "./rights.js";
import { refusalParts, showFault } from "./refusal.js";
import { chooseLanguage, t } from "./texts.js";
import { showAccess } from "./access.js";
import { showAccount } from "./account.js";
import { showBook } from "./book.js";
import { showBooks } from "./books.js";
import { showCard } from "./card.js";
import { showEdit, showNewCard, showText } from "./card_form.js";
import { showGroupForm } from "./group_form.js";
import { showImport } from "./import.js";
import { showHome, showPrincipal } from "./people.js";
import { showSearch, startSearch } from "./search.js";
import { showSignIn } from "./sign_in.js";

const nav = document.getElementById("nav");
const VIEWS = [
  [/^\/$/, showBooks],
  [/^\/search$/, () => showSearch()],
  [/^\/account$/, () => showAccount()],
  [/^\/people$/, () => showHome("/people")],
  [/^\/groups$/, () => showHome("/groups")],
  [/^\/(?:people|groups)\/[^/]+$/, (path) => showPrincipal(path)],
  [/^\/access(\/.*)$/, (_, path) => showAccess(path)],
  [/^\/import(\/books\/[^/]+)$/, (_, path) => showImport(path)],
  [/^\/new(\/books\/[^/]+)$/, (_, path) => showNewCard(path)],
  [/^\/newgroup(\/books\/[^/]+)$/, (_, path) => showGroupForm(path, null)],
  [/^\/edit(\/books\/[^/]+\/[^/]+)$/, (_, path) => showEdit(path)],
  [/^\/text(\/books\/[^/]+\/[^/]+)$/, (_, path) => showText(path)],
  [
    /^\/members(\/books\/[^/]+)\/([^/]+)$/,
    (_, book, name) => showGroupForm(book, `${book}/${name}`)
  ],
  [/^\/books\/[^/]+$/, (path) => showBook(path)],
  [/^\/books\/[^/]+\/[^/]+$/, (path) => showCard(path)],
];

// Shows the view of the address. Until it is there the view is marked as busy.
async function route() {
  if (signedIn.person === null) return;
  nextVisit();
  const path = decodeURIComponent(location.hash.slice(1)) || "/";
  mark(path);
  main.setAttribute("aria-busy", "true");
  main.dataset.view = "";
  if (!(await viewed(path))) return;
  main.removeAttribute("aria-busy");
  main.dataset.view = path;
}

// Shows the view of a path, or why it is not shown; whether it is the one that is wanted still.
async function viewed(path) {
  try {
    for (const [form, view] of VIEWS) {
      const found = form.exec(path);
      if (found) {
        await view(...(found.length > 1 ? found : [path]));
        return true;
      }
    }
    throw new Refused(404, { error: "not-found" });
  } catch (fault) {
    if (fault instanceof Gone || signedIn.person === null) return false;
    if (!(fault instanceof Refused)) throw fault;
    learnRefusal(fault.detail);
    show(
      t("notShown"), make("div", { class: "refusal", id: "cause" }, refusalParts(fault)),
      make("p", {}, link("/", t("books")))
    );
    return true;
  }
}

// Marks the part of the office that is shown.
function mark(path) {
  const part = /^\/(people|groups)/.exec(path)?.[1] ??
    (path === "/account" || path === "/search" ? "" : "");
  for (const one of nav.querySelectorAll("nav a")) {
    const own = one.getAttribute("href").slice(2);
    if (own === part && (own || /^\/(books|edit|text|new|newgroup|members|import|$)/.test(path))) {
      one.setAttribute("aria-current", "page");
    } else one.removeAttribute("aria-current");
  }
}

// After signing in: who it is, and what is needed for every view.
async function begin() {
  Object.assign(signedIn, (await ask("GET", "/page/session")).value);
  const showsBooks = ["", "#", "#/"].includes(location.hash);
  await Promise.all([readNames(), showsBooks ? null : readBooks()]);
  document.getElementById("who").textContent = nameOf(`/people/${signedIn.person}`);
  document.getElementById("out").hidden = signedIn.named;
  nav.hidden = false;
  await route();
}

function end() {
  Object.assign(signedIn, { person: null, login: null });
  nextVisit();
  forgetNames();
  forgetRefusals();
  nav.hidden = true;
  say();
  showSignIn(begin);
}

function writeHeader() {
  for (const element of document.querySelectorAll("[data-text]")) {
    element.textContent = t(element.dataset.text);
  }
  for (const element of document.querySelectorAll("[data-label]")) {
    element.setAttribute("aria-label", t(element.dataset.label));
  }
  document.getElementById("find").placeholder = t("searchHint");
}

async function start() {
  await chooseLanguage();
  writeHeader();
  startSearch();
  window.addEventListener("hashchange", () => {
    if (location.hash === "#main") return;
    sayPending();
    route();
  });
  window.addEventListener("signedout", end);
  window.addEventListener("unhandledrejection", (event) => {
    if (showFault(event.reason)) event.preventDefault();
  });
  document.getElementById("out").addEventListener("click", guarded(async () => {
    await ask("DELETE", "/page/session");
    end();
  }));
  document.querySelector(".skip").addEventListener("click", (event) => {
    event.preventDefault();
    document.querySelector("h1")?.focus();
  });
  try {
    await begin();
  } catch (fault) {
    if (!(fault instanceof Refused) && !(fault instanceof Gone)) throw fault;
    end();
    if (fault.status !== 401) showFault(fault);
  }
}

start();
