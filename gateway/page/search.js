// Searching in all books that one may read, as one types.
import { ask } from "./ask.js";
import { link, make, show } from "./elements.js";
import { last, nameOf } from "./names.js";
import { showFault } from "./refusal.js";
import { t } from "./texts.js";

const find = document.getElementById("find");
let wait = 0;
let turn = 0;

export function startSearch() {
  document.getElementById("search").addEventListener("submit", (event) => {
    event.preventDefault();
    later(0);
  });
  find.addEventListener("input", () => later(150));
}

function later(milliseconds) {
  clearTimeout(wait);
  wait = setTimeout(() => {
    if (!find.value.trim()) return;
    if (location.hash === "#/search") {
      fill().catch((fault) => {
        if (!showFault(fault)) throw fault;
      });
    } else location.hash = "#/search";
  }, milliseconds);
}

export async function showSearch() {
  const typing = document.activeElement === find;
  show(
    t("search"), make("p", { class: "soft", role: "status", id: "count" }),
    make("ul", { class: "rows cards", id: "found" })
  );
  if (typing) find.focus();
  await fill();
}

async function fill() {
  const own = ++turn;
  const { value } = await ask("POST", "/page/search", { words: find.value });
  const list = document.getElementById("found");
  if (own !== turn || !list) return;
  const isCut = value.total > value.rows.length;
  const more = isCut ? ` ${t("firstOf", { count: value.rows.length })}` : "";
  const count = find.value.trim() ? t("found", { count: value.total }) + more : "";
  document.getElementById("count").textContent = count;
  list.replaceChildren(...value.rows.map((row) => {
    const name = row.name || last(row.path);
    const book = row.path.split("/").slice(0, 3).join("/");
    const notes = [
      row.organisation !== name ? row.organisation : "", row.book || nameOf(book)
    ];
    return make(
      "li", {},
      make(
        "span", { class: "title" }, row.sees === "cards" ? link(row.path, name) : name,
        make("span", { class: "soft" }, notes.filter(Boolean).join(" · "))
      ),
      make("span", { class: "soft reach" }, row.phone || row.mail)
    );
  }));
}
