// Elements of the page: made, labelled, shown; and what is told about what was done.
import { isTried, tryAt } from "./rights.js";
import { t } from "./texts.js";

export const main = document.getElementById("main");
const told = document.getElementById("told");
let number = 0;

// An element. `on..` are listeners, `true` and `false` are for attributes without a value, and
// content that is missing is left out.
export function make(tag, attributes = {}, ...content) {
  const element = document.createElement(tag);
  for (const [name, value] of Object.entries(attributes)) {
    if (name.startsWith("on")) element.addEventListener(name.slice(2), value);
    else if (value === true) element.setAttribute(name, "");
    else if (value !== false && value !== null && value !== undefined) {
      element.setAttribute(name, value);
    }
  }
  element.append(
    ...content.flat().filter((item) => item !== null && item !== undefined && item !== false)
  );
  return element;
}

export function idOf(element) {
  element.id = element.id || `part-${++number}`;
  return element.id;
}

// A labelled input, with a hint below it where one is given.
export function field(title, input, hint = "") {
  const note = hint ? make("p", { class: "hint" }, hint) : null;
  if (note) input.setAttribute("aria-describedby", idOf(note));
  return make("div", { class: "field" }, make("label", { for: idOf(input) }, title), input, note);
}

export function textInput(value = "", attributes = {}) {
  const input = make("input", { type: "text", ...attributes });
  input.value = value;
  return input;
}

export function choice(options, value, attributes = {}) {
  const select = make(
    "select", attributes, options.map(([key, title]) => make("option", { value: key }, title))
  );
  select.value = value;
  return select;
}

export function checkbox(title, checked = false, attributes = {}) {
  const box = make("input", { type: "checkbox", ...attributes });
  box.checked = checked;
  return make("label", { class: "inline" }, box, make("span", {}, title));
}

export function button(title, work, attributes = {}) {
  return make("button", { type: "button", onclick: guarded(work), ...attributes }, title);
}

export function link(path, ...content) {
  return make("a", { href: `#${encodeURI(path)}` }, ...content);
}

export function form(title, work, ...content) {
  return make(
    "form", { onsubmit: guarded(work) }, ...content,
    make("p", { class: "row" }, make("button", { type: "submit", class: "main" }, title))
  );
}

export function section(title, ...content) {
  const heading = make("h2", {}, title);
  return make("section", { "aria-labelledby": idOf(heading) }, heading, ...content);
}

export function details(title, ...content) {
  return make("details", {}, make("summary", {}, title), ...content);
}

// Shows a view. Its heading gets the focus, so that it is read aloud and the keyboard goes on from
// there.
export function show(title, ...content) {
  const heading = make("h1", { tabindex: "-1" }, title);
  main.replaceChildren(heading, ...content.flat().filter(Boolean));
  document.title = `${title} · ${t("brand")}`;
  heading.focus({ preventScroll: true });
  window.scrollTo(0, 0);
  return heading;
}

// Tells what was done, or why not, in a live region.
export function say(...content) {
  told.className = "";
  told.replaceChildren(...content.filter(Boolean));
}

export function complain(...content) {
  told.className = "no";
  told.replaceChildren(...content.filter(Boolean));
  if (content.length) told.scrollIntoView({ block: "nearest" });
}

// Where it may not be asked what one may do: a button that offers what can be tried.
export function tryButton(place, again) {
  if (place.may || isTried(place.path)) return null;
  return button(t("tryIt"), () => {
    tryAt(place.path);
    return again();
  }, { class: "link" });
}

let pending = [];

// Opens a view, which begins with what is told. A view that is open already is shown anew.
export function go(path, ...content) {
  pending = content;
  const hash = `#${encodeURI(path)}`;
  if (location.hash === hash) window.dispatchEvent(new Event("hashchange"));
  else location.hash = hash;
}

// What the view that is opened now begins with.
export function sayPending() {
  say(...pending);
  pending = [];
}

let onFault = () => false;

// Who shows faults of work: it answers whether it knows the fault.
export function handleFaults(work) {
  onFault = work;
}

// A listener that does the work, once at a time, and shows its fault.
export function guarded(work) {
  let busy = false;
  return async (event) => {
    event?.preventDefault();
    if (busy) return;
    busy = true;
    say();
    try {
      await work(event);
    } catch (fault) {
      if (!onFault(fault)) throw fault;
    } finally {
      busy = false;
    }
  };
}

// A dialog over the view; it gives what `work` gives, or null where it is closed without.
export function ask(title, content, title2, work) {
  return new Promise((resolve, reject) => {
    const heading = make("h2", {}, title);
    const failed = make("p", { role: "alert", class: "failed" });
    const dialog = make("dialog", {
      "aria-labelledby": idOf(heading),
      onclose: () => {
        dialog.remove();
        resolve(null);
      }
    });
    const submit = async (event) => {
      event.preventDefault();
      failed.textContent = "";
      try {
        const value = await work(failed);
        if (value === undefined) return;
        resolve(value);
        dialog.close();
      } catch (fault) {
        reject(fault);
        dialog.close();
      }
    };
    dialog.append(make(
      "form", { onsubmit: submit }, heading, ...[content].flat(), failed,
      make(
        "p", { class: "row" }, make("button", { type: "submit", class: "main" }, title2),
        make("button", { type: "button", onclick: () => dialog.close() }, t("cancel"))
      )
    ));
    document.body.append(dialog);
    dialog.showModal();
  });
}
