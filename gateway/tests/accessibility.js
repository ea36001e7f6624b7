// What a script can see of WCAG 2.2, level AA, in the page as it is shown: a list of faults in
// words. axe-core is in no package of Debian 12, so that these are checks of the project's own.
const faults = [];
const shown = (element) => element.checkVisibility({ checkVisibilityCSS: true }) &&
  element.getBoundingClientRect().right > 0;
function told(element) {
  const text = (element.textContent || element.value || "").trim().slice(0, 30);
  return `${element.tagName.toLowerCase()}${element.id ? `#${element.id}` : ""} "${text}"`;
}

const idsIn = (element, name) =>
  (element.getAttribute(name) || "").split(/\s+/).filter(Boolean);

function nameOf(element) {
  const by = idsIn(element, "aria-labelledby").map(
    (id) => document.getElementById(id)?.textContent ?? ""
  );
  const labels = [...(element.labels || [])].map((label) => label.textContent);
  const inner = ["A", "BUTTON", "SUMMARY"].includes(element.tagName) ? element.textContent : "";
  const own = ["aria-label", "alt"].map((name) => element.getAttribute(name) || "");
  return [...by, ...labels, inner, ...own].join(" ").trim();
}

// 1.1.1, 1.3.1, 4.1.2: what is used has a name, and what is told belongs together.
const used = "a[href], button, input, select, textarea, summary, dialog, img";
for (const element of document.querySelectorAll(used)) {
  if (shown(element) && !nameOf(element)) faults.push(`no name: ${told(element)}`);
}
for (const element of document.querySelectorAll("fieldset")) {
  if (shown(element) && element.firstElementChild?.tagName !== "LEGEND") {
    faults.push(`no legend: ${told(element)}`);
  }
}
for (const element of document.querySelectorAll("table")) {
  const heads = [...element.querySelectorAll("thead th")];
  if (!element.caption || heads.some((head) => head.scope !== "col")) {
    faults.push(`no caption or scope: ${told(element)}`);
  }
}
for (const element of document.querySelectorAll("[aria-describedby], [aria-labelledby]")) {
  const named = ["aria-describedby", "aria-labelledby"].flatMap((name) => idsIn(element, name));
  for (const id of named) {
    if (!document.getElementById(id)) faults.push(`names what is not there: ${told(element)}`);
  }
}
const ids = [...document.querySelectorAll("[id]")].map((element) => element.id);
if (new Set(ids).size < ids.length) faults.push("an id stands twice");

// 2.4.1, 2.4.2, 3.1.1, 4.1.3: a way to the content, a title, a language, a live region, headings
// without a gap.
if (!document.querySelector(".skip") || !document.title || !document.documentElement.lang) {
  faults.push("no way to the content, title or language");
}
if (!document.querySelector("[aria-live]")) faults.push("no live region");
const headings = [...document.querySelectorAll("main h1, main h2, main h3")].filter(shown);
const levels = headings.map((element) => Number(element.tagName[1]));
const firsts = levels.filter((level) => level === 1);
const gap = levels.some((level, at) => at && level > levels[at - 1] + 1);
if (levels[0] !== 1 || firsts.length !== 1 || gap) faults.push(`headings: ${levels}`);

// 1.4.3 and 1.4.11: contrast of texts, and of the borders of what is used.
function numbers(color) {
  const [red, green, blue, alpha = 1] = color.match(/[\d.]+/g).map(Number);
  return { red, green, blue, alpha };
}
function light({ red, green, blue }) {
  const part = (value) =>
    (value / 255 <= 0.04045 ? value / 255 / 12.92 : ((value / 255 + 0.055) / 1.055) ** 2.4);
  return 0.2126 * part(red) + 0.7152 * part(green) + 0.0722 * part(blue);
}
function below(element) {
  for (let at = element; at; at = at.parentElement) {
    const color = numbers(getComputedStyle(at).backgroundColor);
    if (color.alpha > 0.99) return color;
  }
  return { red: 255, green: 255, blue: 255 };
}
function contrast(one, other) {
  const [high, low] = [light(one), light(other)].sort((a, b) => b - a);
  return (high + 0.05) / (low + 0.05);
}
const walker = document.createTreeWalker(document.body, NodeFilter.SHOW_TEXT);
while (walker.nextNode()) {
  const element = walker.currentNode.parentElement;
  if (!walker.currentNode.textContent.trim() || !shown(element)) continue;
  if (["SCRIPT", "STYLE", "NOSCRIPT", "OPTION"].includes(element.tagName)) continue;
  const found = contrast(numbers(getComputedStyle(element).color), below(element));
  if (found < 4.5) faults.push(`contrast ${found.toFixed(2)}: ${told(element)}`);
}
const framed = "input:not([type=checkbox], [type=radio], [type=file]), select, textarea";
for (const element of document.querySelectorAll(framed)) {
  if (!shown(element)) continue;
  const found =
    contrast(numbers(getComputedStyle(element).borderTopColor), below(element.parentElement));
  if (found < 3) faults.push(`contrast of a border ${found.toFixed(2)}: ${told(element)}`);
}

// 2.5.8: what is used by a pointer is 24 pixels high, but links within a text.
const pressed = "button, input, select, textarea, summary, nav a, ul.rows a";
for (const element of document.querySelectorAll(pressed)) {
  const { height, width } = element.getBoundingClientRect();
  if (!shown(element) || element.type === "checkbox" || element.type === "radio") continue;
  if (height < 24 || width < 24) {
    faults.push(`small (${width.toFixed(0)} x ${height.toFixed(0)}): ${told(element)}`);
  }
}

// 1.4.10: nothing is wider than the window.
if (document.documentElement.scrollWidth > document.documentElement.clientWidth) {
  faults.push("wider than the window");
}
return faults;
