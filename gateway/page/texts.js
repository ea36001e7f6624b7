// The texts of the page in the browser's language. Each language is one file, texts.CODE.js; the
// gateway lists them.
import english from "./texts.en.js";
import languages from "./languages.js";

let texts = english;
export let language = "en";

// Takes the first language of the browser that there is a file for.
export async function chooseLanguage() {
  for (const wanted of navigator.languages) {
    const code = wanted.split("-")[0].toLowerCase();
    if (!languages.includes(code)) continue;
    language = code;
    texts = code === "en" ? english : (await import(`./texts.${code}.js`)).default;
    break;
  }
  document.documentElement.lang = language;
}

// The form of a text that is for a number.
function formOf(forms, count) {
  return forms[new Intl.PluralRules(language).select(count)] ?? forms.other;
}

// The text of a key. `{name}` stands for a value; a text of several forms is chosen by `count`.
export function t(key, values = {}) {
  const found = texts[key] ?? english[key] ?? key;
  const form = typeof found === "object" ? formOf(found, values.count) : found;
  const value = (name) => (name === "count" ? number(values.count) : String(values[name] ?? ""));
  return form.replace(/\{(\w+)\}/g, (_, name) => value(name));
}

// Whether there is a text of this key.
export function has(key) {
  return key in english;
}

export function number(value) {
  return new Intl.NumberFormat(language).format(value);
}
