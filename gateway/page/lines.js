// The lines of a vCard (RFC 6350, section 3.3). Each is kept as it was written, so that what nobody
// changes stays byte for byte. A line is never changed in place: a change makes a new one.

const WORD = "[A-Za-z0-9-]+";
const VALUE = '(?:"[^"]*"|[^";:,]*)';
const HEAD = new RegExp(`^(?:(${WORD})\\.)?(${WORD})((?:;${WORD}=${VALUE}(?:,${VALUE})*)*):`);
const PARAMETER = new RegExp(`;(${WORD})=(${VALUE}(?:,${VALUE})*)`, "g");
const WIDTH = 75;

// The lines of a text: { raw, end, group, name, params, value }. `raw` has the folds and the end of
// the line; `name` is in capitals, and empty where it is no line of a card; `params` are [name,
// values] with names in capitals.
export function linesOf(text) {
  const raws = [];
  for (const part of text.match(/[^\n]*\n|[^\n]+$/g) || []) {
    if (/^[ \t]/.test(part) && raws.length) raws[raws.length - 1] += part;
    else raws.push(part);
  }
  return raws.map(lineOf);
}

function lineOf(raw) {
  const end = /(?:\r?\n)?$/.exec(raw)[0];
  const unfolded = raw.slice(0, raw.length - end.length).replace(/\r?\n[ \t]/g, "");
  const head = HEAD.exec(unfolded);
  if (!head) return { raw, end, group: "", name: "", params: [], value: unfolded };
  const params = [...head[3].matchAll(PARAMETER)].map(
    ([, name, values]) => [name.toUpperCase(), valuesOf(values)]
  );
  return {
    raw,
    end,
    group: head[1] || "",
    name: head[2].toUpperCase(),
    params,
    value: unfolded.slice(head[0].length)
  };
}

function valuesOf(text) {
  return (text.match(new RegExp(`${VALUE}(?=,|$)`, "g")) || [])
    .map((value) => value.replace(/^"|"$/g, ""))
    .filter((value, at, all) => value !== "" || all.length === 1);
}

// The text of lines.
export function textOf(lines) {
  return lines.map((line) => line.raw).join("");
}

// A new line. Its parameters are [name, values]; its value is written as it is.
export function newLine({ group = "", name, params = [], value = "", end = "\r\n" }) {
  const written = params.map(([key, values]) => `;${key}=${values.map(quoted).join(",")}`).join("");
  return lineOf(folded(`${group ? `${group}.` : ""}${name}${written}:${value}`, end));
}

// The line with another value. Group, name and parameters stay as they were written.
export function withValue(line, value) {
  const unfolded = line.raw.replace(/\r?\n[ \t]/g, "");
  return lineOf(folded(HEAD.exec(unfolded)[0] + value, line.end || "\r\n"));
}

// The line with other parameters, or with none of some.
export function withParams(line, params) {
  return newLine({ ...line, name: nameAsWritten(line), params, end: line.end || "\r\n" });
}

function nameAsWritten(line) {
  return HEAD.exec(line.raw.replace(/\r?\n[ \t]/g, ""))[2];
}

// All values of a parameter. A value with commas in quotes is several, as TYPE has them.
export function paramOf(line, name) {
  return line.params.filter(([key]) => key === name)
    .flatMap(([, values]) => values)
    .flatMap((value) => value.split(","));
}

function quoted(value) {
  const safe = value.replace(/\^/g, "^^").replace(/\n/g, "^n").replace(/"/g, "^'");
  return /[;:,]/.test(safe) ? `"${safe}"` : safe;
}

// A line folded so that no part has more than 75 bytes, and no fold is inside a character.
export function folded(line, end = "\r\n") {
  let written = "";
  let size = 0;
  for (const character of line) {
    const length = bytesOf(character);
    if (size + length > WIDTH) {
      written += `${end} `;
      size = 1;
    }
    written += character;
    size += length;
  }
  return written + end;
}

function bytesOf(character) {
  const code = character.codePointAt(0);
  return code < 0x80 ? 1 : code < 0x800 ? 2 : code < 0x10000 ? 3 : 4;
}

// The bytes of a text in UTF-8.
export function sizeOf(text) {
  let size = 0;
  for (const character of text) size += bytesOf(character);
  return size;
}

// A text value as people read it, and the value that says a text.
export function unescaped(value) {
  return value.replace(
    /\\([\\,;:nN])/g, (_, character) => ("nN".includes(character) ? "\n" : character)
  );
}

export function escaped(text) {
  return clean(text).replace(/[\\,;]/g, "\\$&").replace(/\n/g, "\\n");
}

// A text without what no card may hold: control characters. Line ends are one character.
export function clean(text) {
  // eslint-disable-next-line no-control-regex
  return text.replace(/\r\n?/g, "\n").replace(/[\u0000-\u0008\u000b-\u001f\u007f]/g, "");
}

// The parts of a value of several, still escaped.
export function partsOf(value, separator) {
  const parts = [""];
  for (let at = 0; at < value.length; at += 1) {
    if (value[at] === "\\") {
      parts[parts.length - 1] += value.slice(at, at + 2);
      at += 1;
    } else if (value[at] === separator) parts.push("");
    else parts[parts.length - 1] += value[at];
  }
  return parts;
}
