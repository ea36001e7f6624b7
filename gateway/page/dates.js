// Dates of vCard 4.0 that may lack a part (RFC 6350, section 4.3.1): { year, month, day, rest },
// each a number or null. `rest` is a time of day, which is kept.

const FORMS = [
  /^(?<year>\d{4})-?(?<month>\d{2})-?(?<day>\d{2})(?<rest>T.*)?$/,
  /^(?<year>\d{4})-(?<month>\d{2})$/,
  /^(?<year>\d{4})$/,
  /^--(?<month>\d{2})-?(?<day>\d{2})(?<rest>T.*)?$/,
  /^--(?<month>\d{2})$/,
  /^---(?<day>\d{2})(?<rest>T.*)?$/,
];

// The date that a value says; null where it is none of these forms.
export function dateOf(value) {
  const found = FORMS.map((form) => form.exec(value)).find(Boolean);
  if (!found) return null;
  const part = (name) => (found.groups[name] ? Number(found.groups[name]) : null);
  const date =
    { year: part("year"), month: part("month"), day: part("day"), rest: found.groups.rest || "" };
  return isDate(date) ? date : null;
}

// Whether such a day may be: day and month are in their ranges, and the day is in the month.
export function isDate({ year, month, day }) {
  if (month !== null && (month < 1 || month > 12)) return false;
  if (day === null) return true;
  return day >= 1 && day <= new Date(Date.UTC(year ?? 2000, month ?? 1, 0)).getUTCDate();
}

// The value that says a date.
export function writtenDate({ year, month, day, rest = "" }) {
  const two = (number) => String(number).padStart(2, "0");
  if (year !== null && month !== null && day !== null) {
    return String(year).padStart(4, "0") + two(month) + two(day) + rest;
  }
  if (year !== null) {
    return String(year).padStart(4, "0") + (month !== null ? `-${two(month)}` : "");
  }
  if (month !== null) return `--${two(month)}${day !== null ? two(day) + rest : ""}`;
  return `---${two(day)}${rest}`;
}

// A date as people of this language read it.
export function shownDate({ year, month, day }, language) {
  const form = { timeZone: "UTC" };
  if (year !== null) form.year = "numeric";
  if (month !== null) form.month = "long";
  if (day !== null) form.day = "numeric";
  const at = new Date(Date.UTC(2000, (month ?? 1) - 1, day ?? 1));
  at.setUTCFullYear(year ?? 2000);
  return new Intl.DateTimeFormat(language, form).format(at);
}
