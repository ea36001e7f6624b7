// Sharing a card or a book: a person or a group, and one of four levels. The page writes one entry,
// and says by the server's own report what the person may do then.
import { ask, readList, unlessDenied } from "./ask.js";
import { button, choice, field, form, make, say, section, textInput } from "./elements.js";
import { isBook, isCard, isGroupPath, isSelf, knownGroups, knownPeople, who } from "./names.js";
import { LEVELS, closingAt, leavesOf, levelOf, may, ownOf } from "./rights.js";
import { knownEntry } from "./refusal.js";
import { same } from "./entry.js";
import { t } from "./texts.js";

// Members of a group who are asked about, one by one.
const ASKED = 12;
const ASKS = "read-current-user-privilege-set";

// Shows with whom a card is shared, where its list may be read: the own entries that grant.
export async function sharedWith(path, card, place) {
  if (card.may && !may(card, "read-acl")) return;
  const list = await unlessDenied(readList(path));
  const words =
    list ? ownOf(list).filter((entry) => entry.grant && entry.principal).map(sharedWords) : [];
  if (words.length) {
    place.replaceChildren(
      make("p", { class: "soft", id: "sharedwith" }, t("sharedWith", { who: words.join(", ") }))
    );
  }
}

export function sharedWords(entry) {
  const level = levelOf(leavesOf(entry.grant));
  return level ? t(`shared.${level}`, { who: who(entry.principal) }) : who(entry.principal);
}

// What a level grants at a place: in a card nothing can be added.
export function levelAt(path, level) {
  const names = LEVELS[level];
  if (!isCard(path)) return names;
  return names.flatMap(
    (name) => (name === "write" ? ["write-content", "write-properties"] : [name])
  );
}

// A choice of a person or a group; a name is typed where the person may see none.
export function principalChoice(value = "", attributes = {}, more = []) {
  const known = [...knownPeople().filter((one) => !isSelf(one.path)), ...knownGroups()];
  const told = known.map((one) => [one.path, who(one.path)])
                 .sort((one, other) => one[1].localeCompare(other[1]));
  const options = [...more, ...told];
  if (value && !options.some(([key]) => key === value)) options.push([value, who(value)]);
  if (told.length) {
    return choice(
      [["", t("pickSomebody")], ...options], value, { required: true, ...attributes }
    );
  }
  return textInput(value, { required: true, placeholder: "/people/…", ...attributes });
}

// The form. `done` shows the place anew.
export function shareForm(path, done) {
  const whom = principalChoice("", { id: "whom" });
  const keys =
    isBook(path) || isCard(path) ? Object.keys(LEVELS) : ["reads", "changes", "shares"];
  const levels = keys.map((key) => [key, t(`level.${key}`)]);
  const level = choice(levels, "reads", { id: "level" });
  const kind = isCard(path) ? "card" : isBook(path) ? "book" : "place";
  return section(t(`share.${kind}`), form(t("share"), async () => {
    const before = ownOf(await readList(path));
    const entry = { grant: levelAt(path, level.value), principal: whom.value };
    await ask("ACL", path, { acl: withEntry(before, entry).map(written) });
    const after = ownOf((await unlessDenied(readList(path))) ?? []);
    const told = await resultOf(path, entry);
    await done();
    say(
      make("p", { class: "first" }, t("shareSaved")), told,
      takeBackButton(path, before, after, done)
    );
  }, make("div", { class: "row" }, field(t("withWhom"), whom), field(t("mayWhat"), level))));
}

// The list with an entry for a principal: in the place of one that grants the same principal
// something, else before the entries that close the list.
export function withEntry(own, entry) {
  const closing = closingAt(own);
  const rest = own.filter(
    (other, at) => !(at < closing && other.grant && other.principal === entry.principal)
  );
  const at = closingAt(rest);
  return [...rest.slice(0, at), entry, ...rest.slice(at)];
}

// An entry as a request has it.
export function written(entry) {
  const whom =
    entry.invert !== undefined ? { invert: entry.invert } : { principal: entry.principal };
  return entry.deny ? { ...whom, deny: entry.deny } : { ...whom, grant: entry.grant };
}

function takeBackButton(path, before, after, done) {
  return make("p", {}, button(t("takeBack"), async () => {
    if (!same(ownOf(await readList(path)), after)) {
      await done();
      say(t("listChanged"));
      return;
    }
    await ask("ACL", path, { acl: before.map(written) });
    await done();
    say(t("takenBack"));
  }));
}

// The persons for whom an entry is, as far as they can be listed.
async function personsOf(principal) {
  if (isGroupPath(principal)) return membersOf(principal);
  return principal?.startsWith("/people/") ? [principal] : [];
}

// What those for whom an entry is may do now: one sentence each, with what still denies it.
export async function resultOf(path, entry) {
  const persons = await personsOf(entry.principal);
  const list = await unlessDenied(readList(path));
  const rows = [];
  for (const one of persons.slice(0, ASKED)) {
    const told = await unlessDenied(ask("REPORT", path, { report: "effective", principal: one }));
    if (told) {
      rows.push(make(
        "li", {}, sentenceFor(path, one, told.value.leaves, leavesOf(entry.grant ?? []), list)
      ));
    }
  }
  if (persons.length > ASKED) {
    rows.push(make("li", {}, t("andMore", { count: persons.length - ASKED })));
  }
  return make(
    "ul", { class: "plain", id: "result" },
    rows.length
      ? rows
      : make("li", {}, t("notAsked", { who: who(entry.principal ?? entry.invert) }))
  );
}

async function membersOf(group) {
  const told = await unlessDenied(ask("PROPFIND", group, { prop: ["group-member-set"] }));
  const members = told?.value.responses[0].prop["group-member-set"] ?? [];
  return members.filter((one) => !isGroupPath(one));
}

function sentenceFor(path, one, leaves, wanted, list) {
  const granted = new Set(leaves.filter((leaf) => leaf.grant).map((leaf) => leaf.privilege));
  const level = levelOf(granted);
  const now = level ? t(`now.${level}`, { who: who(one) }) : t("now.none", { who: who(one) });
  const missing = leaves.filter(
    (leaf) => wanted.has(leaf.privilege) && !leaf.grant && leaf.privilege !== ASKS
  );
  if (!missing.length) return now;
  const what = missing.map((leaf) => t(`privilege.${leaf.privilege}`)).join(", ");
  return `${now} ${t("stillNot", { what })} ${causeOf(path, missing[0], list)}`;
}

function causeOf(path, leaf, list) {
  if (!leaf.entry) return t("noEntryFor");
  const entry = list?.[leaf.entry.number - 1];
  return entry
    ? knownEntry({ resource: path, entry: leaf.entry }, list, entry)
    : t("entryOf", leaf.entry);
}

