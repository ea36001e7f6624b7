// Privileges, and the few words that people use for sets of them. What is granted the server
// decides; here it is only said.

export const LEAVES = [
  "x-read-texts", "write-content", "write-properties", "bind", "unbind", "read-acl",
  "write-acl", "read-current-user-privilege-set", "x-read-names"
];
export const PRIVILEGES = ["all", "read", "write", ...LEAVES];
const WITHIN = {
  all: LEAVES,
  read: ["x-read-texts", "x-read-names"],
  write: ["write-content", "write-properties", "bind", "unbind"],
};

// The leaves that a list of privileges stands for.
export const leavesOf = (privileges) =>
  new Set(privileges.flatMap((name) => WITHIN[name] ?? [name]));

// What "share with" offers, from the least to the most: the privileges that an entry of each has.
const ASKS = "read-current-user-privilege-set";
export const LEVELS = {
  names: ["x-read-names"],
  reads: ["read", ASKS],
  changes: ["read", "write", ASKS],
  shares: ["read", "write", "read-acl", "write-acl", ASKS],
};

// The three words of a list's editor for what stands for most of the privileges.
export const THREE = { reads: ["read"], changes: ["write"], shares: ["read-acl", "write-acl"] };

// The highest level whose leaves are all among these; null where there is none.
export function levelOf(leaves) {
  return ["shares", "changes", "reads", "names"].find((level) => [...leavesOf(LEVELS[level])]
    .filter((leaf) => leaf !== ASKS).every((leaf) => leaves.has(leaf))) ?? null;
}

// Where it may not be asked what one may do: places where a person wants to try, and what a try
// showed to be refused.
const tried = new Set();
const refused = new Set();

export function learnRefusal(detail) {
  if (detail.privilege) refused.add(`${detail.resource} ${detail.privilege}`);
}

export const tryAt = (path) => tried.add(path);
export const isTried = (path) => tried.has(path);

export function forgetRefusals() {
  tried.clear();
  refused.clear();
}

// Whether something is offered: it is granted, or nobody may ask, the person wants to try, and no
// try was refused.
export function may(place, privilege) {
  if (!place) return false;
  if (place.may) return place.may.includes(privilege);
  return tried.has(place.path) && !refused.has(`${place.path} ${privilege}`);
}

// Where a new entry goes, so that it decides: before the entries that close the list. These are the
// denials at its end that are for everybody, and the first one of all that denies everything to
// everybody.
export function closingAt(own) {
  const everybody = (entry) => entry.deny &&
    (entry.invert !== undefined || ["all", "authenticated"].includes(entry.principal));
  let at = own.length;
  while (at > 0 && everybody(own[at - 1])) at -= 1;
  const first = own.findIndex((entry) => everybody(entry) && entry.deny.includes("all"));
  return first >= 0 ? Math.min(first, at) : at;
}

// The entries that stand at the place itself and that a request replaces.
export const ownOf = (list) => list.filter((entry) => !entry.inherited && !entry.protected);
