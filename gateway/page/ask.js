// Requests to the gateway. Nothing is kept in the browser but a session in a cookie that scripts
// cannot read.
import { ask as dialogOf, field, make, textInput } from "./elements.js";
import { t } from "./texts.js";

// What the office refuses: a status, and the body in JSON.
export class Refused extends Error {
  constructor(status, detail, method = "", path = "") {
    super(detail.error || "refused");
    this.status = status;
    this.detail = detail;
    this.method = method;
    this.path = path;
  }
}

// Another view was opened before this one had all that it asks for, or nobody is signed in.
export class Gone extends Error {}

export const signedIn = { person: null, login: null };
let visit = new AbortController();

// Lets go what the view before this one still asks for.
export function nextVisit() {
  visit.abort();
  visit = new AbortController();
}

// A request: { status, value, tag }. Reading is let go with its view; an edit is not. Where the
// session has ended, the password is asked for over the view, and the request is sent then.
export async function ask(method, path, body, fields = {}) {
  const reading = method === "GET" || method === "PROPFIND" || method === "REPORT";
  const signal = reading ? visit.signal : undefined;
  const reply = await sent(method, path, body, fields, signal);
  if (reply.status !== 401 || path === "/page/session" || signedIn.person === null) {
    return answerOf(reply, method, path);
  }
  await signInAgain();
  return answerOf(await sent(method, path, body, fields, signal), method, path);
}

async function sent(method, path, body, fields, signal) {
  const json = body !== undefined && typeof body !== "string";
  const headers = {
    "x-office-page": "1",
    ...(json ? { "Content-Type": "application/json" } : {}),
    ...fields
  };
  try {
    return await fetch(path, {
      method,
      headers,
      body: json ? JSON.stringify(body) : body,
      signal,
      credentials: "same-origin"
    });
  } catch (fault) {
    if (fault.name === "AbortError") throw new Gone();
    throw new Refused(503, { error: "unavailable" }, method, path);
  }
}

async function answerOf(reply, method, path) {
  let text;
  try {
    text = await reply.text();
  } catch (fault) {
    if (fault.name === "AbortError") throw new Gone();
    throw new Refused(503, { error: "unavailable" }, method, path);
  }
  const value = (reply.headers.get("Content-Type") || "").startsWith("application/json") && text
    ? JSON.parse(text)
    : text;
  if (reply.status >= 400) {
    throw new Refused(
      reply.status, typeof value === "object" ? value : { error: "unavailable" }, method, path
    );
  }
  return { status: reply.status, value, tag: reply.headers.get("ETag") };
}

let again = null;

// Asks for the password over the view; several requests wait for one answer. Gone where it is not
// given.
function signInAgain() {
  again ??= passwordDialog().finally(() => { again = null; });
  return again;
}

async function passwordDialog() {
  const password = make(
    "input",
    { type: "password", autocomplete: "current-password", required: true, autofocus: true }
  );
  const name = textInput(signedIn.login, { readonly: true, autocomplete: "username" });
  const done = await dialogOf(
    t("sessionEnded"),
    [
      make("p", {}, t("sessionEndedMore")), field(t("loginName"), name),
      field(t("password"), password)
    ],
    t("signIn"),
    async (failed) => {
      const reply = await sent(
        "POST", "/page/session", { name: signedIn.login, password: password.value }, {}
      );
      if (reply.ok) return true;
      failed.textContent = t(reply.status === 401 ? "error.no-password" : "error.unavailable");
      password.value = "";
      return undefined;
    }
  );
  if (done) return;
  signedIn.person = null;
  window.dispatchEvent(new Event("signedout"));
  throw new Gone();
}

// Requests that several views make.

export const readCard = async (path) => (await ask("GET", `/page${path}`)).value;

const TEXT = { "Content-Type": "text/vcard; charset=utf-8" };

export const putCard = (path, text, tag) =>
  ask("PUT", `/page${path}`, text, { ...TEXT, "If-Match": tag });

// A new card. In a book that is not read nobody is told whether a name is taken, so that no
// condition is sent.
export const putNewCard = (path, text, read = true) =>
  ask("PUT", `/page${path}`, text, read ? { ...TEXT, "If-None-Match": "*" } : TEXT);

export const removeCard = (path, tag) =>
  ask("DELETE", `/page${path}`, undefined, tag ? { "If-Match": tag } : {});

export const saveLabel = (path, text) => ask("PROPPATCH", path, { set: { displayname: text } });

// The whole list of a place: the entries in the order in which they are asked.
export async function readList(path) {
  return (await ask("PROPFIND", path, { prop: ["acl"] })).value.responses[0].prop.acl;
}

// A value, or null where it is denied.
export async function unlessDenied(promise) {
  try {
    return await promise;
  } catch (fault) {
    if (fault instanceof Refused && fault.status < 500) return null;
    throw fault;
  }
}
