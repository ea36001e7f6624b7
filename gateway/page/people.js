// Persons and groups of the office.
import { ask, saveLabel } from "./ask.js";
import {
  button, choice, details, field, form, link, make, say, section, show, textInput, tryButton,
} from "./elements.js";
import { isGroupPath, isSelf, knownGroups, knownPeople, last, readNames, who } from "./names.js";
import { firstWords, moreWords } from "./refusal.js";
import { may } from "./rights.js";
import { t } from "./texts.js";

export async function showHome(path) {
  const reply = await ask("PROPFIND", path, { prop: ["displayname"] }, { Depth: "1" });
  const told = reply.value.responses.slice(1);
  const seen = told.filter((one) => one.status === 200);
  const denied = told.filter((one) => one.status === 403);
  const shown = (one) => one.prop.displayname || last(one.href);
  seen.sort((one, other) => shown(one).localeCompare(shown(other)));
  show(
    t(path === "/people" ? "people" : "groups"),
    make("p", { class: "tools" }, link(`/access${path}`, t("access"))),
    make(
      "ul", { class: "rows" },
      seen.map(
        (one) => make(
          "li", {}, link(one.href, shown(one)),
          make("span", { class: "soft" }, isSelf(one.href) ? t("you") : "")
        )
      )
    ),
    denied.length ? make("ul", { class: "rows" }, denied.map(deniedRow)) : null
  );
}

// A person or a group that may not be seen, with the cause.
function deniedRow(one) {
  const denial = one["need-privileges"];
  return make("li", {}, make(
    "div", {}, make("strong", {}, last(one.href)),
    make("p", { class: "soft" }, firstWords(denial)), moreWords(denial)
  ));
}

async function rightsOf(path) {
  const body = { prop: ["displayname", "group-member-set", "current-user-privilege-set"] };
  try {
    const prop = (await ask("PROPFIND", path, body)).value.responses[0].prop;
    return { prop, may: prop["current-user-privilege-set"], path };
  } catch (fault) {
    if (fault.detail?.privilege !== "read-current-user-privilege-set") throw fault;
    body.prop.pop();
    return { prop: (await ask("PROPFIND", path, body)).value.responses[0].prop, may: null, path };
  }
}

export async function showPrincipal(path) {
  const told = await rightsOf(path);
  const { prop } = told;
  const members = prop["group-member-set"];
  const mayWrite = may(told, "write-properties");
  show(
    prop.displayname || last(path),
    make(
      "p", { class: "tools" },
      link(
        isGroupPath(path) ? "/groups" : "/people", t(isGroupPath(path) ? "groups" : "people")
      ),
      link(`/access${path}`, t("access")), tryButton(told, () => showPrincipal(path))
    ),
    members !== null
      ? section(
          t("membersCount", { count: members.length }),
          mayWrite ? memberEditor(path, members) : memberLinks(members)
        )
      : null,
    mayWrite ? labelForm(path, prop.displayname) : null
  );
}

function memberLinks(members) {
  return make(
    "ul", { class: "plain", id: "members" },
    members.map((one) => make("li", {}, link(one, who(one))))
  );
}

// The members, each with a button that takes it away, and a choice of who may come in.
function memberEditor(path, members) {
  const save = async (wanted, text) => {
    await ask("PROPPATCH", path, { set: { "group-member-set": wanted } });
    await showPrincipal(path);
    say(text);
  };
  const rows = members.map(
    (one) => make(
      "li", {}, link(one, who(one)),
      button(
        "×",
        () => save(members.filter((other) => other !== one), t("memberAway", { who: who(one) })),
        {
          class: "away",
          "aria-label": t("takeAway", { what: who(one) }),
          title: t("takeAway", { what: who(one) })
        }
      )
    )
  );
  const others = [...knownPeople(), ...knownGroups()].filter(
    (one) => one.path !== path && !members.includes(one.path)
  );
  const pick = choice(others.map((one) => [one.path, who(one.path)]), others[0]?.path);
  return [
    make("ul", { class: "rows", id: "members" }, rows),
    others.length
      ? form(
          t("addMember"),
          () => save([...members, pick.value], t("memberIn", { who: who(pick.value) })),
          field(t("newMember"), pick)
        )
      : null
  ];
}

function labelForm(path, label) {
  const input = textInput(label, { maxlength: "256" });
  return details(t("rename"), form(t("save"), async () => {
    await saveLabel(path, input.value);
    await readNames();
    await showPrincipal(path);
    say(t("labelSaved"));
  }, field(t("shownName"), input)));
}

