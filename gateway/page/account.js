// The own account: a password for each device, and the own password.
import { ask } from "./ask.js";
import { button, field, form, make, say, section, show, textInput } from "./elements.js";
import { language, t } from "./texts.js";

export async function showAccount() {
  const account = (await ask("GET", "/page/account")).value;
  show(t("account"), devicesPart(account.devices), account.password ? passwordPart() : null);
}

function day(text) {
  if (!text) return "";
  const form = new Intl.DateTimeFormat(language, { dateStyle: "long", timeZone: "UTC" });
  return form.format(new Date(`${text}T00:00:00Z`));
}

function devicesPart(devices) {
  const name = textInput("", { required: true, maxlength: "64", placeholder: t("deviceExample") });
  const place = make("div", { id: "word" });
  return section(
    t("devices"), make("p", { class: "soft" }, t("devicesMore", { address: location.origin })),
    devices.length ? make("ul", { class: "rows", id: "devices" }, devices.map(deviceRow)) : null,
    form(
      t("makeDevice"),
      async () => {
        const { word } = (await ask("POST", "/page/device", { name: name.value })).value;
        const shown = name.value;
        await showAccount();
        say(
          make("p", { class: "first" }, t("deviceWord", { name: shown })),
          make("p", {}, make("code", { class: "word" }, word)),
          make("p", { class: "soft" }, t("deviceOnce"))
        );
      },
      field(t("deviceName"), name)
    ),
    place
  );
}

function deviceRow(device) {
  const used = device.used ? t("deviceUsed", { day: day(device.used) }) : t("deviceUnused");
  return make(
    "li", {},
    make(
      "span", { class: "title" }, device.name,
      make("span", { class: "soft" }, `${t("deviceMade", { day: day(device.made) })} · ${used}`)
    ),
    button(
      t("takeDeviceAway"),
      async () => {
        await ask("POST", "/page/lost", { id: device.id });
        await showAccount();
        say(t("deviceTaken", { name: device.name }));
      },
      { class: "link", "aria-label": t("takeAway", { what: device.name }) }
    )
  );
}

function passwordPart() {
  const input = (autocomplete) => make("input", { type: "password", autocomplete, required: true });
  const [old, fresh, again] =
    [input("current-password"), input("new-password"), input("new-password")];
  const check = () => again.setCustomValidity(again.value === fresh.value ? "" : t("notTheSame"));
  for (const one of [fresh, again]) one.addEventListener("input", check);
  return section(
    t("ownPassword"),
    make(
      "div", { class: "narrow" },
      form(
        t("setPassword"),
        async () => {
          await ask("POST", "/page/password", { old: old.value, new: fresh.value });
          await showAccount();
          say(t("passwordSet"));
        },
        field(t("oldPassword"), old), field(t("newPassword"), fresh, t("passwordHint")),
        field(t("newPasswordAgain"), again)
      )
    )
  );
}
