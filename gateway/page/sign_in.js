// Signing in.
import { Refused, ask } from "./ask.js";
import { field, form, make, show, textInput } from "./elements.js";
import { t } from "./texts.js";

export function showSignIn(begin) {
  const name = textInput(
    "", { autocomplete: "username", required: true, autocapitalize: "none", spellcheck: "false" }
  );
  const password =
    make("input", { type: "password", autocomplete: "current-password", required: true });
  show(t("signInTitle"), make("div", { class: "narrow" }, form(t("signIn"), async () => {
    try {
      await ask("POST", "/page/session", { name: name.value, password: password.value });
    } catch (fault) {
      if (fault instanceof Refused) {
        password.value = "";
        password.focus();
      }
      throw fault;
    }
    await begin();
  }, field(t("loginName"), name), field(t("password"), password))));
  name.focus();
}
