// Explains replies of the register that are not 200. A number without a message is shown as a number.
import { hasWord, t } from "./words.js";

// Rules 1 and 2 are about the caller, rules 4 to 10, 28 and 29 about acts.
const titleOfRule = (rule) => (rule < 3 ? "error.denied" : (rule > 3 && rule < 11) || rule > 27 ?
  "error.notAllowed" : "error.notVisible");

const textOf = (kind, number) => t(hasWord(kind + "." + number) ? kind + "." + number : kind + ".other");

// { title, text, mark } for a reply.
export function explain(status, body) {
  const { denied, refused, fault, store } = body || {};
  const message = (title, text, kind, number) => ({ title: t(title), text,
    mark: t("mark." + kind, { n: String(number) }) });
  if (denied) return message(titleOfRule(denied), textOf("rule", denied), "rule", denied);
  if (refused) return message("error.refused", textOf("refusal", refused), "refusal", refused);
  if (fault) return message("error.invalid", textOf("fault", fault), "fault", fault);
  if (store) return message("error.store", t(store === 501 ? "error.memory" : "error.check"), "store", store);
  if (status === 401) return { title: t("error.notSignedIn"), text: t("error.signIn") };
  if (status === 429) return { title: t("error.many"), text: t("error.manyText") };
  if (status >= 400 && status < 500) return { title: t("error.notForwarded"),
    text: t("error.gateway", { n: String(status) }) };
  return { title: t("error.notAvailable"), text: t("error.unreached") + " " + t("error.check") };
}
