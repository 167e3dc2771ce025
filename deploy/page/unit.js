// The view of a unit: title sheet and plan, what is waiting, history.
import { state } from "./api.js";
import { errorBox, hrefOf, message, one, panel, pastNotice } from "./components.js";
import { h } from "./dom.js";
import { hasPast, historyPanel } from "./history.js";
import { ask } from "./mirror.js";
import { mutationTitle, refersTo } from "./mutations.js";
import { when } from "./moments.js";
import { loadUnit, sheetView } from "./sheet.js";
import { undecided } from "./undecided.js";
import { t } from "./words.js";

export async function unitView(number) {
  const unit = await loadUnit(number);
  if (unit.reply) return hiddenUnit(number, unit.reply);
  return [unit.sheet.name, h("p", { class: "subtitle no-print" }, one("units") + " " + number), pastNotice(),
    actions(number), h("div", { class: "columns" },
    h("div", {}, sheetView(unit)), h("div", { class: "no-print" }, await waitingPanel(number),
      historyPanel(number, unit.sheet)))];
}

// A unit that the caller may not see now. Somebody who had a right in it still sees the time of that right.
function hiddenUnit(number, reply) {
  const view = [one("units") + " " + number, pastNotice(), errorBox(reply)];
  if (reply.status === 403 && reply.body.denied === 11 && hasPast()) {
    view.push(message(t("unit.former"), h("p", {}, t("unit.formerText"))), historyPanel(number, null));
  }
  return view;
}

function actions(number) {
  if (state.at !== null) return "";
  const act = (name) => h("a", { class: "button", href: hrefOf("do", name, "unit-" + number) },
    t("act." + name));
  const found = { notary: ["transfer", "mortgage", "discharge"], conveyancer: ["transfer"],
    bank: ["mortgage", "discharge"],
    stateAdministrator: ["burden"] }[state.role] || [];
  return found.length ? h("p", { class: "tools no-print" }, ...found.map(act)) : "";
}

// The undecided mutations that refer to a unit, as far as the caller sees them.
async function waitingPanel(number) {
  if (state.at !== null) return "";
  const reply = await ask("units/" + number + "/undecided", { limit: 1000 });
  const list = h("ul", { class: "plain" });
  const status = h("p", { class: "lead", role: "status" });
  const add = async (o) => list.append(h("li", {}, await mutationTitle(o), h("div", {}, when(o.lodged))));
  const part = panel(t("waiting.title"), status, list);
  const end = (n) => { status.textContent = n ? t("waiting.count", { n }) : t("waiting.none"); };
  if (reply && reply.status === 200) {
    for (const o of reply.body.undecided) await add(o);
    end(reply.body.undecided.length);
    return part;
  }
  status.textContent = t("loading");
  undecided((o) => (refersTo(o, number) ? add(o) : null)).then((found) => end(found.filter((o) => refersTo(o,
    number)).length));
  return part;
}
