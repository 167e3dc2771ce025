// A citizen's mandates, given and held, newest first. The register has no list of them; the mirror has one.
import { state } from "./api.js";
import {
  button, csvOf, download, errorBox, hrefOf, labelled, named, one, panel, select, table,
} from "./components.js";
import { h } from "./dom.js";
import { ask } from "./mirror.js";
import { formatMoment, when } from "./moments.js";
import { t } from "./words.js";

const PAGE = 20;
const MOST = 1000;

// One page of mandates: { mandates, more }, { reply } if it was denied, or null without a mirror.
async function pageOf(parameters) {
  const reply = await ask("mandates", parameters);
  return reply && (reply.status === 200 ? reply.body : { reply });
}

async function allOf(parameters) {
  const found = [];
  for (let more = true; more;) {
    const page = await pageOf({ ...parameters, limit: MOST, skip: found.length });
    if (page === null || page.reply) return found;
    found.push(...page.mandates);
    more = page.more;
  }
  return found;
}

const isGiven = (it) => it.principal.number === state.me;

// The other party. Its name is missing if the caller may not see the party.
function other(it) {
  const party = isGiven(it) ? it.agent : it.principal;
  return party.name ? named("parties", party.number, party.name) : one("parties") + " " + party.number;
}

function rowOf(it) {
  const way = isGiven(it) ? "agent-" + it.agent.number : "principal-" + it.principal.number;
  const open = it.until === undefined;
  const end = open && state.at === null ? h("a", { href: hrefOf("do", "withdraw", way) },
    t("act.send.withdraw")) : "";
  return [t(isGiven(it) ? "mandates.given" : "mandates.held"), other(it), when(it.since),
    open ? h("span", { class: "state" }, t("mandates.open")) : when(it.until), end];
}

const textsOf = (it) => [it.principal.number, it.principal.name || "", it.agent.number, it.agent.name || "",
  formatMoment(it.since), it.until === undefined ? "" : formatMoment(it.until)];

export async function mandatesPanel() {
  const heads = ["mandates.way", "mandates.party", "mandates.since", "mandates.until",
    "mandates.do"].map((key) => t(key));
  const grid = table(t("mandates.caption"), heads, [], "mandates");
  const body = grid.querySelector("tbody");
  const status = h("p", { class: "lead", role: "status" });
  const side = select([["", t("work.all")], ["given", t("mandates.given")], ["held", t("mandates.held")]], "",
    { onchange: () => restart() });
  const current = select([["1", t("mandates.open")], ["0", t("mandates.ended")], ["", t("work.all")]], "1",
    { onchange: () => restart() });
  const more = button(t("page.more"), () => load());
  const filter = () => ({ ...(side.value ? { side: side.value } : {}),
    ...(current.value ? { current: current.value } : {}) });
  let first;

  async function load() {
    const page = await pageOf({ ...filter(), limit: PAGE, skip: body.childElementCount });
    first = page;
    if (page === null || page.reply) return;
    body.append(...page.mandates.map((it) => h("tr", {}, ...rowOf(it).map((cell, n) =>
      h("td", { "data-head": heads[n] }, cell)))));
    more.hidden = !page.more;
    grid.hidden = body.childElementCount === 0;
    status.textContent = body.childElementCount ? t("list.shown", { n: body.childElementCount }) :
      t("mandates.none");
  }

  async function restart() {
    body.replaceChildren();
    await load();
  }
  await load();
  if (first === null) return panel(t("mandates.title"), h("p", {}, t("mandates.noMirror")));
  if (first.reply) return panel(t("mandates.title"), errorBox(first.reply));
  const save = button(t("csv.save"), async () => download("mandates.csv",
    csvOf(t("csv.mandates").split(","), (await allOf(filter())).map(textsOf)), "text/csv"));
  return panel(t("mandates.title"), h("div", { class: "tools no-print" }, labelled(t("mandates.way"), side),
    labelled(t("col.state"), current), save), status, grid, more);
}
