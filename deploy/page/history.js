// The history of a unit: the mirror's list of changes, else the moments of change that a search in title
// sheets finds.
import { objectOf, sheetOf, state } from "./api.js";
import { button, classOf, hrefAt, hrefOf, panel, select, small } from "./components.js";
import { compareMoments } from "./compare.js";
import { announce, h, safeText } from "./dom.js";
import { ask, hasMirror } from "./mirror.js";
import { when } from "./moments.js";
import { searchChanges } from "./changes.js";
import { detailOf, parseSheet } from "./sheet.js";
import { parts, t } from "./words.js";

const MOST = 1000;
// In these roles only the present is shown (rule 3).
export const hasPast = () => !["bank", "conveyancer", "certifiedSurveyor"].includes(state.role);

export function historyPanel(number, sheet) {
  if (!hasPast()) return panel(t("history.title"), h("p", {}, t("history.noPast")));
  const out = h("div", {});
  const progress = h("p", { class: "lead", role: "status" });
  const show = button(t("history.show"), async () => {
    show.disabled = true;
    progress.textContent = t("loading");
    if (await hasMirror()) await listed(number, out, progress);
    else await searched(number, sheet, out, progress);
    show.hidden = true;
  });
  const part = panel(t("history.title"), h("p", {}, show), progress, out);
  part.id = "history";
  if (opened === number + " " + state.role) queueMicrotask(() => show.click());
  return part;
}

// The unit whose history is shown, so that it stays open while its moments are viewed.
let opened = null;

// ---- the mirror's list

async function listed(number, out, progress) {
  const reply = await ask("units/" + number + "/history", { limit: MOST }, { at: null });
  if (reply === null || reply.status !== 200) return searched(number, null, out, progress);
  opened = number + " " + state.role;
  const { history } = reply.body;
  const moments = history.map((change) => change.stamp);
  const items = await Promise.all(history.map(changeItem));
  out.replaceChildren(periods(history), chooser(number, moments), h("ol", { class: "history" }, ...items));
  progress.textContent = history.length ? t("history.count", { n: history.length }) +
    (history.length === MOST ? " " + t("history.more") : "")
    : t("history.none");
  return undefined;
}

// The periods in which the caller had an ownership, from the entries that began and ended. Helps a former
// owner.
function periods(history) {
  if (state.role !== "citizen") return "";
  const mine = [];
  for (const { stamp, began, ended } of [...history].reverse()) {
    for (const e of ended) if (e.rrr && e.rrr.party === state.me && e.rrr.class === "ownership") end(mine,
      e.rrr.number, stamp);
    for (const e of began) if (e.rrr && e.rrr.party === state.me && e.rrr.class === "ownership") begin(mine,
      e.rrr, stamp);
  }
  const rows = mine.map((p) => h("li", {}, ...parts(p.until ? "history.period" : "history.periodOpen",
    { share: p.share, from: when(p.from), until: p.until ? when(p.until) : "" })));
  return rows.length ? h("div", {}, h("h3", {}, t("history.yours")), h("ul", { class: "plain" }, ...rows)) :
    "";
}

const end = (list, number, stamp) => list.filter((p) => p.number === number &&
  !p.until).forEach((p) => { p.until = stamp; });
const begin = (list, rrr, stamp) => list.push({ number: rrr.number, share: rrr.share, from: stamp });

async function changeItem({ stamp, began, ended, mutations }) {
  const items = [];
  for (const m of mutations) items.push(await mutationLine(m));
  const rest = [...ended];
  for (const e of began) {
    const before = rest.findIndex((o) => same(o, e));
    items.push(await changeLine(before < 0 ? null : rest.splice(before, 1)[0], e, stamp));
  }
  for (const e of rest) items.push(await changeLine(e, null, stamp));
  return h("li", {}, h("div", {}, h("a", { href: hrefAt(stamp), "aria-current": state.at === stamp ? "true" :
    "" }, when(stamp))),
    h("ul", {}, ...items.map((item) => h("li", {}, ...item))));
}

const same = (a, b) => ["unit", "parcel", "rrr"].some((key) => a[key] && b[key] &&
  a[key].number === b[key].number);

async function mutationLine(m) {
  const known = await objectOf("mutations", m.number);
  const source = known && known.source ? await documentOf(known.source) : "";
  return [h("a", { href: hrefOf("mutations", m.number) }, t("act." + m.act), small(m.number)), " " +
    t("history.was." + m.state), source ? [", ", source] : ""];
}

async function documentOf(number) {
  const source = ["notary", "stateAdministrator"].includes(state.role) ? await objectOf("sources", number) :
    null;
  return source ? h("a", { href: hrefOf("sources", number) }, safeText(source.title)) : "";
}

// A row that began, ended, or changed.
async function changeLine(before, after, stamp) {
  const o = after || before;
  const sign = h("span", { class: after ? (before ? "sign" : "sign plus") : "sign minus" }, before && after ?
    t("history.changed") : t(after ? "history.began" : "history.ended"));
  if (o.unit) return [sign, " ", t("one.units") + " ", safeText(o.unit.name)];
  if (o.parcel) return [sign, " ", t("one.parcels") + " ", safeText(o.parcel.label), small(o.parcel.number)];
  const name = await objectOf("parties", o.rrr.party, after ? stamp : stamp - 1);
  const source = before && !after ? "" : await documentOf(o.rrr.source);
  const detail = before && after ? [detailOf(before.rrr), " → ", detailOf(after.rrr)] : [detailOf(o.rrr)];
  return [sign, " ", classOf(o.rrr) + ": ", name ? safeText(name.name) : t("one.parties") + " " + o.rrr.party,
    ", ", ...detail, source ? [", ", source] : ""];
}

// ---- without the mirror

// The result of the last search, for navigation between its moments.
let cached = {};

async function searched(number, sheet, out, progress) {
  opened = number + " " + state.role;
  const show = (found) => {
    const list = h("ol", { class: "history" }, ...found.map(momentItem));
    out.replaceChildren(chooser(number, found.map((one) => one.at)), list);
  };
  const key = [number, state.role, state.stamp].join(" ");
  if (cached.key !== key) {
    const last = await currentTime(number, sheet);
    cached = { key, result: await searchChanges(number, last, (n, found) => {
      progress.textContent = t("history.searching", { n });
      show(found);
    }) };
  }
  const { result } = cached;
  show(result.found);
  const text = result.found.length ? t("history.found", { n: result.found.length }) : t("history.none");
  progress.textContent = text + " " + t("history.howSearched", { n: result.requests }) +
    (result.failed ? " " + t("history.failed", { n: result.failed }) : "");
}

function momentItem({ at, before, after }) {
  const key = after === null ? "history.hidden" : before === null ? "history.shown" : "history.differs";
  return h("li", {}, h("a", { href: hrefAt(at), "aria-current": state.at === at ? "true" : "" }, when(at)),
    " ", t(key));
}

// The current time, also while the page shows an earlier one: from a title sheet, else from the gateway's
// clock.
async function currentTime(number, sheet) {
  if (sheet && state.at === null) return sheet.at;
  const now = await sheetOf(number, null);
  return now.status === 200 ? parseSheet(now.text).at : state.clock;
}

// Two moments to compare, with the state before each of them.
function chooser(number, moments) {
  if (moments.length < 2) return "";
  const result = h("div", {});
  const field = (key, value) => {
    const options = [["", t("compare.now")], ...moments.map((m) => [String(m), when(m).textContent])];
    const node = select(options, value, { id: "compare-" + key });
    return h("span", { class: "labelled" }, h("label", { for: "compare-" + key }, t("compare." + key)), node);
  };
  const value = (key) => {
    const text = form.querySelector("#compare-" + key).value;
    return text === "" ? null : Number(text);
  };
  const form = h("form", { class: "tools", onsubmit: async (event) => {
    event.preventDefault();
    result.replaceChildren(...await compareMoments(number, value("first"), value("second")));
    announce(result.querySelector("caption, h2").textContent);
  } }, field("first", String(moments[1])), field("second", ""), h("button", {}, t("compare.compare")));
  return h("details", {}, h("summary", {}, t("compare.title")), form, result);
}
