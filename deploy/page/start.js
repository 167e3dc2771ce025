// The start page of each role: its work, and the acts that it may do.
import { numbersOf, objectOf, sheetOf, state } from "./api.js";
import { ACTS_OF } from "./acts.js";
import {
  button, csvOf, download, errorBox, hrefOf, labelled, lead, named, panel, pastNotice, select, table,
    unitLink,
} from "./components.js";
import { h, safeText } from "./dom.js";
import { decimal } from "./format.js";
import { loansPanel } from "./loans.js";
import { mandatesPanel } from "./mandates.js";
import { allOf, pageOf } from "./mirror.js";
import { formatMoment, when } from "./moments.js";
import { mutationTitle, titleText } from "./mutations.js";
import { entriesOf, parseSheet } from "./sheet.js";
import { undecided } from "./undecided.js";
import { t } from "./words.js";

const PAGE = 20;
export const titleOf = (role) => t("start." + role);

export async function startView() {
  const view = [titleOf(state.role), lead(t("start.lead." + state.role)), pastNotice(), actsPanel()];
  if (state.role === "citizen") view.push(...await Promise.all([landPanel(), mandatesPanel()]));
  if (state.role === "bank") view.push(await loansPanel());
  if (state.role === "stateAdministrator") view.push(undecidedPanel());
  else if (state.role !== "citizen") view.push(await lodgingsPanel());
  return view;
}

function actsPanel() {
  if (state.at !== null) return "";
  const acts = ACTS_OF[state.role] || [];
  return h("p", { class: "tools acts no-print" }, ...acts.map((name) => h("a",
    { class: "button", href: hrefOf("do", name) }, t("act." + name))));
}

// ---- a citizen's land

async function landPanel() {
  const { numbers, reply } = await numbersOf("units");
  if (numbers === null) return errorBox(reply);
  if (numbers.length === 0) return panel("", h("p", {}, t("land.none")));
  const body = h("div", {});
  let shown = 0;
  const add = async () => {
    const rows = await Promise.all(numbers.slice(shown, shown + PAGE).map(landRow));
    shown += PAGE;
    body.append(table(t("land.count", { n: numbers.length }), [t("col.name"), t("land.right"), t("col.area")],
      rows));
    more.hidden = shown >= numbers.length;
  };
  const more = button(t("page.more"), add);
  await add();
  return panel("", body, more);
}

// A unit with the caller's own right in it. A unit without one is seen by a mandate.
async function landRow(number) {
  const reply = await sheetOf(number);
  if (reply.status !== 200) return [await unitLink(number), "", ""];
  const sheet = parseSheet(reply.text);
  const entries = (await entriesOf(sheet)).filter((e) => e.share);
  const groups = await Promise.all(entries.map((e) => objectOf("parties", e.party)));
  const mine = entries.filter((e, n) => e.party === state.me ||
    (groups[n] && groups[n].members.some((m) => m.party === state.me)));
  const rights = mine.map((e) => h("div", {}, t("class." + e.class) + " " + e.share, e.party === state.me ?
    "" : [", ", safeText(e.name)]));
  return [named("units", number, sheet.name), rights.length ? rights : t("land.mandate"),
    decimal(sheet.area) + " m²"];
}

// ---- the office: all that is undecided, oldest first

function undecidedPanel() {
  const all = [];
  const status = h("p", { class: "lead", role: "status" }, t("loading"));
  const body = h("div", {});
  const act = select([["", t("work.all")], ...["transfer", "subdivision", "merger", "mortgage",
    "discharge"].map((a) => [a, t("act." + a)])], "",
    { onchange: () => draw() });
  const words = h("input", { type: "search", oninput: () => draw() });
  let shown = PAGE;
  let loaded = false;
  const more = button(t("page.more"), () => {
    shown += PAGE;
    draw();
  });
  const wanted = () => all.filter((o) => (!act.value || o.act === act.value) &&
    (o.title + " " + o.reference).toLowerCase().includes(words.value.toLowerCase()));

  async function draw() {
    const list = wanted();
    const rows = await Promise.all(list.slice(0, shown).map(async (o) => [await mutationTitle(o),
      safeText(o.reference), await lodgerLink(o), when(o.lodged)]));
    body.replaceChildren(table(t("work.undecided", { n: list.length }),
      [t("col.request"), t("col.reference"), t("col.lodger"), t("col.lodged")], rows));
    more.hidden = shown >= list.length;
    body.hidden = all.length === 0;
    if (loaded) status.textContent = all.length === 0 ? t("work.nothing") :
      list.length < all.length ? t("work.filtered", { n: list.length, total: all.length }) :
        t("work.waiting", { n: all.length });
  }

  async function load() {
    await undecided(async (o) => {
      all.push({ ...o, title: await titleText(o) });
      if (all.length <= PAGE) await draw();
    }, (read, total) => { status.textContent = t("work.reading", { read, total }); });
    loaded = true;
    await draw();
  }
  load();
  const save = button(t("csv.save"), () => download("undecided.csv", csvOf(t("csv.undecided").split(","),
    wanted().map((o) => [o.number, o.act, o.title, o.reference, o.lodger, formatMoment(o.lodged)])),
      "text/csv"));
  return panel(t("work.undecidedTitle"), status, h("div", { class: "tools no-print" },
    labelled(t("work.act"), act), labelled(t("work.filter"), words), save), body, more);
}

async function lodgerLink(o) {
  const party = await objectOf("parties", o.lodger);
  return party ? named("parties", o.lodger, party.name) : String(o.lodger);
}

// ---- what the caller lodged, newest first

// The caller's lodgings from a place on: { objects, next }; `next` is null at the end.
async function lodgings(from, wanted) {
  const page = await pageOf("mutations", { lodger: state.me, sort: "-number", limit: PAGE, skip: from,
    ...(wanted ? { state: wanted } : {}) });
  if (page) return { objects: page.objects, next: page.more ? from + PAGE : null };
  const { numbers, reply } = await numbersOf("mutations");
  if (numbers === null) return { objects: [], next: null, reply };
  numbers.reverse();
  const found = [];
  let place = from;
  while (place < numbers.length && found.length < PAGE) {
    const some = await Promise.all(numbers.slice(place, place + PAGE).map((n) => objectOf("mutations", n)));
    found.push(...some.filter((o) => o && o.lodger === state.me && (!wanted || o.state === wanted)));
    place += PAGE;
  }
  return { objects: found, next: place < numbers.length ? place : null };
}

async function lodgingsPanel() {
  const body = h("tbody", {});
  const filter = select([["", t("work.all")], ...["lodged", "approved",
    "refused"].map((s) => [s, t("state." + s)])], "", { onchange: () => restart() });
  let next = 0;
  const status = h("p", { class: "lead", role: "status" });
  const grid = table(t("work.yours"), [t("col.request"), t("col.reference"), t("col.lodged"), t("col.state")],
    []);
  grid.querySelector("tbody").replaceWith(body);
  const heads = ["col.request", "col.reference", "col.lodged", "col.state"].map((key) => t(key));
  const more = button(t("page.more"), () => load());

  async function load() {
    const { objects, next: after } = await lodgings(next, filter.value);
    for (const o of objects) {
      const cells = [await mutationTitle(o), safeText(o.reference), when(o.lodged),
        h("span", { class: "state " + o.state }, t("state." + o.state))];
      body.append(h("tr", {}, ...cells.map((cell, n) => h("td", { "data-head": heads[n] }, cell))));
    }
    next = after;
    more.hidden = next === null;
    status.textContent = body.childElementCount ? t("list.shown", { n: body.childElementCount }) :
      t("work.noLodgings");
  }

  async function restart() {
    next = 0;
    body.replaceChildren();
    await load();
  }
  await load();
  const save = button(t("csv.save"), async () => {
    const found = await allOf("mutations", { lodger: state.me, sort: "-number" });
    const objects = found ? found.objects : (await everyLodging());
    download("lodgings.csv", csvOf(t("csv.mutations").split(","),
      objects.map((o) => [o.number, o.act, o.reference, formatMoment(o.lodged), o.state, o.lodger])),
      "text/csv");
  });
  return panel(t("work.yoursTitle"), h("div", { class: "tools no-print" }, labelled(t("col.state"), filter),
    save), status, grid, more);
}

async function everyLodging() {
  const found = [];
  for (let place = 0; place !== null;) {
    const some = await lodgings(place, "");
    found.push(...some.objects);
    place = some.next;
  }
  return found;
}

