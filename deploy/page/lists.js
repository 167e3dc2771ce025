// Lists of a kind: newest first, in pages, with a filter and CSV. With the mirror a page is one request.
import { numbersOf, objectOf, state } from "./api.js";
import {
  button, classOf, csvOf, download, entryText, errorBox, hrefOf, kindOfParty, labelled, many, named, panel,
    partyLink, pastNotice,
  queryOf, rolesText, select, small, table, unitLink,
} from "./components.js";
import { h, safeText } from "./dom.js";
import { mayList } from "./find.js";
import { ask, pageOf } from "./mirror.js";
import { formatMoment, when } from "./moments.js";
import { mutationTitle } from "./mutations.js";
import { areaOf, plan } from "./plan.js";
import { t } from "./words.js";

const PAGE = 20;

// The columns of a kind: their headings, the cells of an object, and the texts of its row in a file.
const COLUMNS = {
  units: [["col.name", "col.shares"], async (o) => [named("units", o.number, o.name),
    t(o.checked ? "shares.checked" : "shares.unchecked")],
    (o) => [o.number, o.name, o.checked]],
  parties: [["col.name", "col.kind", "col.roles"], async (o) => [named("parties", o.number, o.name),
    kindOfParty(o), rolesText(o.roles)],
    (o) => [o.number, o.name, o.kind, o.roles.join(" ")]],
  parcels: [["col.label", "col.unit", "#col.area"],
    async (o) => [named("parcels", o.number, o.label), await unitLink(o.unit), areaOf(o.outline) + " m²"],
    (o) => [o.number, o.label, o.unit, areaOf(o.outline), o.outline]],
  rrrs: [["col.entry", "col.unit", "col.holder", "col.details"],
    async (o) => [h("a", { href: hrefOf("rrrs", o.number) }, classOf(o), small(o.number)),
      await unitLink(o.unit),
      await partyLink(o.party), entryText(o)],
    (o) => [o.number, o.class, o.unit, o.party, o.share || o.words || o.amount, o.currency || "", o.rank ||
      ""]],
  sources: [["col.document", "col.kind"], async (o) => [named("sources", o.number, o.title),
    t("source." + o.kind)],
    (o) => [o.number, o.title, o.kind]],
  mutations: [["col.request", "col.reference", "col.lodged", "col.state"],
    async (o) => [await mutationTitle(o), safeText(o.reference), when(o.lodged), t("state." + o.state)],
    (o) => [o.number, o.act, o.reference, formatMoment(o.lodged), o.state, o.lodger]],
};

const heads = (kind) => COLUMNS[kind][0].map((key) => (key.startsWith("#") ? "#" + t(key.slice(1)) : t(key)));

export async function tableOf(kind, objects, caption) {
  return table(caption, heads(kind), await Promise.all(objects.map(COLUMNS[kind][1])));
}

// One page of objects: { objects, from, total, more }. With the mirror the total is unknown.
async function pageFrom(kind, from, sort) {
  const found = await pageOf(kind, { sort, limit: PAGE, skip: from });
  if (found) return { objects: found.objects, from, more: found.more };
  const { numbers, reply } = await numbersOf(kind);
  if (numbers === null) return { reply };
  if (sort !== "number") numbers.reverse();
  const first = Math.min(from, Math.max(0, Math.floor((numbers.length - 1) / PAGE) * PAGE));
  const objects = await Promise.all(numbers.slice(first, first + PAGE).map((n) => objectOf(kind, n)));
  return { objects: objects.filter(Boolean), from: first, total: numbers.length, more: first +
    PAGE < numbers.length };
}

function pager(kind, { from, more, total }, sort) {
  const step = (to, key) => h("a", { href: "#/" + kind + queryOf(state.at) + "&from=" + to + "&sort=" +
    sort }, t(key));
  const last = total && Math.floor((total - 1) / PAGE) * PAGE;
  const back = from > 0 ? [step(0, "page.first"), step(Math.max(0, from - PAGE), "page.previous")] : [];
  const on = more ? [step(from + PAGE, "page.next"), ...(last ? [step(last, "page.last")] : [])] : [];
  return back.length + on.length ? h("nav", { class: "tools", "aria-label": t("page.pages") }, ...back,
    ...on) : "";
}

const SORTS = { newest: "-number", oldest: "number", name: "name" };

function sortField(kind, sort) {
  const options = Object.keys(SORTS).filter((key) => key !== "name" ||
    !["rrrs", "mutations"].includes(kind)).map((key) => [key, t("sort." + key)]);
  const field = select(options, sort, { onchange: () => { location.hash = "#/" + kind + queryOf(state.at) +
    "&sort=" + field.value; } });
  return labelled(t("sort.by"), field);
}

// Saves the list: the mirror's extract of all visible objects, else the rows of the page shown.
async function save(kind, objects) {
  const reply = await ask("extracts/" + kind + ".csv");
  const rows = objects.map(COLUMNS[kind][2]);
  const text = reply && reply.status === 200 ? reply.text : csvOf(t("csv." + kind).split(","), rows);
  download(kind + ".csv", text, "text/csv");
}

export async function listView(kind, { from = 0, sort = "newest" } = {}) {
  const title = many(kind);
  const order = Object.hasOwn(SORTS, sort) ? sort : "newest";
  const page = await pageFrom(kind, from, SORTS[order]);
  if (page.reply) return [title, pastNotice(), errorBox(page.reply)];
  if (page.objects.length === 0) return [title, pastNotice(),
    h("p", {}, t(mayList(kind) ? "list.none" : "list.notInRole"))];
  const { objects } = page;
  const range = { from: page.from + 1, to: page.from + objects.length, kind: title };
  const caption = page.total ? t("list.range", { ...range, total: page.total }) : t("list.rangeOpen", range);
  const view = [title, pastNotice(), h("div", { class: "tools" }, sortField(kind, order),
    button(t("csv.save"), () => save(kind, objects))), panel("", await tableOf(kind, objects, caption)),
      pager(kind, page, order)];
  if (kind === "parcels") {
    view.push(panel(t("list.theseParcels"), plan(objects.map((o) => ({ ...o,
      href: hrefOf("parcels", o.number) })))));
  }
  return view;
}
