// The title sheet of a unit: parsed from the register's text, shown for people, and as the exact text.
import { objectOf, sheetOf, state } from "./api.js";
import { h, safeString, safeText } from "./dom.js";
import { button, hrefOf, named, small } from "./components.js";
import { decimal, money } from "./format.js";
import { when } from "./moments.js";
import { plan } from "./plan.js";
import { settings } from "./settings.js";
import { parts, t } from "./words.js";

// Parses a title sheet. Only line feeds end lines: a name may contain other line separators of Unicode.
export function parseSheet(text) {
  const lines = text.split("\n");
  const [, number, name] = /^Unit (\d+) ([^]*)$/.exec(lines[1]);
  const sheet = { number: Number(number), name, at: Date.parse(lines[2].slice(3)),
    checked: lines[3] === "Shares checked",
    area: lines[4].slice(5), parcels: [], entries: [] };
  let n = 6;
  for (let left = Number(lines[5].slice(8)); left > 0; left -= 1,
    n += 1) sheet.parcels.push(parseParcel(lines[n]));
  for (let left = Number(lines[n].slice(8)); left > 0; left -= 1) {
    n += 1;
    sheet.entries.push(parseEntry(lines[n]));
  }
  return sheet;
}

function parseParcel(line) {
  const [, number, area, label] = /^ *(\d+) {2} *(\d+\.\d{7}) {2}([^]*)$/.exec(line);
  return { number: Number(number), area, label };
}

// An entry's line. `name` and the content are separated by the last ": " that leaves a content of the class,
// since names may contain it.
function parseEntry(line) {
  const [, number, word, party, rest] = /^ *(\d+) {2}(\S+) +(\d+) ([^]*)$/.exec(line);
  const entry = { number: Number(number), class: word, party: Number(party), rest };
  const mortgage = word === "mortgage" && /^([^]*): rank (\d+) ([A-Z]{3}) (\d+)$/.exec(rest);
  if (mortgage) return { ...entry, name: mortgage[1], rank: Number(mortgage[2]), currency: mortgage[3],
    amount: Number(mortgage[4]) };
  const share = /^([^]*): (\d+\/\d+)$/.exec(rest);
  if (share && word !== "restriction" && word !== "responsibility") return { ...entry, name: share[1],
    share: share[2] };
  return entry;
}

// The entries of a sheet with their contents from the register: { number, class, party, share .. , name }.
// The text of a burden cannot be cut from its line for certain, because the name in front of it may contain
// ": ".
export function entriesOf(sheet, at = state.at) {
  return Promise.all(sheet.entries.map(async (e) => {
    if (e.name !== undefined) return e;
    const party = await objectOf("parties", e.party, at);
    if (party && e.rest.startsWith(party.name + ": ")) return { ...e, name: party.name,
      words: e.rest.slice(party.name.length + 2) };
    const entry = await objectOf("rrrs", e.number, at);
    return entry ? { ...e, words: entry.words, name: e.rest.slice(0, -entry.words.length - 2) } :
      { ...e, name: "", words: e.rest };
  }));
}

// A unit: { sheet, entries, parcels } or { reply } if it is not shown.
export async function loadUnit(number, at = state.at) {
  const reply = await sheetOf(number, at);
  if (reply.status !== 200) return { reply };
  const sheet = parseSheet(reply.text);
  const loaded = await Promise.all(sheet.parcels.map((p) => objectOf("parcels", p.number, at)));
  return { sheet, text: reply.text, parcels: loaded.filter(Boolean), entries: await entriesOf(sheet, at) };
}

export const SECTIONS = [
  ["sheet.owners", ["ownership"]], ["sheet.rights", ["lease", "usufruct"]],
  ["sheet.burdens", ["restriction", "responsibility"]], ["sheet.mortgages", ["mortgage"]],
];

export function detailOf(e) {
  if (e.share) return e.share;
  if (e.class === "mortgage") return money(e.amount, e.currency);
  return safeText(e.words || "");
}

function entryRow(e) {
  const kind = e.class === "ownership" ? "" : e.class === "mortgage" ? t("sheet.rank", { n: e.rank }) :
    t("class." + e.class);
  return h("li", { class: e.share || e.amount ? "" : "worded" }, h("span", { class: "holder" }, named("parties", e.party, e.name)),
    h("span", { class: "detail" }, detailOf(e)), h("span", { class: "kind" }, kind),
    h("a", { class: "entry-number no-print", href: hrefOf("rrrs", e.number) },
      t("sheet.entry", { n: String(e.number) })));
}

function section([key, classes], entries) {
  const found = entries.filter((e) => classes.includes(e.class));
  if (found.length === 0 && key !== "sheet.owners") return "";
  return h("section", {}, h("h3", {}, t(key)), h("ul", { class: "entries" }, ...found.map(entryRow)));
}

// The sheet for people: letterhead, owners, rights, burdens, mortgages, parcels and plan. It prints on one
// page.
export function sheetView({ sheet, text, parcels, entries }) {
  const exact = h("pre", { class: "sheet", tabindex: "0", role: "region",
    "aria-label": t("sheet.exactName", { n: String(sheet.number) }) },
    safeText(text));
  const parcelRows = sheet.parcels.map((p) => h("li", {}, h("a", { href: hrefOf("parcels", p.number) },
    safeText(p.label), small(p.number)),
    h("span", { class: "detail" }, decimal(p.area) + " m²")));
  return h("section", { class: "panel paper" },
    h("header", { class: "letterhead" }, h("p", { class: "office" }, settings.office || t("app.title")),
      h("p", { class: "document" }, t("sheet.title"))),
    h("h2", {}, safeText(sheet.name), h("span", { class: "num" }, " " + t("one.units") + " " + sheet.number)),
    h("p", { class: "as-of" }, ...parts("sheet.asOf", { when: when(sheet.at) })),
    ...SECTIONS.map((one) => section(one, entries)),
    h("section", {}, h("h3", {}, t("sheet.parcels", { area: decimal(sheet.area) })),
      h("ul", { class: "entries plots" }, ...parcelRows)),
    h("div", { class: "paper-plan" }, plan(parcels.map((p) => ({ ...p, here: true,
      href: hrefOf("parcels", p.number) })))),
    h("p", { class: "stamp" }, t("sheet.issued", { name: safeString(state.name || ""), n: String(state.me),
      role: t("role." + state.role) }) + " " + t(sheet.checked ? "sheet.checked" : "sheet.unchecked")),
    h("p", { class: "tools no-print" }, button(t("sheet.print"), () => window.print(), { class: "main" })),
    h("details", { class: "no-print" }, h("summary", {}, t("sheet.exact")), exact));
}
