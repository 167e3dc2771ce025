// Mutations in words: a title with names, the contents, and the changes side by side.
import { objectOf, state } from "./api.js";
import { h, safeString, safeText } from "./dom.js";
import { classOf, hrefOf, link, nameOf, named, parcelLink, partyLink, small, table,
  unitLink } from "./components.js";
import { money } from "./format.js";
import { areaOf, plan } from "./plan.js";
import { shareText, readShare } from "./shares.js";
import { loadUnit, detailOf } from "./sheet.js";
import { t } from "./words.js";

const MAY_SEE_UNITS = () => state.role !== "certifiedSurveyor";

const unitName = (n) => (MAY_SEE_UNITS() ? nameOf("units", n) : Promise.resolve(t("one.units") + " " + n));
const partyName = (n) => (MAY_SEE_UNITS() ? nameOf("parties", n) :
  Promise.resolve(t("one.parties") + " " + n));

async function parcelName(number) {
  const parcel = await objectOf("parcels", number);
  return t("one.parcels") + " " + (parcel ? safeString(parcel.label) : number);
}

// "Transfer of 1/2 of Garden to Ben".
export async function titleText({ act, content }) {
  const values = { unit: await unitName(content.unit) };
  if (act === "transfer") Object.assign(values, { share: content.share,
    receiver: await partyName(content.receiver) });
  if (act === "mortgage") {
    Object.assign(values, { amount: money(content.amount, content.currency),
      creditor: await partyName(content.creditor) });
  }
  if (act === "subdivision") Object.assign(values, { n: content.rest.length + 1,
    parcel: await parcelName(content.parcel) });
  if (act === "merger") values.n = content.parcels.length;
  return t("mutation." + act, values);
}

// The title as a link, with the number small next to it.
export async function mutationTitle(o) {
  return h("a", { href: hrefOf("mutations", o.number) }, safeText(await titleText(o)), small(o.number));
}

export function refersTo(mutation, unit) {
  return mutation.content.unit === unit || (mutation.content.others || []).includes(unit);
}

// The contents as pairs of a name and a value.
export async function contentRows({ act, content: c }) {
  const list = async (numbers, of) => (await Promise.all(numbers.map((n) => of(n)))).flatMap((one, n) => [n ?
    ", " : "", one]);
  const part = (p) => [safeText(p.label), ", " + areaOf(p.outline) + " m²",
    ...(p.unit ? [", " + t("content.newUnit") + " ", safeText(p.unit)] : [])];
  const rows = [[t("one.units"), await unitLink(c.unit)]];
  if (act === "transfer") {
    rows.push([t("content.right"), await rightLink(c.right)],
      [t("content.receiver"), await partyLink(c.receiver)],
      [t("content.share"), c.share]);
  } else if (act === "mortgage") {
    rows.push([t("content.creditor"), await partyLink(c.creditor)],
      [t("content.amount"), money(c.amount, c.currency)]);
  } else if (act === "discharge") {
    rows.push([t("class.mortgage"), await rightLink(c.mortgage)]);
  } else if (act === "subdivision") {
    rows.push([t("content.parcel"), await parcelLink(c.parcel)],
      ...[c.first, ...c.rest].map((p, n) => [t("content.part", { n: n + 1 }), ...part(p)]));
  } else if (act === "merger") {
    rows.push(...(c.others.length ? [[t("content.others"), ...await list(c.others, unitLink)]] : []),
      [t("content.parcels"), ...await list(c.parcels, parcelLink)],
      [t("content.newParcel"), safeText(c.label), ", " + areaOf(c.outline) + " m²"]);
  }
  return rows;
}

async function rightLink(number) {
  const entry = await objectOf("rrrs", number);
  if (!entry) return link("rrrs", number);
  const party = await objectOf("parties", entry.party);
  return h("a", { href: hrefOf("rrrs", number) }, classOf(entry) + " ", party ? safeText(party.name) : "",
    small(number));
}

// ---- the changes side by side

const zero = { num: 0n, den: 1n };
const sum = (a, b, sign) => ({ num: a.num * b.den + sign * b.num * a.den, den: a.den * b.den });
const lowest = ({ num, den }) => {
  const gcd = (x, y) => (y === 0n ? x : gcd(y, x % y));
  const by = gcd(num < 0n ? -num : num, den) || 1n;
  return { num: num / by, den: den / by };
};

const nothing = () => h("span", { class: "lead" }, t("change.nothing"));

async function transferRows(c, entries) {
  const right = entries.find((e) => e.number === c.right);
  if (!right || !right.share) return [[t("content.right"), link("rrrs", c.right),
    h("span", { class: "wrong" }, t("change.noRight"))]];
  const share = readShare(c.share);
  const left = lowest(sum(readShare(right.share), share, -1n));
  const same = entries.find((e) => e.class === right.class && e.party === c.receiver);
  const grown = lowest(sum(same ? readShare(same.share) : zero, share, 1n));
  const text = (x) => (x.num === 0n ? nothing() : x.num < 0n ?
    h("span", { class: "wrong" }, t("change.tooMuch")) : shareText(x));
  const receiver = await objectOf("parties", c.receiver);
  return [
    [[t("class." + right.class) + ": ", named("parties", right.party, right.name)], right.share, text(left)],
    [[t("class." + right.class) + ": ", receiver ? named("parties", c.receiver, receiver.name) :
      link("parties", c.receiver)],
      same ? same.share : nothing(), grown.num > grown.den ?
        h("span", { class: "wrong" }, t("change.tooMuch")) : shareText(grown)]];
}

async function mortgageRows(c, entries) {
  const ranks = entries.filter((e) => e.class === "mortgage").map((e) => e.rank);
  const rank = Math.max(0, ...ranks) + 1;
  return [[[t("class.mortgage") + ": ", await partyLink(c.creditor)], nothing(),
    t("entry.mortgage", { rank, amount: money(c.amount, c.currency) })]];
}

function dischargeRows(c, entries) {
  const found = entries.find((e) => e.number === c.mortgage);
  return [[[t("class.mortgage") + ": ", found ? named("parties", found.party, found.name) :
    link("rrrs", c.mortgage)],
    found ? detailOf(found) : h("span", { class: "wrong" }, t("change.noEntry")), nothing()]];
}

async function parcelRows(act, c) {
  const old = await Promise.all((act === "merger" ? c.parcels :
    [c.parcel]).map((n) => objectOf("parcels", n)));
  const fresh = act === "merger" ? [{ label: c.label, outline: c.outline }] : [c.first, ...c.rest];
  const text = (p) => [safeText(p.label), ", " + areaOf(p.outline) + " m²"];
  const before = old.map((p, n) => (p ? h("div", {}, ...text(p)) :
    h("div", { class: "wrong" }, t("change.noParcel",
    { n: String(act === "merger" ? c.parcels[n] : c.parcel) }))));
  const after = fresh.map((p) => h("div", {}, ...text(p), p.unit ?
    [", " + t("content.newUnit") + " ", safeText(p.unit)] : ""));
  return { row: [t("many.parcels"), before, after], old: old.filter(Boolean), fresh };
}

// The panel with the state now and after an approval, or "" if the caller may not see the unit.
export async function changesOf({ act, content: c }) {
  const rows = [];
  const drawings = [];
  if (act === "subdivision" || act === "merger") {
    const { row, old, fresh } = await parcelRows(act, c);
    rows.push(row);
    if (old.length) drawings.push(h("figure", {}, h("figcaption", {}, t("change.now")), plan(old)));
    drawings.push(h("figure", {}, h("figcaption", {}, t("change.after")),
      plan(fresh.map((p, n) => ({ ...p, number: n + 1, here: true })))));
    if (act === "merger" && c.others.length) rows.push([t("content.others"), await names(c.others),
      nothing()]);
  } else {
    const { entries } = await loadUnit(c.unit);
    if (!entries) return "";
    rows.push(...await { transfer: transferRows, mortgage: mortgageRows, discharge: dischargeRows }[act](c,
      entries));
  }
  return [table(t("change.caption"), [t("change.what"), t("change.now"), t("change.after")], rows, "changes"),
    drawings.length ? h("div", { class: "side-by-side" }, ...drawings) : ""];
}

const names = async (numbers) => (await Promise.all(numbers.map((n) => nameOf("units",
  n)))).map((one) => h("div", {}, safeString(one)));
