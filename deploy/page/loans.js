// A bank's mortgages by loan. A subdivision copies a mortgage to each new unit, with the same document,
// amount and rank: one loan.
import { numbersOf, objectOf, state } from "./api.js";
import { button, csvOf, download, errorBox, hrefOf, panel, small, table, unitLink } from "./components.js";
import { h } from "./dom.js";
import { money } from "./format.js";
import { allOf } from "./mirror.js";
import { t } from "./words.js";

const PAGE = 20;

// All mortgages of the bank: { entries, reply }.
async function mortgages() {
  const found = await allOf("rrrs", { class: "mortgage", party: state.me });
  if (found) return { entries: found.objects };
  const { numbers, reply } = await numbersOf("rrrs");
  if (numbers === null) return { reply };
  const entries = await Promise.all(numbers.map((n) => objectOf("rrrs", n)));
  return { entries: entries.filter((e) => e && e.class === "mortgage" && e.party === state.me) };
}

// The loans, newest first: the entries of one document with the same amount.
export function loansOf(entries) {
  const loans = new Map();
  for (const e of entries) {
    const key = [e.party, e.source, e.currency, e.amount].join(" ");
    if (!loans.has(key)) loans.set(key, { ...e, entries: [] });
    loans.get(key).entries.push(e);
  }
  return [...loans.values()].sort((a, b) => b.source - a.source);
}

export function totalsOf(loans) {
  const sums = new Map();
  for (const loan of loans) sums.set(loan.currency, (sums.get(loan.currency) || 0n) + BigInt(loan.amount));
  return [...sums].map(([currency, sum]) => money(sum, currency)).join(", ") || t("loans.nothing");
}

async function loanRow(loan) {
  const units = await Promise.all(loan.entries.map(async (e) => h("div", {}, await unitLink(e.unit))));
  const entries = loan.entries.map((e) => h("div", {}, h("a", { href: hrefOf("rrrs", e.number) },
    t("sheet.rank", { n: e.rank }), small(e.number))));
  return [units, entries, money(loan.amount, loan.currency)];
}

export async function loansPanel() {
  const { entries, reply } = await mortgages();
  if (reply) return errorBox(reply);
  const loans = loansOf(entries);
  const body = h("div", {});
  let shown = 0;
  const add = async () => {
    const rows = await Promise.all(loans.slice(shown, shown + PAGE).map(loanRow));
    shown += PAGE;
    body.append(table(t("loans.caption", { n: loans.length, entries: entries.length }),
      [t("loans.units"), t("loans.entries"), "#" + t("content.amount")], rows));
    more.hidden = shown >= loans.length;
  };
  const more = button(t("page.more"), add);
  const save = button(t("csv.save"), () => download("loans.csv",
    csvOf(t("csv.loans").split(","), loans.map((loan) =>
    [loan.source, loan.amount, loan.currency, loan.entries.map((e) => e.unit).join(" "),
      loan.entries.map((e) => e.number).join(" ")])), "text/csv"));
  await add();
  return panel(t("loans.title"), h("p", { class: "sum" }, t("loans.total",
    { n: loans.length, total: totalsOf(loans) })), h("div", { class: "tools no-print" }, save), body, more);
}
