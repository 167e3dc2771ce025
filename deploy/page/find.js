// Finds objects by a part of a name, by number, or by the beginning of a document's title: with the mirror,
// else in the objects that the register lists. The text that is searched stays out of the address bar.
import { numbersOf, objectOf, state } from "./api.js";
import { ask, hasMirror, pageOf } from "./mirror.js";

export const SEARCHED = ["units", "parties", "parcels", "sources"];
const NUMBERED = ["units", "parties", "parcels", "rrrs", "mutations", "sources"];
const MOST_READ = 600;
const SHOWN = 8;

const textOf = (o) => o.name || o.label || o.title || "";

// The objects of a kind that the caller may see, without a mirror: { objects, total }, at most MOST_READ of
// them, read once.
let index = new Map();

export function forgetIndex() {
  index = new Map();
}

function indexOf(kind) {
  const key = [kind, state.role, state.at, state.stamp].join(" ");
  if (!index.has(key)) index.set(key, readIndex(kind));
  return index.get(key);
}

async function readIndex(kind) {
  const { numbers } = await numbersOf(kind);
  if (numbers === null) return { objects: [], total: 0 };
  const found = await Promise.all(numbers.slice(-MOST_READ).map((n) => objectOf(kind, n)));
  return { objects: found.filter(Boolean), total: numbers.length };
}

async function findInIndex(kind, text) {
  const { objects, total } = await indexOf(kind);
  const words = text.toLocaleLowerCase();
  const found = objects.filter((o) => textOf(o).toLocaleLowerCase().includes(words)).slice(0, SHOWN);
  return { found: found.map((o) => ({ kind, number: o.number, text: textOf(o), unit: o.unit })),
    partial: total > objects.length };
}

// Documents by the beginning of their title, by binary search in the list that the mirror sorts by title.
async function findSources(text) {
  const at = async (skip) => (await pageOf("sources", { sort: "name", limit: SHOWN, skip }) ||
    { objects: [] }).objects;
  let [low, high] = [0, 1];
  while (high < 10000000 && (await at(high))[0] && (await at(high))[0].title < text) [low, high] = [high,
    high * 2];
  while (low < high) {
    const middle = (low + high) >> 1;
    const first = (await at(middle))[0];
    if (first && first.title < text) low = middle + 1;
    else high = middle;
  }
  return (await at(low)).filter((o) => o.title.startsWith(text)).map((o) => ({ kind: "sources",
    number: o.number, text: o.title }));
}

async function findInMirror(kind, text) {
  if (kind === "sources") {
    const variants = new Set([text, text[0].toUpperCase() + text.slice(1)]);
    return { found: (await Promise.all([...variants].map(findSources))).flat(), partial: false };
  }
  if ([...text].length < 2) return { found: [], partial: false };
  const reply = await ask("search/" + kind, { q: text, limit: SHOWN });
  if (reply === null) return null;
  const found = reply.status === 200 ? reply.body.found : [];
  return { found: found.map((o) => ({ kind, number: o.number, text: textOf(o), unit: o.unit })),
    partial: false };
}

// The objects of some kinds with a number.
export async function findNumber(kinds, number) {
  const found = await Promise.all(kinds.map(async (kind) => {
    const o = await objectOf(kind, number);
    return o && { kind, number, text: textOf(o), unit: o.unit, exact: true };
  }));
  return found.filter(Boolean);
}

// Finds objects of some kinds: { found: [{ kind, number, text, unit, exact }], partial }. `partial`: not all
// objects were searched.
export async function find(text, kinds = SEARCHED) {
  const words = text.trim();
  if (words === "") return { found: [], partial: false };
  const numbered = /^\d{1,10}$/.test(words) && Number(words) > 0
    ? findNumber(kinds === SEARCHED ? NUMBERED : kinds, Number(words)) : Promise.resolve([]);
  const seen = kinds.filter((kind) => mayList(kind));
  const byName = await Promise.all(seen.map(async (kind) => (await hasMirror() &&
    await findInMirror(kind, words)) ||
    findInIndex(kind, words)));
  const exact = await numbered;
  const others = byName.flatMap((one) => one.found).filter((o) => !exact.some((e) => e.kind === o.kind &&
    e.number === o.number));
  return { found: [...exact, ...others], partial: byName.some((one) => one.partial) };
}

// Whether a role sees objects of a kind at all. The register decides; this only saves requests whose reply is
// always an empty list.
export function mayList(kind) {
  if (kind === "sources") return ["notary", "stateAdministrator"].includes(state.role);
  if (state.role === "certifiedSurveyor") return kind === "parcels" || kind === "mutations";
  return true;
}

// Whether a role sees all objects of a kind, so that a number without an object does not exist.
export function seesAll(kind) {
  return ["notary", "stateAdministrator"].includes(state.role) || kind === "parcels";
}
