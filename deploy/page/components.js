// The components of views.
import { state, objectOf } from "./api.js";
import { h, newId, safeString, safeText } from "./dom.js";
import { count, money } from "./format.js";
import { explain } from "./explain.js";
import { when } from "./moments.js";
import { parts, t } from "./words.js";

export const KINDS = ["units", "parcels", "rrrs", "parties", "mutations", "sources"];
export const one = (kind) => t("one." + kind);
export const many = (kind) => t("many." + kind);

// The URL of a view: path, role and time. It has no text of the register and nothing that a user typed.
export const hrefOf = (...path) => "#/" + path.join("/") + queryOf(state.at);

// The URL of the current view at another time.
export const hrefAt = (at) => location.hash.split("?")[0] + queryOf(at);

export function queryOf(at) {
  const words = new URLSearchParams({ role: state.role });
  if (at !== null) words.set("at", at);
  return "?" + words;
}

export const link = (kind, number, text = one(kind) + " " + number) => h("a", { href: hrefOf(kind, number) },
  text);

// The number of an object, small, after its name.
export const small = (number) => h("span", { class: "num" }, "\u00a0" + number);

// A name with the number small next to it, as a link.
export const named = (kind, number, name) => h("a", { href: hrefOf(kind, number) }, safeText(name),
  small(number));

export async function partyLink(number, at = state.at) {
  const party = await objectOf("parties", number, at);
  return party ? named("parties", number, party.name) : link("parties", number);
}

export async function unitLink(number, at = state.at) {
  const unit = await objectOf("units", number, at);
  return unit ? named("units", number, unit.name) : link("units", number);
}

export async function parcelLink(number, at = state.at) {
  const parcel = await objectOf("parcels", number, at);
  return parcel ? h("a", { href: hrefOf("parcels", number) }, one("parcels") + " ", safeText(parcel.label),
    small(number))
    : link("parcels", number);
}

// The name of an object as a string, for titles.
export async function nameOf(kind, number, at = state.at) {
  const found = await objectOf(kind, number, at);
  return found ? safeString(found.name || found.label || found.title || "") : one(kind) + " " + number;
}

// The message for a reply that is not 200.
export function errorBox(reply, more) {
  const error = explain(reply.status, reply.body);
  return h("div", { class: "message", role: "alert" }, h("h2", {}, error.title),
    h("p", {}, error.text + " ", error.mark ? h("span", { class: "mark" }, "(" + error.mark + ")") : ""),
      more);
}

export const message = (title, ...content) => h("div", { class: "message", role: "alert" },
  h("h2", {}, title), ...content);

// A screen reader announces it only in a live region that exists before: `.answer` of a form, or #status.
export const success = (title, ...content) => h("div", { class: "message success" },
  title ? h("h2", {}, title) : "", h("p", {}, ...content));

// A notice that the view shows an earlier time.
export function pastNotice() {
  if (state.at === null) return "";
  return h("p", { class: "past" }, ...parts("past.notice", { when: when(state.at) }), " ",
    h("a", { href: hrefAt(null), class: "no-print" }, t("past.now")));
}

export const panel = (heading, ...content) =>
  h("section", { class: "panel" }, heading ? h("h2", {}, heading) : "", ...content);

export const lead = (text) => h("p", { class: "lead" }, text);

// A table. A heading that starts with # marks a column of numbers. On narrow screens each row becomes a
// block.
export function table(caption, heads, rows, name = "") {
  const kind = heads.map((text) => (text.startsWith("#") ? "number" : ""));
  const plain = heads.map((text) => text.replace(/^#/, ""));
  return h("div", { class: "scroll" }, h("table", { class: name }, h("caption", {}, caption),
    h("thead", {}, h("tr", {}, ...plain.map((text, n) => h("th", { scope: "col", class: kind[n] }, text)))),
    h("tbody", {}, ...rows.map((row) => h("tr", {}, ...row.map((cell, n) =>
      h("td", { class: kind[n], "data-head": plain[n] }, cell)))))));
}

export const classOf = (entry) => t("class." + entry.class);

// The details of an entry: its share, its text, or rank and amount.
export function entryText(entry) {
  if (entry.share) return t("entry.share", { share: entry.share });
  if (entry.words) return safeText(entry.words);
  return t("entry.mortgage", { rank: entry.rank, amount: money(entry.amount, entry.currency) });
}

export const kindOfParty = (party) =>
  (party.kind === "group" ? t("party.group", { n: party.members.length }) : t("party." + party.kind));

export const rolesText = (roles) => roles.map((role) => t("role." + role)).join(", ") || t("none");

export const button = (text, act, more = {}) => h("button", { type: "button", onclick: act, ...more }, text);

// A label with its field.
export function labelled(text, field, more = {}) {
  if (!field.id) field.id = newId("field");
  return h("span", { class: "labelled", ...more }, h("label", { for: field.id }, text), field);
}

export function select(options, value, more = {}) {
  const node = h("select", more, ...options.map(([key, text]) => new Option(text, key)));
  node.value = value;
  return node;
}

// Offers a text as a file.
export function download(name, text, type) {
  const url = URL.createObjectURL(new Blob([text], { type }));
  const anchor = h("a", { href: url, download: name });
  document.body.append(anchor);
  anchor.click();
  anchor.remove();
  setTimeout(() => URL.revokeObjectURL(url), 10000);
}

// Cells as CSV. A cell that a spreadsheet program would execute as a formula gets an apostrophe in front.
export function csvOf(heads, rows) {
  const cell = (value) => {
    const text = String(value).replace(/^[=+\-@\t\r]/, "'$&");
    return /[",\n\r]/.test(text) ? '"' + text.replaceAll('"', '""') + '"' : text;
  };
  return [heads, ...rows].map((row) => row.map(cell).join(",") + "\r\n").join("");
}

export { count };
