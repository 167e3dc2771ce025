// The views of objects other than units.
import { get, objectOf, send, state } from "./api.js";
import {
  button, classOf, entryText, errorBox, hrefOf, kindOfParty, link, message, named, one, panel, parcelLink,
    partyLink, pastNotice,
  rolesText, success, unitLink,
} from "./components.js";
import { h, safeString, safeText } from "./dom.js";
import { pageOf } from "./mirror.js";
import { when } from "./moments.js";
import { changesOf, contentRows, titleText } from "./mutations.js";
import { areaOf, plan } from "./plan.js";
import { parts, t } from "./words.js";
import { decisionDialog } from "./dialogs.js";
import { tableOf } from "./lists.js";

const lines = (rows) => h("dl", {}, ...rows.flatMap(([name, ...value]) => [h("dt", {}, name),
  h("dd", {}, ...value)]));

async function sourceLink(number) {
  const source = ["notary", "stateAdministrator"].includes(state.role) ? await objectOf("sources", number) :
    null;
  return source ? named("sources", number, source.title) : t("one.sources") + " " + number;
}

const memberOf = async (m, spot) => [spot ? ", " : "", await partyLink(m.party), " " + m.share];

// The object that a document belongs to: a source takes the number before that of the object that an act
// creates with it.
async function ofSource(number) {
  const mutation = await objectOf("mutations", number + 1);
  if (mutation && mutation.source === number) return h("a", { href: hrefOf("mutations", number + 1) },
    safeText(await titleText(mutation)));
  const entry = await objectOf("rrrs", number + 1);
  if (entry && entry.source === number) return h("a", { href: hrefOf("rrrs", number + 1) }, classOf(entry));
  const unit = await objectOf("units", number + 1);
  return unit ? named("units", number + 1, unit.name) : "";
}

// The properties shown for an object of each kind, and its title.
const ROWS = {
  parties: async (o) => [[t("col.kind"), kindOfParty(o)], [t("col.roles"), rolesText(o.roles)],
    ...(o.members.length ? [[t("party.members"), ...(await Promise.all(o.members.map(memberOf))).flat()]] :
      [])],
  parcels: async (o) => [[t("one.units"), await unitLink(o.unit)], [t("col.area"), areaOf(o.outline) + " m²"],
    [t("col.document"), await sourceLink(o.source)],
    [t("col.outline"), h("details", {}, h("summary", {}, t("parcel.outline")), h("code", {}, o.outline))]],
  rrrs: async (o) => [[t("one.units"), await unitLink(o.unit)], [t("col.holder"), await partyLink(o.party)],
    [t("col.details"), entryText(o)], [t("col.document"), await sourceLink(o.source)]],
  sources: async (o) => {
    const of = await ofSource(o.number);
    return [[t("col.kind"), t("source." + o.kind)], ...(of ? [[t("source.of"), of]] : [])];
  },
  mutations: async (o) => [[t("col.state"), h("span", { class: "state " + o.state }, t("state." + o.state))],
    [t("col.lodger"), await partyLink(o.lodger)], [t("col.lodged"), when(o.lodged)],
      [t("col.reference"), safeText(o.reference)],
    [t("col.document"), await sourceLink(o.source)], ...await contentRows(o)],
};

const TITLES = {
  parties: async (o) => o.name,
  parcels: async (o) => one("parcels") + " " + o.label,
  sources: async (o) => o.title,
  mutations: titleText,
  rrrs: async (o) => {
    const party = await objectOf("parties", o.party);
    return classOf(o) + (party ? ": " + party.name : "");
  },
};

// The acts that start at an object.
function actions(kind, o) {
  if (state.at !== null) return "";
  const act = (name, key) => h("a", { class: "button", href: hrefOf("do", name, key + "-" + o.number) },
    t("act." + name));
  const office = state.role === "stateAdministrator";
  const found = [];
  if (kind === "parties" && office) found.push(...(o.kind === "group" ? [act("regroup", "group")] :
    [act("grant", "party"), act("revoke", "party")]));
  if (kind === "parcels" && state.role === "certifiedSurveyor") found.push(act("subdivision", "parcel"),
    act("merger", "parcel"));
  if (kind === "rrrs" && office && o.words) found.push(act("lift", "rrr"));
  if (kind === "rrrs" && o.share && ["notary", "conveyancer"].includes(state.role)) found.push(act("transfer",
    "right"));
  if (kind === "rrrs" && o.class === "mortgage" && ["notary",
    "bank"].includes(state.role)) found.push(act("discharge", "mortgage"));
  return found.length ? h("p", { class: "tools no-print" }, ...found) : "";
}

// Lists that belong to an object, with the mirror: the entries of a party.
async function related(kind, o) {
  if (kind !== "parties") return "";
  const found = await pageOf("rrrs", { party: o.number, limit: 50, sort: "-number" });
  if (!found || found.objects.length === 0) return "";
  return panel(t("party.entries"), await tableOf("rrrs", found.objects, found.more ?
    t("list.first", { n: 50 }) : t("list.all", { n: found.objects.length })));
}

export async function objectView(kind, number) {
  const reply = await get(kind + "/" + number);
  if (reply.status !== 200) return [one(kind) + " " + number, pastNotice(), errorBox(reply)];
  const o = reply.body.object;
  const title = await TITLES[kind](o);
  const view = [title, h("p", { class: "subtitle" }, one(kind) + " " + number), pastNotice(),
    actions(kind, o), panel("", lines(await ROWS[kind](o)))];
  if (kind === "parcels") view.push(panel(t("plan.title"), plan([{ ...o, here: true }])));
  if (kind === "mutations") view.push(...await mutationPanels(o));
  view.push(await related(kind, o));
  return view;
}

async function mutationPanels(o) {
  if (o.state !== "lodged" || state.at !== null) {
    const { first, rest, outline, label } = o.content;
    if (first) return [panel(t("content.parts"), plan([first,
      ...rest].map((p, n) => ({ number: n + 1, ...p }))))];
    return outline ? [panel(t("content.newParcel"), plan([{ number: 1, label, outline }]))] : [];
  }
  const changes = await changesOf(o);
  const view = changes ? [panel(t("change.title"), ...changes)] : [];
  if (state.role === "stateAdministrator") view.push(await decision(o));
  return view;
}

// The form with which the office approves or refuses a mutation. Afterwards the view shows the mutation as
// the register has it.
async function decision(o) {
  if (o.lodger === state.me) return panel(t("decide.title"),
    h("p", {}, t("rule.10") + " ", h("span", { class: "mark" }, "(" + t("mark.rule", { n: "10" }) + ")")));
  const answer = h("div", { class: "answer" });
  const title = safeString(await titleText(o));
  const act = (word) => button(t("decide." + word), async () => {
    if (!await decisionDialog(t("decide.ask." + word), title)) return;
    buttons.forEach((node) => { node.disabled = true; });
    const reply = await send("acts/" + word, { mutation: o.number });
    if (reply.status === 200) {
      announce(word, reply.body);
      return;
    }
    buttons.forEach((node) => { node.disabled = false; });
    answer.replaceChildren(errorBox(reply, reply.body && reply.body.refused === 201 ?
      h("p", {}, t("decide.decided")) : ""));
  }, { class: word === "approve" ? "main" : "" });
  const buttons = [act("approve"), act("refuse")];
  return h("section", { class: "panel no-print" }, h("h2", {}, t("decide.title")),
    h("p", { class: "lead" }, t("decide.lead")),
    h("p", { class: "tools" }, ...buttons), answer);
}

// What the last act did, shown once above the view that is rendered again.
let notice = null;

function announce(word, body) {
  const made = body.made.length ? [" ", ...parts("decide.made",
    { n: body.made.length, list: body.made.join(", ") })] : [];
  notice = { place: location.hash, node: success(t("decide.done." + word),
    ...parts("decide.at", { when: when(body.stamp) }), ...made) };
  window.dispatchEvent(new Event("land-render"));
}

export function takeNotice() {
  const found = notice && notice.place === location.hash ? notice.node : "";
  notice = null;
  return found;
}

export const leaveNotice = (place, node) => { notice = { place, node }; };

export { link, message, parcelLink };
